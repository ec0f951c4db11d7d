//! Tariffs, from docs/TARIFFS.md.

use crate::causes::Cause;
use crate::layout::check_boards;
use crate::lists::wrong_bounded;

pub const MOST_BYTES: u64 = 16_777_216;
pub const MOST_LATENCY: u64 = 1_000_000_000;
pub const MOST_PRICE_OF_A_BYTE: u64 = 10_000;
pub const MOST_CHARGE: u64 = 1_000;
pub const MOST_PRICE: u64 = 1 << 40;

#[derive(Debug, Clone, Copy)]
pub struct Question {
    pub sender: usize,
    pub receiver: usize,
    pub bytes: u64,
    pub transformed: bool,
}

#[derive(Debug, Clone)]
pub enum Tariff {
    Plain { boards: usize },
    Table { boards: usize, list: Vec<u64> },
    Surcharge { below: Box<Tariff>, charges: Vec<u64> },
}

impl Tariff {
    pub fn plain(boards: u64) -> Result<Tariff, Cause> {
        check_boards(boards)?;
        Ok(Tariff::Plain { boards: boards as usize })
    }

    /// The list has the latencies and then the prices of a byte, both row by row.
    pub fn table(boards: u64, list: &[u64]) -> Result<Tariff, Cause> {
        check_boards(boards)?;
        let boards = boards as usize;
        let pairs = boards * boards;
        let most = |index| if index < pairs { MOST_LATENCY } else { MOST_PRICE_OF_A_BYTE };
        match wrong_bounded(list, 2 * pairs, most) {
            Some(index) => Err(Cause::Limits(index)),
            None => Ok(Tariff::Table { boards, list: list.to_vec() }),
        }
    }

    pub fn surcharged(self, charges: &[u64]) -> Result<Tariff, Cause> {
        match wrong_bounded(charges, self.boards(), |_| MOST_CHARGE) {
            Some(index) => Err(Cause::Limits(index)),
            None => Ok(Tariff::Surcharge { below: Box::new(self), charges: charges.to_vec() }),
        }
    }

    pub fn boards(&self) -> usize {
        match self {
            Tariff::Plain { boards } | Tariff::Table { boards, .. } => *boards,
            Tariff::Surcharge { below, .. } => below.boards(),
        }
    }

    pub fn price(&self, question: Question) -> Result<u64, Cause> {
        for board in [question.sender, question.receiver] {
            if board >= self.boards() {
                return Err(Cause::Board(board as u64));
            }
        }
        if question.bytes > MOST_BYTES {
            return Err(Cause::Limits(0));
        }
        Ok(self.cost(question))
    }

    fn cost(&self, question: Question) -> u64 {
        let Question { sender, receiver, bytes, transformed } = question;
        match self {
            Tariff::Plain { .. } => bytes * u64::from(sender != receiver),
            Tariff::Table { .. } if bytes == 0 => 0,
            Tariff::Table { boards, list } => {
                let pair = sender * boards + receiver;
                list[pair] + bytes * list[boards * boards + pair]
            }
            Tariff::Surcharge { below, charges } => {
                let charge = if transformed { bytes * charges[receiver] } else { 0 };
                (below.cost(question) + charge).min(MOST_PRICE)
            }
        }
    }
}

#[cfg(test)]
mod tests {
    use super::*;

    fn ask(sender: usize, receiver: usize, bytes: u64) -> Question {
        Question { sender, receiver, bytes, transformed: true }
    }

    #[test]
    fn prices_of_the_page() {
        let plain = Tariff::plain(2).unwrap();
        assert_eq!(plain.price(ask(0, 1, 12)), Ok(12));
        assert_eq!(plain.price(ask(1, 1, 12)), Ok(0));
        let table = Tariff::table(2, &[100, 100, 100, 100, 3, 3, 3, 3]).unwrap();
        assert_eq!(table.price(ask(1, 1, 12)), Ok(136));
        assert_eq!(table.price(ask(1, 1, 0)), Ok(0));
        let charged = table.surcharged(&[5, 7]).unwrap();
        assert_eq!(charged.price(ask(0, 1, 12)), Ok(136 + 84));
        let untouched = Question { transformed: false, ..ask(0, 1, 12) };
        assert_eq!(charged.price(untouched), Ok(136));
    }

    #[test]
    fn a_surcharge_never_exceeds_the_cap() {
        let top = [MOST_LATENCY, MOST_PRICE_OF_A_BYTE];
        let mut tariff = Tariff::table(1, &top).unwrap();
        let mut due = MOST_LATENCY + MOST_BYTES * MOST_PRICE_OF_A_BYTE;
        for _ in 0..80 {
            tariff = tariff.surcharged(&[MOST_CHARGE]).unwrap();
            due = (due + MOST_BYTES * MOST_CHARGE).min(MOST_PRICE);
            assert_eq!(tariff.price(ask(0, 0, MOST_BYTES)), Ok(due));
        }
        assert_eq!(due, MOST_PRICE);
    }

    #[test]
    fn questions_are_refused_from_the_top() {
        let tariff = Tariff::plain(2).unwrap().surcharged(&[0, 1000]).unwrap();
        assert_eq!(tariff.price(ask(2, 3, MOST_BYTES + 1)), Err(Cause::Board(2)));
        assert_eq!(tariff.price(ask(1, 3, MOST_BYTES + 1)), Err(Cause::Board(3)));
        assert_eq!(tariff.price(ask(1, 1, MOST_BYTES + 1)), Err(Cause::Limits(0)));
    }

    #[test]
    fn lists_are_refused_at_their_first_wrong_index() {
        let refused = |list: &[u64]| Tariff::table(1, list).unwrap_err();
        assert_eq!(refused(&[]), Cause::Limits(0));
        assert_eq!(refused(&[MOST_LATENCY + 1, 0]), Cause::Limits(0));
        assert_eq!(refused(&[MOST_LATENCY, MOST_PRICE_OF_A_BYTE + 1]), Cause::Limits(1));
        assert_eq!(refused(&[0, 0, 0]), Cause::Limits(2));
        let charges = |list: &[u64]| Tariff::plain(2).unwrap().surcharged(list).unwrap_err();
        assert_eq!(charges(&[1000]), Cause::Limits(1));
        assert_eq!(charges(&[1000, 1001]), Cause::Limits(1));
        assert_eq!(charges(&[1000, 1000, 0]), Cause::Limits(2));
    }
}
