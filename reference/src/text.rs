//! Reads the text of a job, from docs/JOBS.md.

use crate::causes::Bank;
use crate::job::{Alpha, Job, Rates, Spread};
use crate::mistakes::{Item, Mistake, Part, Wrong};
use crate::words::{
    item_of, kind, letter, numbers, one_number, one_or_two_numbers, rates, two_numbers, words_of, Kind,
};

/// The job of a text, or the first mistake in it.
pub fn read(text: &[u8]) -> Result<Job, Mistake> {
    let mut draft = Draft::default();
    let mut lines = 0;
    for bytes in text.split_inclusive(|byte| *byte == b'\n') {
        lines += 1;
        draft.read_line(lines, bytes).map_err(|wrong| Mistake { line: lines, wrong })?;
    }
    let whole = draft.whole().map_err(|wrong| Mistake { line: lines + 1, wrong })?;
    let line = whole.alpha_line;
    whole.job().map_err(|wrong| Mistake { line, wrong })
}

/// What the lines up to some line say.
#[derive(Default)]
struct Draft {
    seen: Vec<Item>,
    boards: Option<u64>,
    kind: Option<Kind>,
    operation: Option<char>,
    alpha: Option<Vec<u64>>,
    alpha_line: usize,
    target: SpreadDraft,
    source: SpreadDraft,
    rates: Option<Rates>,
    surcharges: Vec<Vec<u64>>,
}

#[derive(Default)]
struct SpreadDraft {
    size: Option<(u64, u64)>,
    rows: Option<Vec<u64>>,
    columns: Option<Vec<u64>>,
    owners: Option<Vec<u64>>,
    order: Option<char>,
    share: Option<u64>,
}

/// A text in which nothing is missing.
struct Whole {
    boards: u64,
    kind: Kind,
    operation: char,
    alpha: Vec<u64>,
    alpha_line: usize,
    target: Spread,
    source: Spread,
    rates: Rates,
    surcharges: Vec<Vec<u64>>,
}

impl Draft {
    fn read_line(&mut self, line: usize, bytes: &[u8]) -> Result<(), Wrong> {
        let text = std::str::from_utf8(bytes).map_err(|_| Wrong::NotUtf8)?;
        let words = words_of(text);
        let Some((item, rest)) = item_of(&words)? else { return Ok(()) };
        if self.seen.iter().filter(|seen| **seen == item).count() >= item.most() {
            return Err(Wrong::OnceTooOften(item));
        }
        self.seen.push(item);
        self.take(item, rest, line)
    }

    fn take(&mut self, item: Item, words: &[&str], line: usize) -> Result<(), Wrong> {
        match item {
            Item::Boards => self.boards = Some(one_number(item, words)?),
            Item::Element => self.kind = Some(kind(words)?),
            Item::Operation => self.operation = Some(letter(item, words)?),
            Item::Alpha => {
                self.alpha_line = line;
                self.alpha = Some(one_or_two_numbers(item, words)?);
            }
            Item::Of(Bank::Target, part) => self.target.take(item, part, words)?,
            Item::Of(Bank::Source, part) => self.source.take(item, part, words)?,
            Item::Tariff => self.rates = Some(rates(item, words)?),
            Item::Surcharge => self.surcharges.push(numbers(item, words, 32)?),
        }
        Ok(())
    }

    fn whole(self) -> Result<Whole, Wrong> {
        Ok(Whole {
            boards: found(self.boards, Item::Boards)?,
            kind: found(self.kind, Item::Element)?,
            operation: found(self.operation, Item::Operation)?,
            alpha: found(self.alpha, Item::Alpha)?,
            alpha_line: self.alpha_line,
            target: self.target.whole(Bank::Target)?,
            source: self.source.whole(Bank::Source)?,
            rates: found(self.rates, Item::Tariff)?,
            surcharges: self.surcharges,
        })
    }
}

impl SpreadDraft {
    fn take(&mut self, item: Item, part: Part, words: &[&str]) -> Result<(), Wrong> {
        match part {
            Part::Size => self.size = Some(two_numbers(item, words)?),
            Part::Rows => self.rows = Some(numbers(item, words, 16)?),
            Part::Columns => self.columns = Some(numbers(item, words, 16)?),
            Part::Owners => self.owners = Some(numbers(item, words, 8)?),
            Part::Order => self.order = Some(letter(item, words)?),
            Part::Share => self.share = Some(one_number(item, words)?),
        }
        Ok(())
    }

    fn whole(self, bank: Bank) -> Result<Spread, Wrong> {
        let (rows, columns) = found(self.size, Item::Of(bank, Part::Size))?;
        Ok(Spread {
            rows,
            columns,
            row_splits: found(self.rows, Item::Of(bank, Part::Rows))?,
            column_splits: found(self.columns, Item::Of(bank, Part::Columns))?,
            owners: found(self.owners, Item::Of(bank, Part::Owners))?,
            order: found(self.order, Item::Of(bank, Part::Order))?,
            share: found(self.share, Item::Of(bank, Part::Share))?,
        })
    }
}

impl Whole {
    fn job(self) -> Result<Job, Wrong> {
        let alpha = match (self.kind, &self.alpha[..]) {
            (Kind::Word, [number]) => Alpha::Word(*number as u32),
            (Kind::Pair, [real, imaginary]) => Alpha::Pair(*real as u32, *imaginary as u32),
            (Kind::Word, _) => return Err(Wrong::OneNumberForAWord),
            (Kind::Pair, _) => return Err(Wrong::TwoNumbersForAPair),
        };
        Ok(Job {
            boards: self.boards,
            operation: self.operation,
            alpha,
            target: self.target,
            source: self.source,
            rates: self.rates,
            surcharges: self.surcharges,
        })
    }
}

fn found<T>(value: Option<T>, item: Item) -> Result<T, Wrong> {
    value.ok_or(Wrong::Missing(item))
}

#[cfg(test)]
mod tests {
    use super::*;

    const PAGE: &str = "boards 2\nelement word\noperation N\nalpha 1\n\
        target size 3 4\ntarget rows 0 1 3\ntarget columns 0 4\ntarget owners 0 1\ntarget order R\n\
        target share 8\nsource size 3 4\nsource rows 0 3\nsource columns 0 3 4\nsource owners 0 1\n\
        source order R\nsource share 9\ntariff plain\n";

    fn mistake(text: &str) -> String {
        read(text.as_bytes()).unwrap_err().to_string()
    }

    #[test]
    fn a_job() {
        let job = read(PAGE.as_bytes()).unwrap();
        assert_eq!((job.boards, job.operation, job.alpha), (2, 'N', Alpha::Word(1)));
        assert_eq!(job.target.row_splits, [0, 1, 3]);
        assert_eq!(read(PAGE.trim_end().as_bytes()), Ok(job.clone()));
        let odd = PAGE.replace('\n', " \r\n").replace("rows", "\trows #").replace("# 0", " 0");
        assert_eq!(read(odd.as_bytes()), Ok(job));
    }

    #[test]
    fn mistakes_of_a_line() {
        let texts = [
            ("boards 1\nboards x", "mistake 2: boards stands once too often"),
            ("# x\n\nboard 1", "mistake 3: no such item: board"),
            ("target", "mistake 1: no such item: target"),
            ("source side 3", "mistake 1: no such item: source side"),
            ("boards 1 x", "mistake 1: boards: one number is due"),
            (
                "boards 18446744073709551616",
                "mistake 1: boards: 18446744073709551616 is not a number of 64 bits",
            ),
            ("target owners 0 00256 x", "mistake 1: target owners: 00256 is not a number of 8 bits"),
            ("source size 3", "mistake 1: source size: two numbers are due"),
            ("alpha", "mistake 1: alpha: one or two numbers are due"),
            ("operation NT", "mistake 1: operation: one letter is due"),
            ("element Word", "mistake 1: element: word or pair is due"),
            ("tariff plain 1", "mistake 1: tariff: plain or table is due"),
        ];
        for (text, due) in texts {
            assert_eq!(mistake(text), due);
        }
        assert_eq!(read(b"boards 1\nnone # \xff").unwrap_err().wrong, Wrong::NotUtf8);
    }

    #[test]
    fn what_is_missing_comes_after_all_lines() {
        assert_eq!(mistake(""), "mistake 1: boards is missing");
        assert_eq!(mistake("boards 1\n"), "mistake 2: element is missing");
        assert_eq!(mistake(&PAGE.replace("tariff plain", "")), "mistake 18: tariff is missing");
        assert_eq!(
            mistake(&PAGE.replace("alpha 1", "alpha 1 0")),
            "mistake 4: alpha: one number is due for a word"
        );
        assert_eq!(
            mistake(&PAGE.replace("word", "pair")),
            "mistake 4: alpha: two numbers are due for a pair"
        );
    }
}
