//! Plans and their sheets, from docs/SHEETS.md.

use crate::causes::Cause;

pub const MOST_BOARDS: i128 = 16;
pub const MOST_PRICE: i128 = 1_125_899_906_842_624;
pub const MOST_BILL: i128 = 281_474_976_710_656;

/// What a plan says of a number x: the board of role x, the price of role x and the price of board x.
#[derive(Debug, Clone, Copy, PartialEq, Eq)]
pub struct Line {
    pub board: usize,
    pub u: i64,
    pub v: i64,
}

/// A plan for as many boards as it has lines.
#[derive(Debug, Clone, PartialEq, Eq)]
pub struct Plan {
    pub bill: u64,
    pub lines: Vec<Line>,
}

impl Plan {
    pub fn boards(&self) -> usize {
        self.lines.len()
    }

    pub fn read(bytes: &[u8]) -> Result<Plan, Cause> {
        let mut walk = Walk { rest: bytes, line: 1, column: 1 };
        let boards = walk.number(4, 1, MOST_BOARDS)?;
        let bill = walk.number(20, 0, MOST_BILL)? as u64;
        walk.line_end()?;
        let mut lines = Vec::new();
        for x in 0..boards {
            walk.number(4, x, x)?;
            let board = walk.number(4, 0, boards - 1)? as usize;
            let u = walk.number(20, -MOST_PRICE, MOST_PRICE)? as i64;
            let v = walk.number(20, -MOST_PRICE, MOST_PRICE)? as i64;
            walk.line_end()?;
            lines.push(Line { board, u, v });
        }
        if walk.rest.is_empty() {
            Ok(Plan { bill, lines })
        } else {
            Err(walk.refusal())
        }
    }

    pub fn write(&self) -> Vec<u8> {
        let fields = |line: &Line| (line.board as i128, i128::from(line.u), i128::from(line.v));
        let lines: Vec<_> = self.lines.iter().map(fields).collect();
        write(self.boards() as i128, i128::from(self.bill), &lines)
    }
}

/// A sheet of any numbers, also of ones beyond their limits: the count, the bill, and σ, u and v of each line.
pub fn write(boards: i128, bill: i128, lines: &[(i128, i128, i128)]) -> Vec<u8> {
    let mut text = format!("{boards:>4}{bill:>20}\n");
    for (x, (board, u, v)) in lines.iter().enumerate() {
        text.push_str(&format!("{x:>4}{board:>4}{u:>20}{v:>20}\n"));
    }
    text.into_bytes()
}

/// Walks over the bytes of a sheet, field by field.
struct Walk<'a> {
    rest: &'a [u8],
    line: usize,
    column: usize,
}

impl<'a> Walk<'a> {
    fn refusal(&self) -> Cause {
        Cause::Field { line: self.line, column: self.column }
    }

    fn field(&mut self, width: usize) -> Result<&'a [u8], Cause> {
        if self.rest.len() < width {
            return Err(self.refusal());
        }
        let (field, rest) = self.rest.split_at(width);
        self.rest = rest;
        Ok(field)
    }

    /// A number from `low` to `high`, right-justified in `width` columns.
    fn number(&mut self, width: usize, low: i128, high: i128) -> Result<i128, Cause> {
        let refusal = self.refusal();
        let field = self.field(width)?;
        let number = parse(field).filter(|n| low <= *n && *n <= high).ok_or(refusal)?;
        self.column += width;
        Ok(number)
    }

    fn line_end(&mut self) -> Result<(), Cause> {
        let refusal = self.refusal();
        if self.field(1)? != b"\n" {
            return Err(refusal);
        }
        self.line += 1;
        self.column = 1;
        Ok(())
    }
}

/// Blanks, then perhaps a minus, then digits without a leading zero; no minus before 0.
fn parse(field: &[u8]) -> Option<i128> {
    let first = field.iter().position(|b| *b != b' ')?;
    let text = &field[first..];
    let (minus, digits) = match text.split_first() {
        Some((b'-', digits)) => (true, digits),
        _ => (false, text),
    };
    if digits.is_empty() || !digits.iter().all(u8::is_ascii_digit) {
        return None;
    }
    if digits[0] == b'0' && (digits.len() > 1 || minus) {
        return None;
    }
    let mut number: i128 = 0;
    for d in digits {
        number = number * 10 + i128::from(d - b'0');
    }
    Some(if minus { -number } else { number })
}

#[cfg(test)]
mod tests {
    use super::*;

    fn page() -> Plan {
        Plan { bill: 20, lines: vec![Line { board: 1, u: 4, v: 0 }, Line { board: 0, u: 8, v: 8 }] }
    }

    #[test]
    fn the_sheet_of_the_page() {
        let sheet = String::from_utf8(page().write()).unwrap();
        assert!(include_str!("../../docs/SHEETS.md").contains(&sheet));
        assert_eq!(Plan::read(sheet.as_bytes()), Ok(page()));
    }

    #[test]
    fn a_field_that_is_not_legal_is_named() {
        let sheet = page().write();
        let refused = |bytes: &[u8]| Plan::read(bytes).unwrap_err();
        assert_eq!(refused(b""), Cause::Field { line: 1, column: 1 });
        assert_eq!(refused(&sheet[..24]), Cause::Field { line: 1, column: 25 });
        assert_eq!(refused(&sheet[..73]), Cause::Field { line: 2, column: 49 });
        assert_eq!(refused(&[&sheet[..], b"x"].concat()), Cause::Field { line: 4, column: 1 });
        let with = |at: usize, byte: u8| [&sheet[..at], &[byte], &sheet[at + 1..]].concat();
        assert_eq!(refused(&with(32, b'2')), Cause::Field { line: 2, column: 5 });
        assert_eq!(refused(&with(51, b'0')), Cause::Field { line: 2, column: 9 });
        assert_eq!(refused(&with(71, b'-')), Cause::Field { line: 2, column: 29 });
    }
}
