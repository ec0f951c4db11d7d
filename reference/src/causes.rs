//! The causes of refusals: numbers and values from docs/CAUSES.md, words from docs/JOBS.md.

use std::fmt;

#[derive(Debug, Clone, Copy, PartialEq, Eq)]
pub enum Axis {
    Rows,
    Columns,
}

#[derive(Debug, Clone, Copy, PartialEq, Eq)]
pub enum Bank {
    Source,
    Target,
}

impl Bank {
    pub fn name(self) -> &'static str {
        match self {
            Bank::Source => "source",
            Bank::Target => "target",
        }
    }
}

#[derive(Debug, Clone, Copy, PartialEq, Eq)]
pub enum State {
    Empty,
    Drawn,
    Settled,
    Running,
}

impl State {
    pub fn name(self) -> &'static str {
        match self {
            State::Empty => "empty",
            State::Drawn => "drawn",
            State::Settled => "settled",
            State::Running => "running",
        }
    }
}

/// What a role of a proposed plan breaks; it is not printed.
#[derive(Debug, Clone, Copy, PartialEq, Eq)]
pub enum Rule {
    Naming,
    PriceLimits,
    Sums,
}

/// Causes 6, 9 and 14 have two variants each, since their values have two meanings.
#[derive(Debug, Clone, Copy, PartialEq, Eq)]
pub enum Cause {
    Letter(char),
    Board(u64),
    Size(u64),
    Splits(Axis, usize),
    Owners(usize),
    ShareLimits { bank: Bank, boards: usize },
    ShareExceeded { bank: Bank, owner: usize },
    State(State),
    OtherCount(usize),
    PlanRole { role: usize, rule: Rule },
    PlanBill { boards: usize },
    Lease,
    Length(usize),
    NothingDue { board: usize },
    NotOpen { board: usize },
    FrameWord(usize),
    FrameLength,
    TooEarly { missing: usize },
    Field { line: usize, column: usize },
    Limits(usize),
}

impl Cause {
    pub fn number(self) -> u8 {
        match self {
            Cause::Letter(_) => 1,
            Cause::Board(_) => 2,
            Cause::Size(_) => 3,
            Cause::Splits(..) => 4,
            Cause::Owners(_) => 5,
            Cause::ShareLimits { .. } | Cause::ShareExceeded { .. } => 6,
            Cause::State(_) => 7,
            Cause::OtherCount(_) => 8,
            Cause::PlanRole { .. } | Cause::PlanBill { .. } => 9,
            Cause::Lease => 10,
            Cause::Length(_) => 11,
            Cause::NothingDue { .. } => 12,
            Cause::NotOpen { .. } => 13,
            Cause::FrameWord(_) | Cause::FrameLength => 14,
            Cause::TooEarly { .. } => 15,
            Cause::Field { .. } => 16,
            Cause::Limits(_) => 17,
        }
    }

    pub fn values(self) -> Vec<u64> {
        match self {
            Cause::Letter(letter) => vec![u64::from(u32::from(letter))],
            Cause::Board(number) | Cause::Size(number) => vec![number],
            Cause::Splits(axis, index) => vec![axis as u64, index as u64],
            Cause::ShareLimits { bank, boards } => vec![bank as u64, boards as u64],
            Cause::ShareExceeded { bank, owner } => vec![bank as u64, owner as u64],
            Cause::State(state) => vec![state as u64],
            Cause::Lease => vec![],
            Cause::FrameLength => vec![4],
            Cause::Field { line, column } => vec![line as u64, column as u64],
            Cause::Owners(n)
            | Cause::OtherCount(n)
            | Cause::PlanRole { role: n, .. }
            | Cause::PlanBill { boards: n }
            | Cause::Length(n)
            | Cause::NothingDue { board: n }
            | Cause::NotOpen { board: n }
            | Cause::FrameWord(n)
            | Cause::TooEarly { missing: n }
            | Cause::Limits(n) => vec![n as u64],
        }
    }

    pub fn meaning(self) -> String {
        match self {
            Cause::Letter(letter) => format!("the letter of code {} names nothing", u32::from(letter)),
            Cause::Board(number) => format!("{number} is no count of boards and no board"),
            Cause::Size(size) => format!("the size {size} is outside the limits or does not fit"),
            Cause::Splits(Axis::Rows, index) => format!("row splits are wrong at index {index}"),
            Cause::Splits(Axis::Columns, index) => format!("column splits are wrong at index {index}"),
            Cause::Owners(index) => format!("owners are wrong at index {index}"),
            Cause::ShareLimits { bank, .. } => format!("the {} share is outside the limits", bank.name()),
            Cause::ShareExceeded { bank, owner } => {
                format!("the {} share is too small for board {owner}", bank.name())
            }
            Cause::State(state) => format!("the book is {}", state.name()),
            Cause::OtherCount(count) => format!("the tariff or the plan is for {count} boards"),
            Cause::PlanRole { role, .. } => format!("the plan fails at role {role}"),
            Cause::PlanBill { .. } => "the plan's bill is not its naming's".to_string(),
            Cause::Lease => "the lease is of another pass".to_string(),
            Cause::Length(due) => format!("the length is not the {due} that is due"),
            Cause::NothingDue { board } => format!("nothing waits or is due on board {board}"),
            Cause::NotOpen { board } => format!("board {board} is not open"),
            Cause::FrameWord(word) => format!("the frame is not due, by its word {word}"),
            Cause::FrameLength => "the frame's length is not due".to_string(),
            Cause::TooEarly { missing } => format!("{missing} elements are missing"),
            Cause::Field { line, column } => {
                format!("the sheet's field at line {line}, column {column} is not legal")
            }
            Cause::Limits(index) => {
                format!("a price, a charge or a number is beyond its limits at index {index}")
            }
        }
    }
}

impl fmt::Display for Cause {
    fn fmt(&self, f: &mut fmt::Formatter<'_>) -> fmt::Result {
        write!(f, "refused {}", self.number())?;
        for value in self.values() {
            write!(f, " {value}")?;
        }
        write!(f, ": {}", self.meaning())
    }
}

#[cfg(test)]
mod tests {
    use super::*;

    #[test]
    fn lines_are_those_of_the_page() {
        let page = include_str!("../../docs/JOBS.md");
        let causes = [
            Cause::Letter('X'),
            Cause::Board(17),
            Cause::Size(1025),
            Cause::Splits(Axis::Rows, 2),
            Cause::Splits(Axis::Columns, 2),
            Cause::Owners(3),
            Cause::ShareExceeded { bank: Bank::Source, owner: 1 },
            Cause::ShareLimits { bank: Bank::Target, boards: 2 },
            Cause::State(State::Empty),
            Cause::OtherCount(3),
            Cause::PlanRole { role: 0, rule: Rule::Sums },
            Cause::PlanBill { boards: 2 },
            Cause::Lease,
            Cause::Length(64),
            Cause::NothingDue { board: 1 },
            Cause::NotOpen { board: 1 },
            Cause::FrameWord(1),
            Cause::FrameLength,
            Cause::TooEarly { missing: 7 },
            Cause::Field { line: 2, column: 5 },
            Cause::Limits(0),
        ];
        for cause in causes {
            assert!(page.contains(&format!("`{cause}`")), "{cause}");
        }
    }
}
