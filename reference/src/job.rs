//! A job as its text says it, right or wrong.

/// A matrix spread over the boards, and its bank's share.
#[derive(Debug, Clone, PartialEq, Eq)]
pub struct Spread {
    pub rows: u64,
    pub columns: u64,
    pub row_splits: Vec<u64>,
    pub column_splits: Vec<u64>,
    pub owners: Vec<u64>,
    pub order: char,
    pub share: u64,
}

/// The factor of a job, of the kind that the matrix holds.
#[derive(Debug, Clone, Copy, PartialEq, Eq)]
pub enum Alpha {
    Word(u32),
    Pair(u32, u32),
}

impl Alpha {
    pub fn is_one(self) -> bool {
        matches!(self, Alpha::Word(1) | Alpha::Pair(1, 0))
    }

    pub fn bytes_of_an_element(self) -> u64 {
        match self {
            Alpha::Word(_) => 4,
            Alpha::Pair(..) => 8,
        }
    }
}

#[derive(Debug, Clone, PartialEq, Eq)]
pub enum Rates {
    Plain,
    Table(Vec<u64>),
}

#[derive(Debug, Clone, PartialEq, Eq)]
pub struct Job {
    pub boards: u64,
    pub operation: char,
    pub alpha: Alpha,
    pub target: Spread,
    pub source: Spread,
    pub rates: Rates,
    pub surcharges: Vec<Vec<u64>>,
}
