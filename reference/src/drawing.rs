//! Drawings, from docs/DRAWINGS.md. A package is counted element by element, as it is defined.

use crate::causes::{Bank, Cause};
use crate::layout::Layout;
use std::collections::BTreeSet;

pub const MOST_SHARE: u64 = 1_048_576;

#[derive(Debug, Clone, Copy, PartialEq, Eq)]
pub enum Operation {
    Identity,
    Transpose,
    ConjugateTranspose,
}

impl Operation {
    fn of(letter: char) -> Result<Operation, Cause> {
        match letter {
            'N' => Ok(Operation::Identity),
            'T' => Ok(Operation::Transpose),
            'C' => Ok(Operation::ConjugateTranspose),
            _ => Err(Cause::Letter(letter)),
        }
    }

    /// The pair of rows and columns, exchanged by both transposes.
    fn turn<T>(self, rows: T, columns: T) -> (T, T) {
        match self {
            Operation::Identity => (rows, columns),
            Operation::Transpose | Operation::ConjugateTranspose => (columns, rows),
        }
    }
}

#[derive(Debug, Clone)]
pub struct Drawing {
    pub operation: Operation,
    pub boards: usize,
    /// Rows and columns of cells.
    pub overlay: (usize, usize),
    /// The elements that each sender has for each role.
    pub packages: Vec<Vec<u64>>,
}

impl Drawing {
    pub fn new(
        letter: char,
        target: &Layout,
        source: &Layout,
        source_share: u64,
        target_share: u64,
    ) -> Result<Drawing, Cause> {
        let operation = Operation::of(letter)?;
        check_fit(operation, target, source)?;
        check_share(Bank::Source, source, source_share)?;
        check_share(Bank::Target, target, target_share)?;
        let (rows, columns) = operation.turn(&source.row_splits, &source.column_splits);
        let overlay = (cells_along(&target.row_splits, rows), cells_along(&target.column_splits, columns));
        let packages = packages(operation, target, source);
        Ok(Drawing { operation, boards: target.boards, overlay, packages })
    }
}

fn check_fit(operation: Operation, target: &Layout, source: &Layout) -> Result<(), Cause> {
    let (rows, columns) = operation.turn(target.rows, target.columns);
    let pairs = [(source.rows, rows), (source.columns, columns), (source.boards, target.boards)];
    match pairs.iter().find(|(is, due)| is != due) {
        Some((is, _)) => Err(Cause::Size(*is as u64)),
        None => Ok(()),
    }
}

fn check_share(bank: Bank, layout: &Layout, share: u64) -> Result<(), Cause> {
    if !(1..=MOST_SHARE).contains(&share) {
        return Err(Cause::ShareLimits { bank, boards: layout.boards });
    }
    match layout.totals().iter().position(|total| *total > share) {
        Some(owner) => Err(Cause::ShareExceeded { bank, owner }),
        None => Ok(()),
    }
}

/// How many cells lie along a side that is cut at both lists of splits.
fn cells_along(one: &[usize], other: &[usize]) -> usize {
    let union: BTreeSet<_> = one.iter().chain(other).collect();
    union.len() - 1
}

fn packages(operation: Operation, target: &Layout, source: &Layout) -> Vec<Vec<u64>> {
    let roles = target.owners_of_elements();
    let senders = source.owners_of_elements();
    let mut packages = vec![vec![0; target.boards]; target.boards];
    for row in 0..target.rows {
        for column in 0..target.columns {
            let (from_row, from_column) = operation.turn(row, column);
            packages[senders[from_row][from_column]][roles[row][column]] += 1;
        }
    }
    packages
}

#[cfg(test)]
mod tests {
    use super::*;
    use crate::job::Spread;

    fn layout(size: (u64, u64), row_splits: &[u64], column_splits: &[u64], owners: &[u64]) -> Layout {
        let spread = Spread {
            rows: size.0,
            columns: size.1,
            row_splits: row_splits.to_vec(),
            column_splits: column_splits.to_vec(),
            owners: owners.to_vec(),
            order: 'C',
            share: 1,
        };
        Layout::new(2, &spread).unwrap()
    }

    fn target() -> Layout {
        layout((3, 4), &[0, 1, 3], &[0, 4], &[0, 1])
    }

    #[test]
    fn first_example_of_the_page() {
        let source = layout((3, 4), &[0, 3], &[0, 3, 4], &[0, 1]);
        let drawing = Drawing::new('N', &target(), &source, 9, 8).unwrap();
        assert_eq!(drawing.overlay, (2, 2));
        assert_eq!(drawing.packages, [[3, 6], [1, 2]]);
    }

    #[test]
    fn second_example_of_the_page() {
        let source = layout((4, 3), &[0, 3, 4], &[0, 2, 3], &[0, 1, 1, 0]);
        let drawing = Drawing::new('T', &target(), &source, 7, 8).unwrap();
        assert_eq!(drawing.overlay, (3, 2));
        assert_eq!(drawing.packages, [[3, 4], [1, 4]]);
    }

    #[test]
    fn refusals_from_the_top() {
        let source = layout((3, 4), &[0, 3], &[0, 3, 4], &[0, 1]);
        let make = |letter, source_share, target_share| {
            Drawing::new(letter, &target(), &source, source_share, target_share).unwrap_err()
        };
        assert_eq!(make('n', 0, 0), Cause::Letter('n'));
        assert_eq!(make('T', 0, 0), Cause::Size(3));
        assert_eq!(make('N', 0, 0), Cause::ShareLimits { bank: Bank::Source, boards: 2 });
        assert_eq!(make('N', 8, 0), Cause::ShareExceeded { bank: Bank::Source, owner: 0 });
        assert_eq!(make('N', 9, MOST_SHARE + 1), Cause::ShareLimits { bank: Bank::Target, boards: 2 });
        assert_eq!(make('N', 9, 7), Cause::ShareExceeded { bank: Bank::Target, owner: 1 });
    }
}
