//! Layouts, from docs/LAYOUTS.md.

use crate::causes::{Axis, Cause};
use crate::job::Spread;
use crate::lists::{wrong_bounded, wrong_splits};

pub const MOST_BOARDS: u64 = 16;
pub const MOST_SIZE: u64 = 1024;

#[derive(Debug, Clone, Copy, PartialEq, Eq)]
pub enum Order {
    RowMajor,
    ColumnMajor,
}

impl Order {
    fn of(letter: char) -> Result<Order, Cause> {
        match letter {
            'R' => Ok(Order::RowMajor),
            'C' => Ok(Order::ColumnMajor),
            _ => Err(Cause::Letter(letter)),
        }
    }
}

#[derive(Debug, Clone)]
pub struct Layout {
    pub order: Order,
    pub boards: usize,
    pub rows: usize,
    pub columns: usize,
    pub row_splits: Vec<usize>,
    pub column_splits: Vec<usize>,
    pub owners: Vec<usize>,
}

impl Layout {
    pub fn new(boards: u64, spread: &Spread) -> Result<Layout, Cause> {
        let order = Order::of(spread.order)?;
        check_boards(boards)?;
        check_size(spread.rows)?;
        check_size(spread.columns)?;
        check_splits(Axis::Rows, &spread.row_splits, spread.rows)?;
        check_splits(Axis::Columns, &spread.column_splits, spread.columns)?;
        let blocks = (spread.row_splits.len() - 1) * (spread.column_splits.len() - 1);
        if let Some(index) = wrong_bounded(&spread.owners, blocks, |_| boards - 1) {
            return Err(Cause::Owners(index));
        }
        Ok(Layout {
            order,
            boards: boards as usize,
            rows: spread.rows as usize,
            columns: spread.columns as usize,
            row_splits: sizes(&spread.row_splits),
            column_splits: sizes(&spread.column_splits),
            owners: sizes(&spread.owners),
        })
    }

    fn row_blocks(&self) -> usize {
        self.row_splits.len() - 1
    }

    fn column_blocks(&self) -> usize {
        self.column_splits.len() - 1
    }

    /// The owner of each element, row by row.
    pub fn owners_of_elements(&self) -> Vec<Vec<usize>> {
        let columns = blocks_of_indices(&self.column_splits);
        let row_of = |i: usize| columns.iter().map(|j| self.owners[i * self.column_blocks() + j]).collect();
        blocks_of_indices(&self.row_splits).into_iter().map(row_of).collect()
    }

    /// How many elements each board's blocks have in all.
    pub fn totals(&self) -> Vec<u64> {
        let mut totals = vec![0; self.boards];
        for i in 0..self.row_blocks() {
            for j in 0..self.column_blocks() {
                let height = self.row_splits[i + 1] - self.row_splits[i];
                let width = self.column_splits[j + 1] - self.column_splits[j];
                totals[self.owners[i * self.column_blocks() + j]] += (height * width) as u64;
            }
        }
        totals
    }
}

pub fn check_boards(boards: u64) -> Result<(), Cause> {
    if (1..=MOST_BOARDS).contains(&boards) {
        Ok(())
    } else {
        Err(Cause::Board(boards))
    }
}

fn check_size(size: u64) -> Result<(), Cause> {
    if (1..=MOST_SIZE).contains(&size) {
        Ok(())
    } else {
        Err(Cause::Size(size))
    }
}

fn check_splits(axis: Axis, splits: &[u64], size: u64) -> Result<(), Cause> {
    match wrong_splits(splits, size) {
        Some(index) => Err(Cause::Splits(axis, index)),
        None => Ok(()),
    }
}

fn sizes(list: &[u64]) -> Vec<usize> {
    list.iter().map(|number| *number as usize).collect()
}

/// For each index of a side the block that has it.
fn blocks_of_indices(splits: &[usize]) -> Vec<usize> {
    let lengths = splits.windows(2).map(|pair| pair[1] - pair[0]);
    lengths.enumerate().flat_map(|(block, length)| std::iter::repeat_n(block, length)).collect()
}

#[cfg(test)]
mod tests {
    use super::*;

    fn page() -> Spread {
        Spread {
            rows: 5,
            columns: 6,
            row_splits: vec![0, 2, 5],
            column_splits: vec![0, 1, 4, 6],
            owners: vec![0, 1, 0, 2, 0, 1],
            order: 'R',
            share: 16,
        }
    }

    #[test]
    fn example_of_the_page() {
        let layout = Layout::new(3, &page()).unwrap();
        assert_eq!(layout.totals(), [15, 12, 3]);
        let owners = layout.owners_of_elements();
        assert_eq!(owners[1], [0, 1, 1, 1, 0, 0]);
        assert_eq!(owners[4], [2, 0, 0, 0, 1, 1]);
    }

    #[test]
    fn refusals_from_the_top() {
        let mut spread = page();
        spread.owners[3] = 3;
        assert_eq!(Layout::new(3, &spread).unwrap_err(), Cause::Owners(3));
        spread.column_splits[3] = 7;
        assert_eq!(Layout::new(3, &spread).unwrap_err(), Cause::Splits(Axis::Columns, 3));
        spread.row_splits.pop();
        assert_eq!(Layout::new(3, &spread).unwrap_err(), Cause::Splits(Axis::Rows, 2));
        spread.columns = 0;
        assert_eq!(Layout::new(3, &spread).unwrap_err(), Cause::Size(0));
        spread.rows = 1025;
        assert_eq!(Layout::new(3, &spread).unwrap_err(), Cause::Size(1025));
        assert_eq!(Layout::new(17, &spread).unwrap_err(), Cause::Board(17));
        spread.order = 'r';
        assert_eq!(Layout::new(17, &spread).unwrap_err(), Cause::Letter('r'));
    }
}
