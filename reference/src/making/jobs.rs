//! Jobs that can be drawn.

use super::numbers::Numbers;
use crate::drawing::MOST_SHARE;
use crate::job::{Alpha, Job, Rates, Spread};
use crate::layout::{Layout, MOST_BOARDS, MOST_SIZE};
use crate::tariff::{MOST_CHARGE, MOST_LATENCY, MOST_PRICE_OF_A_BYTE};
use std::collections::BTreeSet;

#[derive(Debug, Clone, Copy)]
pub enum Scale {
    Small,
    Middle,
    /// Sides up to the largest.
    Wide,
    /// Sides that are cut as often as may be.
    Fine,
}

impl Scale {
    fn side(self, numbers: &mut Numbers) -> u64 {
        match self {
            Scale::Small => numbers.within(1..=6),
            Scale::Middle => numbers.within(1..=40),
            Scale::Wide if numbers.once_in(2) => MOST_SIZE,
            Scale::Wide => numbers.within(100..=MOST_SIZE),
            Scale::Fine => numbers.within(32..=70),
        }
    }

    fn blocks(self, numbers: &mut Numbers, size: u64) -> u64 {
        match self {
            Scale::Small => numbers.within(1..=size.min(3)),
            Scale::Middle | Scale::Wide => numbers.within(1..=size.min(5)),
            Scale::Fine if numbers.once_in(2) => size.min(32),
            Scale::Fine => numbers.within(1..=8),
        }
    }
}

pub fn job(numbers: &mut Numbers, scale: Scale) -> Job {
    let boards = boards(numbers);
    job_over(numbers, scale, boards)
}

pub fn job_over(numbers: &mut Numbers, scale: Scale, boards: u64) -> Job {
    let operation = numbers.pick(&['N', 'N', 'T', 'C']);
    let (rows, columns) = (scale.side(numbers), scale.side(numbers));
    let (source_rows, source_columns) = if operation == 'N' { (rows, columns) } else { (columns, rows) };
    Job {
        boards,
        operation,
        alpha: alpha(numbers),
        target: spread(numbers, scale, boards, rows, columns),
        source: spread(numbers, scale, boards, source_rows, source_columns),
        rates: rates(numbers, boards),
        surcharges: surcharges(numbers, boards),
    }
}

fn boards(numbers: &mut Numbers) -> u64 {
    match numbers.up_to(8) {
        0 => numbers.within(1..=2),
        1..=3 => numbers.within(2..=4),
        4 | 5 => numbers.within(5..=8),
        6 | 7 => numbers.within(9..=15),
        _ => MOST_BOARDS,
    }
}

fn alpha(numbers: &mut Numbers) -> Alpha {
    let any = numbers.up_to(u64::from(u32::MAX)) as u32;
    match numbers.up_to(9) {
        0..=2 => Alpha::Word(1),
        3 => Alpha::Word(numbers.pick(&[0, 2, u32::MAX])),
        4 => Alpha::Word(any),
        5 | 6 => Alpha::Pair(1, 0),
        7 => Alpha::Pair(numbers.pick(&[0, 1, u32::MAX]), 1),
        8 => Alpha::Pair(0, 0),
        _ => Alpha::Pair(any, any / 3),
    }
}

pub fn spread(numbers: &mut Numbers, scale: Scale, boards: u64, rows: u64, columns: u64) -> Spread {
    let row_blocks = scale.blocks(numbers, rows);
    let column_blocks = scale.blocks(numbers, columns);
    let mut spread = Spread {
        rows,
        columns,
        row_splits: splits(numbers, rows, row_blocks),
        column_splits: splits(numbers, columns, column_blocks),
        owners: owners(numbers, boards, row_blocks * column_blocks),
        order: numbers.pick(&['R', 'C']),
        share: 0,
    };
    let needed = needed_share(boards, &spread);
    spread.share = match numbers.up_to(5) {
        0..=2 => needed,
        3 => MOST_SHARE.min(needed + 1),
        4 => numbers.within(needed..=MOST_SHARE),
        _ => MOST_SHARE,
    };
    spread
}

fn splits(numbers: &mut Numbers, size: u64, blocks: u64) -> Vec<u64> {
    let mut splits = BTreeSet::from([0, size]);
    while (splits.len() as u64) <= blocks {
        splits.insert(numbers.within(1..=size));
    }
    splits.into_iter().collect()
}

/// Owners in turn, few owners or any.
fn owners(numbers: &mut Numbers, boards: u64, blocks: u64) -> Vec<u64> {
    let first = numbers.up_to(boards - 1);
    let most = match numbers.up_to(5) {
        0 | 1 => return (0..blocks).map(|block| (first + block) % boards).collect(),
        2 => first,
        _ => boards - 1,
    };
    (0..blocks).map(|_| numbers.up_to(most)).collect()
}

/// The smallest share that the layout fits, 1 where there is no layout.
pub fn needed_share(boards: u64, spread: &Spread) -> u64 {
    let totals = Layout::new(boards, spread).map(|layout| layout.totals()).unwrap_or_default();
    totals.into_iter().max().unwrap_or(1)
}

fn rates(numbers: &mut Numbers, boards: u64) -> Rates {
    if numbers.once_in(if boards <= 5 { 2 } else { 9 }) {
        table(numbers, boards)
    } else {
        Rates::Plain
    }
}

pub fn table(numbers: &mut Numbers, boards: u64) -> Rates {
    let most = numbers.pick(&[(0, 9), (300, 3), (300, 20), (MOST_LATENCY, MOST_PRICE_OF_A_BYTE)]);
    let pairs = boards * boards;
    let mut list: Vec<_> = (0..pairs).map(|_| numbers.up_to(most.0)).collect();
    list.extend((0..pairs).map(|_| numbers.up_to(most.1)));
    if numbers.once_in(3) {
        list[0] = MOST_LATENCY;
        list[pairs as usize] = MOST_PRICE_OF_A_BYTE;
    }
    Rates::Table(list)
}

fn surcharges(numbers: &mut Numbers, boards: u64) -> Vec<Vec<u64>> {
    let count = numbers.pick(&[0, 0, 0, 1, 1, 2]);
    (0..count).map(|_| charges(numbers, boards)).collect()
}

pub fn charges(numbers: &mut Numbers, boards: u64) -> Vec<u64> {
    let most = numbers.pick(&[0, 9, MOST_CHARGE]);
    (0..boards).map(|_| if numbers.once_in(9) { MOST_CHARGE } else { numbers.up_to(most) }).collect()
}
