//! What makes a job refused.

use super::jobs::{charges, needed_share, spread, table, Scale};
use super::numbers::Numbers;
use crate::causes::{Axis, Bank};
use crate::drawing::MOST_SHARE;
use crate::job::{Job, Rates, Spread};
use crate::layout::{MOST_BOARDS, MOST_SIZE};
use crate::tariff::{MOST_CHARGE, MOST_LATENCY, MOST_PRICE_OF_A_BYTE};

#[derive(Debug, Clone, Copy)]
pub enum Spoil {
    Boards,
    Operation,
    Order(Bank),
    Size(Bank),
    Splits(Bank, Axis),
    TooManySplits,
    Owners(Bank),
    Fit,
    ShareLimits(Bank),
    ShareTooSmall(Bank),
    Table,
    Surcharge,
}

const BANKS: [Bank; 2] = [Bank::Source, Bank::Target];
const AXES: [Axis; 2] = [Axis::Rows, Axis::Columns];

impl Spoil {
    pub fn all() -> Vec<Spoil> {
        let mut all = vec![Spoil::Boards, Spoil::Operation, Spoil::Fit, Spoil::TooManySplits];
        all.extend([Spoil::Table, Spoil::Surcharge]);
        for bank in BANKS {
            all.extend([Spoil::Order(bank), Spoil::Size(bank), Spoil::Owners(bank)]);
            all.extend([Spoil::ShareLimits(bank), Spoil::ShareTooSmall(bank)]);
            all.extend(AXES.map(|axis| Spoil::Splits(bank, axis)));
        }
        all
    }

    pub fn apply(self, numbers: &mut Numbers, job: &mut Job) {
        match self {
            Spoil::Boards => job.boards = numbers.pick(&[0, 17, 17, 18, 256, u64::MAX]),
            Spoil::Operation => {
                job.operation = numbers.pick(&['n', 'R', 'H', '1', 'ß', '→', '\u{1F4A1}', '\0'])
            }
            Spoil::Order(bank) => {
                side(job, bank).order = numbers.pick(&['r', 'N', '0', 'é', '行', '\u{10FFFF}', '\u{A0}'])
            }
            Spoil::Size(bank) => {
                let (size, _) = along(side(job, bank), numbers.pick(&AXES));
                *size = numbers.pick(&[0, 1025, 1026, 65_536, u64::MAX]);
            }
            Spoil::Splits(bank, axis) => spoil_splits(numbers, along(side(job, bank), axis)),
            Spoil::TooManySplits => {
                let spread = side(job, numbers.pick(&BANKS));
                let axis = numbers.pick(&AXES);
                cut_too_often(numbers, along(spread, axis));
            }
            Spoil::Owners(bank) => {
                let boards = job.boards;
                spoil_list(numbers, &mut side(job, bank).owners, |_| boards.min(255));
            }
            Spoil::Fit => spoil_fit(numbers, job),
            Spoil::ShareLimits(bank) => side(job, bank).share = numbers.pick(&[0, MOST_SHARE + 1, u64::MAX]),
            Spoil::ShareTooSmall(bank) => spoil_share(numbers, job, bank),
            Spoil::Table => spoil_table(numbers, job),
            Spoil::Surcharge => spoil_surcharge(numbers, job),
        }
    }
}

fn side(job: &mut Job, bank: Bank) -> &mut Spread {
    match bank {
        Bank::Source => &mut job.source,
        Bank::Target => &mut job.target,
    }
}

fn along(spread: &mut Spread, axis: Axis) -> (&mut u64, &mut Vec<u64>) {
    match axis {
        Axis::Rows => (&mut spread.rows, &mut spread.row_splits),
        Axis::Columns => (&mut spread.columns, &mut spread.column_splits),
    }
}

fn spoil_splits(numbers: &mut Numbers, (size, splits): (&mut u64, &mut Vec<u64>)) {
    let at = numbers.index(splits.len());
    let beyond = size.saturating_add(1).min(65_535);
    match numbers.up_to(9) {
        _ if splits.is_empty() => splits.push(beyond),
        0 => splits.clear(),
        1 => splits.truncate(at),
        2 => splits.push(beyond - 1),
        3 => splits.push(beyond),
        4 => splits.insert(at, splits[at]),
        5 => splits.reverse(),
        6 => splits[at] = beyond.min(splits[at] + 1),
        7 => splits[at] = splits[at].saturating_sub(1),
        8 => splits[at] = numbers.pick(&[beyond, 65_535]),
        _ => *size = size.saturating_add(1),
    }
}

fn cut_too_often(numbers: &mut Numbers, (size, splits): (&mut u64, &mut Vec<u64>)) {
    *size = numbers.within(33..=60);
    *splits = (0..33).collect();
    splits.push(*size);
}

/// Makes a list too short, too long, or one of its numbers the first that is too large.
fn spoil_list(numbers: &mut Numbers, list: &mut Vec<u64>, too_large: impl Fn(usize) -> u64) {
    let at = numbers.index(list.len());
    match numbers.up_to(6) {
        0 => list.clear(),
        1 => list.truncate(at),
        2 => list.push(0),
        3 => list.insert(at, 0),
        4 => drop(list.pop()),
        _ if list.is_empty() => list.push(0),
        _ => list[at] = too_large(at),
    }
}

fn spoil_fit(numbers: &mut Numbers, job: &mut Job) {
    let other = |size: u64| if size < MOST_SIZE { size + 1 } else { size - 1 };
    let mut rows = job.source.rows.clamp(1, MOST_SIZE);
    let mut columns = job.source.columns.clamp(1, MOST_SIZE);
    match numbers.up_to(3) {
        0 => (rows, columns) = (columns, rows),
        1 => rows = other(rows),
        2 => columns = other(columns),
        _ => (rows, columns) = (other(rows), other(columns)),
    }
    if (rows, columns) == (job.source.rows, job.source.columns) {
        rows = other(rows);
    }
    job.source = spread(numbers, Scale::Small, job.boards.clamp(1, MOST_BOARDS), rows, columns);
}

fn spoil_share(numbers: &mut Numbers, job: &mut Job, bank: Bank) {
    let boards = job.boards;
    let spread = side(job, bank);
    let most = needed_share(boards, spread).saturating_sub(1);
    spread.share = if numbers.once_in(3) { numbers.within(1..=most) } else { most };
}

fn spoil_table(numbers: &mut Numbers, job: &mut Job) {
    let boards = job.boards.clamp(1, MOST_BOARDS);
    let pairs = (boards * boards) as usize;
    let Rates::Table(mut list) = table(numbers, boards) else { return };
    let too_large = |index| if index < pairs { MOST_LATENCY + 1 } else { MOST_PRICE_OF_A_BYTE + 1 };
    spoil_list(numbers, &mut list, too_large);
    job.rates = Rates::Table(list);
}

fn spoil_surcharge(numbers: &mut Numbers, job: &mut Job) {
    let boards = job.boards.clamp(1, MOST_BOARDS);
    if job.surcharges.is_empty() || numbers.once_in(2) {
        job.surcharges.push(charges(numbers, boards));
        job.surcharges.truncate(2);
    }
    let at = numbers.index(job.surcharges.len());
    spoil_list(numbers, &mut job.surcharges[at], |_| MOST_CHARGE + 1);
}
