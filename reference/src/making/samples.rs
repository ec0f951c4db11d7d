//! Cases that stand in every row: the worked example, its borders, and the largest drawings.

use super::lines::{lines_of, write_plainly};
use super::sheets::small_sheet;
use crate::cases::Case;
use crate::job::{Alpha, Job, Rates, Spread};
use crate::sheet::write;
use crate::tariff::{MOST_CHARGE, MOST_LATENCY, MOST_PRICE_OF_A_BYTE};

/// The worked example of docs/DRAWINGS.md and docs/JOBS.md.
const WORKED: &str = "boards 2\nelement word\noperation N\nalpha 1\n\
    target size 3 4\ntarget rows 0 1 3\ntarget columns 0 4\n\
    target owners 0 1\ntarget order R\ntarget share 8\n\
    source size 3 4\nsource rows 0 3\nsource columns 0 3 4\n\
    source owners 0 1\nsource order R\nsource share 9\ntariff plain\n";

/// Each replaces what stands before the bar in the worked example by what stands after it.
const CHANGES: &[&str] = &[
    "boards 2|boards 1",
    "boards 2|boards 3",
    "boards 2|boards 16",
    "boards 2|boards 17",
    "boards 2|boards 0",
    "boards 2|boards 18446744073709551615",
    "boards 2|boards 18446744073709551616",
    "operation N|operation X",
    "operation N|operation T",
    "operation N|operation ü",
    "operation N|operation N#T",
    "alpha 1|alpha 0",
    "alpha 1|alpha 4294967295",
    "alpha 1|alpha 4294967296",
    "alpha 1|alpha 1 0",
    "element word|element pair",
    "element word\noperation N\nalpha 1|element pair\noperation N\nalpha 1 0",
    "element word\noperation N\nalpha 1|element pair\nalpha 1 2\noperation N",
    "target size 3 4|target size 3 1025",
    "target size 3 4|target size 0 4",
    "source size 3 4|source size 1025 4",
    "target size 3 4|target size 3 5",
    "target columns 0 4|target columns",
    "target rows 0 1 3|target rows 0 3 3",
    "target rows 0 1 3|target rows 0 3",
    "target rows 0 1 3|target rows 0",
    "target rows 0 1 3|target rows",
    "target rows 0 1 3|target rows 1 3",
    "target rows 0 1 3|target rows 0 1 65535",
    "target rows 0 1 3|target rows 0 1 65536",
    "source columns 0 3 4|source columns 0 4 4",
    "source rows 0 3|source rows 0 4",
    "target owners 0 1|target owners",
    "target owners 0 1|target owners 0 1 0",
    "source owners 0 1|source owners 0 2",
    "source owners 0 1|source owners 0 255",
    "source owners 0 1|source owners 0 256",
    "target order R|target order C",
    "target order R|target order é",
    "source order R|source order \u{1D11E}",
    "target share 8|target share 7",
    "target share 8|target share 0",
    "target share 8|target share 1048576",
    "target share 8|target share 1048577",
    "source share 9|source share 8",
    "source share 9|source share 1048577",
    "source share 9|source share 000000000000000000000000009",
    "tariff plain|tariff table 0 0 0 0 1 1 1 1",
    "tariff plain|tariff table 1000000000 0 0 1000000000 10000 0 0 10000",
    "tariff plain|tariff table 0 1000000001 0 0 1 1 1 10001",
    "tariff plain|tariff table 0 0 0 0 1 1 1 10001",
    "tariff plain|tariff table 0 0 0 0 1 1 1",
    "tariff plain|tariff table 0 0 0 0 1 1 1 1 1",
    "tariff plain|tariff table",
    "tariff plain|surcharge 1000 1000\ntariff plain",
    "alpha 1|alpha 2\nsurcharge 0 3\nsurcharge 1000 1",
    "tariff plain|tariff plain\nsurcharge 1000 1001",
    "tariff plain|tariff plain\nsurcharge",
    "tariff plain|tariff plain\nsurcharge 0 0\nsurcharge 0",
    "tariff plain|surcharge 0 0\nsurcharge 0 0\nsurcharge x\ntariff plain",
    "source rows 0 3\nsource columns 0 3 4|source rows 0 1 3\nsource columns 0 4",
    "boards 2\n|\n\n# two boards\n\tboards\t2\r\n   \n",
    "tariff plain\n|tariff plain",
    "tariff plain\n|",
    "tariff plain\n|tariff plain\n\n\n",
];

fn worked(change: &str) -> Vec<u8> {
    let (from, to) = change.split_once('|').unwrap_or(("", ""));
    WORKED.replacen(from, to, 1).into_bytes()
}

/// The second example of docs/DRAWINGS.md.
fn transposed() -> Vec<u8> {
    let source = "source size 4 3\nsource rows 0 3 4\nsource columns 0 2 3\nsource owners 0 1 1 0\n";
    let from = WORKED.find("source size").unwrap_or(0);
    let to = WORKED.find("source order").unwrap_or(0);
    let text = [&WORKED[..from], source, &WORKED[to..]].concat();
    text.replace("operation N", "operation T").into_bytes()
}

/// Sheets for the worked example, right and wrong.
fn worked_sheets() -> Vec<Vec<u8>> {
    vec![
        small_sheet(),
        write(2, 20, &[(1, 5, 0), (0, 8, 7)]),
        write(2, 20, &[(1, 3, 1), (0, 7, 9)]),
        write(2, 21, &[(1, 4, 0), (0, 8, 8)]),
        write(2, 28, &[(0, 4, 0), (1, 8, 8)]),
        write(2, 20, &[(1, 4, 0), (1, 8, 8)]),
        write(2, 21, &[(1, 5, 0), (1, 8, 8)]),
        write(1, 20, &[(0, 4, 0)]),
        write(3, 20, &[(1, 4, 0), (0, 8, 8), (2, 0, 0)]),
        write(2, 20, &[(2, 4, 0), (0, 8, 8)]),
        small_sheet()[..122].to_vec(),
        Vec::new(),
    ]
}

/// Two layouts of 32 by 32 blocks with staggered splits, over 16 boards.
fn finest(operation: char, alpha: Alpha, rates: Rates, surcharges: Vec<Vec<u64>>) -> Vec<u8> {
    let even: Vec<u64> = (0..=32).map(|k| 32 * k).collect();
    let staggered: Vec<u64> = (0..=32).map(|k| if k % 32 == 0 { 32 * k } else { 32 * k - 16 }).collect();
    let spread = |splits: &[u64], step: u64, order: char| Spread {
        rows: 1024,
        columns: 1024,
        row_splits: splits.to_vec(),
        column_splits: splits.to_vec(),
        owners: (0..1024).map(|block| (block * step + block / 32) % 16).collect(),
        order,
        share: 1_048_576,
    };
    let (target, source) = (spread(&even, 3, 'R'), spread(&staggered, 5, 'C'));
    write_plainly(&lines_of(&Job { boards: 16, operation, alpha, target, source, rates, surcharges }))
}

/// The largest drawing at about the highest prices.
fn dearest() -> Vec<u8> {
    let latencies = (0..256).map(|k| MOST_LATENCY - k % 23);
    let prices = (0..256).map(|k| MOST_PRICE_OF_A_BYTE - k % 7);
    let charges = |step: u64| (0..16).map(|k| MOST_CHARGE - k * step).collect();
    let table = Rates::Table(latencies.chain(prices).collect());
    finest('C', Alpha::Pair(0, 1), table, vec![charges(0), charges(3)])
}

/// One element on one board.
fn smallest() -> Vec<u8> {
    let spread = Spread {
        rows: 1,
        columns: 1,
        row_splits: vec![0, 1],
        column_splits: vec![0, 1],
        owners: vec![0],
        order: 'C',
        share: 1,
    };
    let job = Job {
        boards: 1,
        operation: 'C',
        alpha: Alpha::Pair(1, 0),
        target: spread.clone(),
        source: spread,
        rates: Rates::Plain,
        surcharges: Vec::new(),
    };
    write_plainly(&lines_of(&job))
}

/// Lines that a carriage return ends are one line.
fn one_line() -> Vec<u8> {
    WORKED.replace('\n', "\r").into_bytes()
}

/// Words and numbers that are longer than any that is right.
fn long_words() -> [Vec<u8>; 3] {
    let zeros = format!("boards {}2", "0".repeat(700));
    let comment = format!("boards 2 # {}", "a long comment ".repeat(80));
    [
        format!("{}\n{WORKED}", "boards".repeat(150)).into_bytes(),
        WORKED.replace("boards 2", &zeros).into_bytes(),
        WORKED.replace("boards 2", &comment).into_bytes(),
    ]
}

/// The last line ends inside a character, which its comment has.
fn cut_character() -> Vec<u8> {
    [WORKED.trim_end().as_bytes(), b" # \xe2\x82"].concat()
}

fn backwards() -> Vec<u8> {
    WORKED.lines().rev().collect::<Vec<_>>().join("\n").into_bytes()
}

pub fn cases() -> Vec<Case> {
    let mut jobs = vec![worked(""), transposed(), smallest(), backwards(), one_line(), cut_character()];
    jobs.extend([Vec::new(), b"\n# nothing\n".to_vec()]);
    jobs.extend(long_words());
    jobs.extend([finest('N', Alpha::Word(1), Rates::Plain, vec![(0..16).collect()]), dearest()]);
    jobs.extend(CHANGES.iter().map(|change| worked(change)));
    let plans = jobs.into_iter().map(|job| Case::Plan { job });
    let checks = worked_sheets().into_iter().map(|sheet| Case::Check { job: worked(""), sheet });
    let mut cases: Vec<_> = plans.chain(checks).collect();
    for change in ["target share 8|target share 7", "boards 2|board 2"] {
        cases.push(Case::Check { job: worked(change), sheet: Vec::new() });
    }
    cases
}
