//! A whole row of cases.

use super::jobs::{job, job_over, Scale};
use super::lines::{add_zeros, lines_of, write_oddly, write_plainly, Words};
use super::numbers::Numbers;
use super::proposals::{sheet, Change};
use super::samples;
use super::sheets::{any_sheet, damage, nearly_small_sheet, set_sheets};
use super::slips::{break_utf8, Slip};
use super::spoils::Spoil;
use crate::cases::Case;
use crate::job::Job;
use crate::layout::MOST_BOARDS;

const SCALES: [(Scale, usize); 4] =
    [(Scale::Small, 14), (Scale::Middle, 20), (Scale::Wide, 10), (Scale::Fine, 5)];

const CHANGES: [(Change, usize); 11] = [
    (Change::Nothing, 28),
    (Change::ShiftPrices, 12),
    (Change::SwapNames, 8),
    (Change::RepeatName, 8),
    (Change::MovePrice, 10),
    (Change::MoveBill, 8),
    (Change::NameAndBill, 3),
    (Change::OtherCount, 8),
    (Change::Bytes, 14),
    (Change::Tail, 4),
    (Change::Anything, 4),
];

const TURNS_OF_A_SPOIL: usize = 5;
const JOBS_SPOILT_TWICE: usize = 24;
const TURNS_OF_A_SLIP: usize = 3;
const TEXTS_WITH_TWO_SLIPS: usize = 14;
const TEXTS_NOT_UTF8: usize = 10;
const SHEETS_NEARLY_SMALL: usize = 80;
const SHEETS_AS_MADE: usize = 60;
const SHEETS_DAMAGED: usize = 95;

/// The row of a seed. Every row begins with the same samples.
pub fn row(seed: u64) -> Vec<Case> {
    let mut numbers = Numbers::new(seed);
    let mut cases = samples::cases();
    add_good_plans(&mut numbers, &mut cases);
    add_refused_jobs(&mut numbers, &mut cases);
    add_mistaken_texts(&mut numbers, &mut cases);
    add_checks(&mut numbers, &mut cases);
    add_echoes(&mut numbers, &mut cases);
    cases
}

fn add_good_plans(numbers: &mut Numbers, cases: &mut Vec<Case>) {
    let mut jobs: Vec<_> = (1..=MOST_BOARDS).map(|boards| job_over(numbers, Scale::Small, boards)).collect();
    for (scale, count) in SCALES {
        jobs.extend((0..count).map(|_| job(numbers, scale)));
    }
    for job in jobs {
        cases.push(Case::Plan { job: text_of(numbers, lines_of(&job)) });
    }
}

fn add_refused_jobs(numbers: &mut Numbers, cases: &mut Vec<Case>) {
    for spoil in Spoil::all() {
        for _ in 0..TURNS_OF_A_SPOIL {
            let mut job = common_job(numbers);
            spoil.apply(numbers, &mut job);
            let text = text_of(numbers, lines_of(&job));
            cases.push(plan_or_check(numbers, text));
        }
    }
    for _ in 0..JOBS_SPOILT_TWICE {
        let mut job = common_job(numbers);
        for _ in 0..numbers.within(2..=4) {
            numbers.pick(&Spoil::all()).apply(numbers, &mut job);
        }
        let text = text_of(numbers, lines_of(&job));
        cases.push(plan_or_check(numbers, text));
    }
}

fn add_mistaken_texts(numbers: &mut Numbers, cases: &mut Vec<Case>) {
    let slips = Slip::all();
    for slip in &slips {
        for _ in 0..TURNS_OF_A_SLIP {
            let text = text_with_slips(numbers, &[*slip]);
            cases.push(plan_or_check(numbers, text));
        }
    }
    for _ in 0..TEXTS_WITH_TWO_SLIPS {
        let two = [numbers.pick(&slips), numbers.pick(&slips)];
        let text = text_with_slips(numbers, &two);
        cases.push(plan_or_check(numbers, text));
    }
    for turn in 0..TEXTS_NOT_UTF8 {
        let mut text = text_with_slips(numbers, &slips[..turn % 2]);
        break_utf8(numbers, &mut text);
        cases.push(plan_or_check(numbers, text));
    }
}

fn add_checks(numbers: &mut Numbers, cases: &mut Vec<Case>) {
    for (change, count) in CHANGES {
        for _ in 0..count {
            let job = common_job(numbers);
            let sheet = sheet(numbers, &job, change);
            cases.push(Case::Check { job: text_of(numbers, lines_of(&job)), sheet });
        }
    }
}

fn add_echoes(numbers: &mut Numbers, cases: &mut Vec<Case>) {
    let mut sheets = set_sheets();
    sheets.extend((0..SHEETS_NEARLY_SMALL).map(|_| nearly_small_sheet(numbers)));
    sheets.extend((0..SHEETS_AS_MADE).map(|_| any_sheet(numbers)));
    for _ in 0..SHEETS_DAMAGED {
        let mut sheet = any_sheet(numbers);
        damage(numbers, &mut sheet);
        sheets.push(sheet);
    }
    cases.extend(sheets.into_iter().map(|sheet| Case::Echo { sheet }));
}

fn common_job(numbers: &mut Numbers) -> Job {
    let scale = numbers.pick(&[Scale::Small, Scale::Small, Scale::Small, Scale::Middle, Scale::Wide]);
    job(numbers, scale)
}

fn plan_or_check(numbers: &mut Numbers, job: Vec<u8>) -> Case {
    if numbers.once_in(5) {
        Case::Check { job, sheet: any_sheet(numbers) }
    } else {
        Case::Plan { job }
    }
}

fn text_with_slips(numbers: &mut Numbers, slips: &[Slip]) -> Vec<u8> {
    let mut lines = lines_of(&job(numbers, Scale::Small));
    for slip in slips {
        slip.apply(numbers, &mut lines);
    }
    text_of(numbers, lines)
}

/// The text of the lines, often in another order and with other blanks.
fn text_of(numbers: &mut Numbers, mut lines: Vec<Words>) -> Vec<u8> {
    if numbers.once_in(3) {
        numbers.shuffle(&mut lines);
    }
    if numbers.once_in(10) {
        add_zeros(numbers, &mut lines);
    }
    if numbers.once_in(2) {
        write_oddly(numbers, &lines)
    } else {
        write_plainly(&lines)
    }
}
