//! The answers of cases.

use crate::cases::Case;
use crate::causes::Cause;
use crate::job::Job;
use crate::mistakes::Mistake;
use crate::planning::{check, plan, Refusal};
use crate::report::Report;
use crate::sheet::Plan;
use crate::text;

#[derive(Debug, Clone, PartialEq, Eq)]
pub enum Answer {
    Mistake(Mistake),
    Refused(Refusal),
    Planned(Report),
    Taken { bill: u64 },
    Echoed(Vec<u8>),
    EchoRefused(Cause),
}

pub fn answer(case: &Case) -> Answer {
    match case {
        Case::Plan { job } => answer_job(job, |job| plan(job).map(Answer::Planned)),
        Case::Check { job, sheet } => {
            answer_job(job, |job| check(job, sheet).map(|bill| Answer::Taken { bill }))
        }
        Case::Echo { sheet } => match Plan::read(sheet) {
            Ok(plan) => Answer::Echoed(plan.write()),
            Err(cause) => Answer::EchoRefused(cause),
        },
    }
}

fn answer_job(job: &[u8], steps: impl Fn(&Job) -> Result<Answer, Refusal>) -> Answer {
    match text::read(job) {
        Ok(job) => steps(&job).unwrap_or_else(Answer::Refused),
        Err(mistake) => Answer::Mistake(mistake),
    }
}

impl Answer {
    pub fn bytes(&self) -> Vec<u8> {
        match self {
            Answer::Mistake(mistake) => format!("{mistake}\n").into_bytes(),
            Answer::Refused(refusal) => format!("{}\n", refusal.cause).into_bytes(),
            Answer::Planned(report) => report.to_string().into_bytes(),
            Answer::Taken { bill } => format!("taken, bill {bill}\n").into_bytes(),
            Answer::Echoed(sheet) => sheet.clone(),
            Answer::EchoRefused(cause) => echo_refusal(*cause).into_bytes(),
        }
    }
}

/// The cause's number and values, each in 8 columns.
fn echo_refusal(cause: Cause) -> String {
    let mut line = format!("{:>8}", cause.number());
    for value in cause.values() {
        line.push_str(&format!("{value:>8}"));
    }
    line.push('\n');
    line
}

pub fn answer_row(cases: &[Case]) -> Vec<u8> {
    let mut answers = Vec::new();
    for (number, case) in cases.iter().enumerate() {
        answers.extend_from_slice(format!("case {number}\n").as_bytes());
        answers.extend_from_slice(&answer(case).bytes());
    }
    answers
}
