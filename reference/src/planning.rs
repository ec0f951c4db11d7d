//! The steps of a plan and of a check, in the order of docs/JOBS.md.

use crate::assignment::{solve, Costs};
use crate::causes::Cause;
use crate::drawing::{Drawing, Operation};
use crate::job::{Job, Rates};
use crate::judge::judge;
use crate::layout::Layout;
use crate::report::Report;
use crate::sheet::Plan;
use crate::tariff::{Question, Tariff};

#[derive(Debug, Clone, Copy, PartialEq, Eq)]
pub enum Step {
    SourceLayout,
    TargetLayout,
    Tariff,
    Surcharge,
    Drawing,
    Settling,
    Sheet,
    Proposal,
}

/// A cause, and the step that it comes from; only the cause is printed.
#[derive(Debug, Clone, Copy, PartialEq, Eq)]
pub struct Refusal {
    pub step: Step,
    pub cause: Cause,
}

fn at<T>(step: Step, result: Result<T, Cause>) -> Result<T, Refusal> {
    result.map_err(|cause| Refusal { step, cause })
}

/// A job that is drawn.
pub struct Drawn {
    drawing: Drawing,
    tariff: Tariff,
    bytes_of_an_element: u64,
    transformed: bool,
}

impl Drawn {
    pub fn new(job: &Job) -> Result<Drawn, Refusal> {
        let source = at(Step::SourceLayout, Layout::new(job.boards, &job.source))?;
        let target = at(Step::TargetLayout, Layout::new(job.boards, &job.target))?;
        let mut tariff = at(Step::Tariff, tariff_below(job))?;
        for charges in &job.surcharges {
            tariff = at(Step::Surcharge, tariff.surcharged(charges))?;
        }
        let drawing = Drawing::new(job.operation, &target, &source, job.source.share, job.target.share);
        let drawing = at(Step::Drawing, drawing)?;
        let transformed = drawing.operation != Operation::Identity || !job.alpha.is_one();
        let bytes_of_an_element = job.alpha.bytes_of_an_element();
        Ok(Drawn { drawing, tariff, bytes_of_an_element, transformed })
    }

    fn bytes(&self, sender: usize, role: usize) -> u64 {
        self.drawing.packages[sender][role] * self.bytes_of_an_element
    }

    /// What it costs that a role is taken by a board: the prices of all packages for the role to that board.
    fn cost(&self, role: usize, receiver: usize) -> Result<u64, Cause> {
        let mut cost = 0;
        for sender in 0..self.drawing.boards {
            let bytes = self.bytes(sender, role);
            cost += self.tariff.price(Question { sender, receiver, bytes, transformed: self.transformed })?;
        }
        Ok(cost)
    }

    pub fn costs(&self) -> Result<Costs, Refusal> {
        at(Step::Settling, Costs::from_entries(self.drawing.boards, |role, board| self.cost(role, board)))
    }

    fn packages_in_bytes(&self) -> Vec<Vec<u64>> {
        let boards = self.drawing.boards;
        (0..boards).map(|sender| (0..boards).map(|role| self.bytes(sender, role)).collect()).collect()
    }
}

fn tariff_below(job: &Job) -> Result<Tariff, Cause> {
    match &job.rates {
        Rates::Plain => Tariff::plain(job.boards),
        Rates::Table(list) => Tariff::table(job.boards, list),
    }
}

pub fn plan(job: &Job) -> Result<Report, Refusal> {
    let drawn = Drawn::new(job)?;
    let costs = drawn.costs()?;
    Ok(Report {
        overlay: drawn.drawing.overlay,
        packages: drawn.packages_in_bytes(),
        own_names: costs.bill_of_own_names(),
        least_naming: solve(&costs).bill,
    })
}

/// The bill of the sheet's plan, if it is taken for the job.
pub fn check(job: &Job, sheet: &[u8]) -> Result<u64, Refusal> {
    let drawn = Drawn::new(job)?;
    let plan = at(Step::Sheet, Plan::read(sheet))?;
    at(Step::Proposal, judge(&drawn.costs()?, &plan))?;
    Ok(plan.bill)
}
