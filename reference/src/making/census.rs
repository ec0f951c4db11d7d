//! Counts what the cases of a row come to.

use crate::answers::{answer, Answer};
use crate::cases::Case;
use crate::causes::{Axis, Bank, Cause, Rule};
use crate::job::{Alpha, Job, Rates};
use crate::mistakes::Wrong;
use crate::planning::{Refusal, Step};
use crate::report::Report;
use crate::text;
use std::collections::BTreeMap;

#[derive(Debug, Default)]
pub struct Census {
    /// Plans and checks.
    pub jobs: usize,
    /// Those of them that are refused or have a mistake in the text.
    pub declined: usize,
    pub echoes: usize,
    pub counts: BTreeMap<String, usize>,
}

impl Census {
    pub fn of(cases: &[Case]) -> Census {
        let mut census = Census::default();
        for case in cases {
            census.add(case);
        }
        census
    }

    /// How often a label was counted.
    pub fn count(&self, label: &str) -> usize {
        self.counts.get(label).copied().unwrap_or(0)
    }

    fn note(&mut self, label: String) {
        *self.counts.entry(label).or_default() += 1;
    }

    fn add(&mut self, case: &Case) {
        let answer = answer(case);
        self.note(label(&answer));
        match case {
            Case::Echo { .. } => self.echoes += 1,
            Case::Plan { job } | Case::Check { job, .. } => {
                self.jobs += 1;
                match (&answer, text::read(job)) {
                    (Answer::Planned(_) | Answer::Taken { .. }, Ok(job)) => self.add_drawn(&job),
                    _ => self.declined += 1,
                }
            }
        }
        if let Answer::Planned(report) = &answer {
            self.add_report(report);
        }
    }

    fn add_drawn(&mut self, job: &Job) {
        let element = match job.alpha {
            Alpha::Word(_) => "words",
            Alpha::Pair(..) => "pairs",
        };
        let alpha = if job.alpha.is_one() { "one" } else { "other" };
        let rates = match job.rates {
            Rates::Plain => "plain",
            Rates::Table(_) => "table",
        };
        self.note(format!("drawn: {:2} boards", job.boards));
        self.note(format!("drawn: operation {}", job.operation));
        self.note(format!("drawn: {element}, alpha {alpha}"));
        self.note(format!("drawn: {rates}, {} surcharges", job.surcharges.len()));
        for spread in [&job.target, &job.source] {
            self.note(format!("drawn: order {}", spread.order));
            if spread.rows.max(spread.columns) == 1024 {
                self.note("drawn: side of 1024".to_string());
            }
            if spread.row_splits.len().max(spread.column_splits.len()) == 33 {
                self.note("drawn: 33 splits".to_string());
            }
        }
    }

    fn add_report(&mut self, report: &Report) {
        let saves = report.least_naming < report.own_names;
        self.note(if saves { "planned: saves".to_string() } else { "planned: saves nothing".to_string() });
    }
}

fn label(answer: &Answer) -> String {
    match answer {
        Answer::Mistake(mistake) => format!("mistake: {}", kind_of_mistake(&mistake.wrong)),
        Answer::Refused(refusal) => label_of_refusal(refusal),
        Answer::Planned(_) => "planned".to_string(),
        Answer::Taken { .. } => "taken".to_string(),
        Answer::Echoed(_) => "echo: legal".to_string(),
        Answer::EchoRefused(_) => "echo: refused 16".to_string(),
    }
}

fn label_of_refusal(refusal: &Refusal) -> String {
    let step = match refusal.step {
        Step::SourceLayout => "source layout",
        Step::TargetLayout => "target layout",
        Step::Tariff => "tariff",
        Step::Surcharge => "surcharge",
        Step::Drawing => "drawing",
        Step::Settling => "settling",
        Step::Sheet => "sheet",
        Step::Proposal => "proposal",
    };
    let kind = match refusal.cause {
        Cause::Splits(Axis::Rows, _) => " rows",
        Cause::Splits(Axis::Columns, _) => " columns",
        Cause::ShareLimits { bank: Bank::Source, .. } => " source limits",
        Cause::ShareLimits { bank: Bank::Target, .. } => " target limits",
        Cause::ShareExceeded { bank: Bank::Source, .. } => " source exceeded",
        Cause::ShareExceeded { bank: Bank::Target, .. } => " target exceeded",
        Cause::PlanRole { rule: Rule::Naming, .. } => " naming",
        Cause::PlanRole { rule: Rule::PriceLimits, .. } => " price limits",
        Cause::PlanRole { rule: Rule::Sums, .. } => " sums",
        Cause::PlanBill { .. } => " bill",
        _ => "",
    };
    format!("refused {:2}{kind}, {step}", refusal.cause.number())
}

fn kind_of_mistake(wrong: &Wrong) -> String {
    match wrong {
        Wrong::NotUtf8 => "not UTF-8".to_string(),
        Wrong::NoSuchItem(_) => "no such item".to_string(),
        Wrong::NoSuchPart(bank, None) => format!("no such item: {}", bank.name()),
        Wrong::NoSuchPart(bank, Some(_)) => format!("no such item: {} and a word", bank.name()),
        Wrong::OnceTooOften(_) => "once too often".to_string(),
        Wrong::NotANumber { bits, .. } => format!("not a number of {bits:2} bits"),
        Wrong::OneNumberDue(_) => "one number".to_string(),
        Wrong::TwoNumbersDue(_) => "two numbers".to_string(),
        Wrong::OneOrTwoNumbersDue => "one or two numbers".to_string(),
        Wrong::OneLetterDue(_) => "one letter".to_string(),
        Wrong::ElementDue => "word or pair".to_string(),
        Wrong::TariffDue => "plain or table".to_string(),
        Wrong::Missing(_) => "missing".to_string(),
        Wrong::OneNumberForAWord => "one number for a word".to_string(),
        Wrong::TwoNumbersForAPair => "two numbers for a pair".to_string(),
    }
}
