//! The items of a job's text and the mistakes in it, from docs/JOBS.md.

use crate::causes::Bank;
use std::fmt;

#[derive(Debug, Clone, Copy, PartialEq, Eq)]
pub enum Part {
    Size,
    Rows,
    Columns,
    Owners,
    Order,
    Share,
}

impl Part {
    pub const ALL: [Part; 6] =
        [Part::Size, Part::Rows, Part::Columns, Part::Owners, Part::Order, Part::Share];

    pub fn name(self) -> &'static str {
        match self {
            Part::Size => "size",
            Part::Rows => "rows",
            Part::Columns => "columns",
            Part::Owners => "owners",
            Part::Order => "order",
            Part::Share => "share",
        }
    }
}

#[derive(Debug, Clone, Copy, PartialEq, Eq)]
pub enum Item {
    Boards,
    Element,
    Operation,
    Alpha,
    Of(Bank, Part),
    Tariff,
    Surcharge,
}

impl Item {
    /// How many times the item may stand.
    pub fn most(self) -> usize {
        match self {
            Item::Surcharge => 2,
            _ => 1,
        }
    }
}

impl fmt::Display for Item {
    fn fmt(&self, f: &mut fmt::Formatter<'_>) -> fmt::Result {
        match self {
            Item::Boards => write!(f, "boards"),
            Item::Element => write!(f, "element"),
            Item::Operation => write!(f, "operation"),
            Item::Alpha => write!(f, "alpha"),
            Item::Of(bank, part) => write!(f, "{} {}", bank.name(), part.name()),
            Item::Tariff => write!(f, "tariff"),
            Item::Surcharge => write!(f, "surcharge"),
        }
    }
}

#[derive(Debug, Clone, PartialEq, Eq)]
pub enum Wrong {
    NotUtf8,
    NoSuchItem(String),
    NoSuchPart(Bank, Option<String>),
    OnceTooOften(Item),
    NotANumber { item: Item, word: String, bits: u32 },
    OneNumberDue(Item),
    TwoNumbersDue(Item),
    OneOrTwoNumbersDue,
    OneLetterDue(Item),
    ElementDue,
    TariffDue,
    Missing(Item),
    OneNumberForAWord,
    TwoNumbersForAPair,
}

impl fmt::Display for Wrong {
    fn fmt(&self, f: &mut fmt::Formatter<'_>) -> fmt::Result {
        match self {
            Wrong::NotUtf8 => write!(f, "not UTF-8 text"),
            Wrong::NoSuchItem(word) => write!(f, "no such item: {word}"),
            Wrong::NoSuchPart(bank, None) => write!(f, "no such item: {}", bank.name()),
            Wrong::NoSuchPart(bank, Some(word)) => write!(f, "no such item: {} {word}", bank.name()),
            Wrong::OnceTooOften(item) => write!(f, "{item} stands once too often"),
            Wrong::NotANumber { item, word, bits } => {
                write!(f, "{item}: {word} is not a number of {bits} bits")
            }
            Wrong::OneNumberDue(item) => write!(f, "{item}: one number is due"),
            Wrong::TwoNumbersDue(item) => write!(f, "{item}: two numbers are due"),
            Wrong::OneOrTwoNumbersDue => write!(f, "alpha: one or two numbers are due"),
            Wrong::OneLetterDue(item) => write!(f, "{item}: one letter is due"),
            Wrong::ElementDue => write!(f, "element: word or pair is due"),
            Wrong::TariffDue => write!(f, "tariff: plain or table is due"),
            Wrong::Missing(item) => write!(f, "{item} is missing"),
            Wrong::OneNumberForAWord => write!(f, "alpha: one number is due for a word"),
            Wrong::TwoNumbersForAPair => write!(f, "alpha: two numbers are due for a pair"),
        }
    }
}

/// What is wrong in a job's text, and in which line, from 1.
#[derive(Debug, Clone, PartialEq, Eq)]
pub struct Mistake {
    pub line: usize,
    pub wrong: Wrong,
}

impl fmt::Display for Mistake {
    fn fmt(&self, f: &mut fmt::Formatter<'_>) -> fmt::Result {
        write!(f, "mistake {}: {}", self.line, self.wrong)
    }
}
