//! The words of a line of a job's text, and what they say.

use crate::causes::Bank;
use crate::job::Rates;
use crate::mistakes::{Item, Part, Wrong};

#[derive(Debug, Clone, Copy)]
pub enum Kind {
    Word,
    Pair,
}

/// The words before a `#`, apart by spaces, tabs and carriage returns.
pub fn words_of(line: &str) -> Vec<&str> {
    let end = line.find(['#', '\n']).unwrap_or(line.len());
    line[..end].split([' ', '\t', '\r']).filter(|word| !word.is_empty()).collect()
}

/// The item that a line's first words name, and the words after them.
pub fn item_of<'a, 'b>(words: &'b [&'a str]) -> Result<Option<(Item, &'b [&'a str])>, Wrong> {
    let Some((first, rest)) = words.split_first() else { return Ok(None) };
    let item = match *first {
        "boards" => Item::Boards,
        "element" => Item::Element,
        "operation" => Item::Operation,
        "alpha" => Item::Alpha,
        "target" => return part_of(Bank::Target, rest).map(Some),
        "source" => return part_of(Bank::Source, rest).map(Some),
        "tariff" => Item::Tariff,
        "surcharge" => Item::Surcharge,
        word => return Err(Wrong::NoSuchItem(word.to_string())),
    };
    Ok(Some((item, rest)))
}

fn part_of<'a, 'b>(bank: Bank, words: &'b [&'a str]) -> Result<(Item, &'b [&'a str]), Wrong> {
    let Some((first, rest)) = words.split_first() else { return Err(Wrong::NoSuchPart(bank, None)) };
    match Part::ALL.into_iter().find(|part| part.name() == *first) {
        Some(part) => Ok((Item::Of(bank, part), rest)),
        None => Err(Wrong::NoSuchPart(bank, Some(first.to_string()))),
    }
}

pub fn kind(words: &[&str]) -> Result<Kind, Wrong> {
    match words {
        ["word"] => Ok(Kind::Word),
        ["pair"] => Ok(Kind::Pair),
        _ => Err(Wrong::ElementDue),
    }
}

pub fn rates(item: Item, words: &[&str]) -> Result<Rates, Wrong> {
    match words {
        ["plain"] => Ok(Rates::Plain),
        ["table", list @ ..] => Ok(Rates::Table(numbers(item, list, 32)?)),
        _ => Err(Wrong::TariffDue),
    }
}

pub fn letter(item: Item, words: &[&str]) -> Result<char, Wrong> {
    let [word] = words else { return Err(Wrong::OneLetterDue(item)) };
    let mut letters = word.chars();
    match (letters.next(), letters.next()) {
        (Some(letter), None) => Ok(letter),
        _ => Err(Wrong::OneLetterDue(item)),
    }
}

pub fn one_number(item: Item, words: &[&str]) -> Result<u64, Wrong> {
    match words {
        [word] => number(item, word, 64),
        _ => Err(Wrong::OneNumberDue(item)),
    }
}

pub fn two_numbers(item: Item, words: &[&str]) -> Result<(u64, u64), Wrong> {
    match words {
        [one, other] => Ok((number(item, one, 64)?, number(item, other, 64)?)),
        _ => Err(Wrong::TwoNumbersDue(item)),
    }
}

pub fn one_or_two_numbers(item: Item, words: &[&str]) -> Result<Vec<u64>, Wrong> {
    match words.len() {
        1 | 2 => numbers(item, words, 32),
        _ => Err(Wrong::OneOrTwoNumbersDue),
    }
}

pub fn numbers(item: Item, words: &[&str], bits: u32) -> Result<Vec<u64>, Wrong> {
    words.iter().map(|word| number(item, word, bits)).collect()
}

fn number(item: Item, word: &str, bits: u32) -> Result<u64, Wrong> {
    let most = u64::MAX >> (64 - bits);
    decimal(word).filter(|number| *number <= most).ok_or_else(|| Wrong::NotANumber {
        item,
        word: word.to_string(),
        bits,
    })
}

/// One or more decimal digits that 64 bits hold; zeros may lead.
fn decimal(word: &str) -> Option<u64> {
    let add = |sum: u64, digit: u8| {
        let digit = digit.is_ascii_digit().then(|| u64::from(digit - b'0'))?;
        sum.checked_mul(10)?.checked_add(digit)
    };
    (!word.is_empty()).then_some(())?;
    word.bytes().try_fold(0, add)
}
