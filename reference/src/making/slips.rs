//! Mistakes in the text of a job.

use super::lines::{is_lettered, Words};
use super::numbers::Numbers;
use crate::causes::Bank;

#[derive(Debug, Clone, Copy)]
pub enum Slip {
    UnknownItem,
    UnknownPart(Bank),
    NoPart(Bank),
    OnceTooOften,
    /// A word that is no number, where one of so many bits is due.
    NotANumber(u32),
    TooLarge(u32),
    CountOfOne,
    CountOfTwo,
    CountOfAlpha,
    Letter,
    Element,
    Tariff,
    Missing,
    AlphaOfAWord,
    AlphaOfAPair,
}

const BITS: [u32; 4] = [8, 16, 32, 64];
const UNKNOWN_ITEMS: [&str; 12] = [
    "board 3",
    "Boards 3",
    "targets size 1 2",
    "size 3 4",
    "µ",
    "3",
    "\u{feff}boards 2",
    "boards: 2",
    "tariffs",
    "boards\u{b}2",
    "boards\u{a0}2",
    "x\0y",
];
const UNKNOWN_PARTS: [&str; 7] = ["sizes 3 4", "Rows 0 3", "boards 2", "column", "größe", "4 4", "share:5"];
const NO_NUMBERS: [&str; 15] =
    ["-1", "+1", "1.5", "0x1f", "1e3", "x", "٣", "12a", "1_000", "1,000", "−2", "O", "1\u{a0}2", "½", "-0"];
const ALPHAS: [&str; 5] = ["", "1 2 3", "x y z", "1 0 0 0", "1 x 0"];
const LETTERS: [&str; 7] = ["", "NN", "N N", "row", "éé", "e\u{301}", "R R C"];
const ELEMENTS: [&str; 7] = ["", "Word", "words", "word word", "pair 1", "W", "2"];
const TARIFFS: [&str; 7] = ["", "plain 1", "Plain", "plain table", "tables 1 2", "1 2", "plain plain"];
const NOT_UTF8: [&[u8]; 10] = [
    b"\xff",
    b"\xc3",
    b"\x80",
    b"\xe2\x82",
    b"\xc0\xaf",
    b"\xe0\x80\xaf",
    b"\xed\xa0\x80",
    b"\xf0\x80\x80\xaf",
    b"\xf4\x90\x80\x80",
    b"#\xf5\x80\x80\x80",
];

impl Slip {
    pub fn all() -> Vec<Slip> {
        let mut all = vec![Slip::UnknownItem, Slip::OnceTooOften, Slip::Missing];
        all.extend([Bank::Target, Bank::Source].map(Slip::UnknownPart));
        all.extend([Bank::Target, Bank::Source].map(Slip::NoPart));
        all.extend(BITS.map(Slip::NotANumber));
        all.extend(BITS.map(Slip::TooLarge));
        all.extend([Slip::CountOfOne, Slip::CountOfTwo, Slip::CountOfAlpha]);
        all.extend([Slip::Letter, Slip::Element, Slip::Tariff]);
        all.extend([Slip::AlphaOfAWord, Slip::AlphaOfAPair]);
        all
    }

    pub fn apply(self, numbers: &mut Numbers, lines: &mut Vec<Words>) {
        match self {
            Slip::UnknownItem => {
                let text = numbers.pick(&UNKNOWN_ITEMS);
                insert_line(numbers, lines, text);
            }
            Slip::UnknownPart(bank) => {
                let text = format!("{} {}", bank.name(), numbers.pick(&UNKNOWN_PARTS));
                insert_line(numbers, lines, &text);
            }
            Slip::NoPart(bank) => insert_line(numbers, lines, bank.name()),
            Slip::OnceTooOften => repeat_a_line(numbers, lines),
            Slip::NotANumber(bits) => put_no_number(numbers, lines, bits),
            Slip::TooLarge(bits) => put_too_large_a_number(numbers, lines, bits),
            Slip::CountOfOne => miscount(numbers, lines, &["boards", "target share", "source share"]),
            Slip::CountOfTwo => miscount(numbers, lines, &["target size", "source size"]),
            Slip::CountOfAlpha => put_tail(numbers, lines, &["alpha"], &ALPHAS),
            Slip::Letter => {
                put_tail(numbers, lines, &["operation", "target order", "source order"], &LETTERS)
            }
            Slip::Element => put_tail(numbers, lines, &["element"], &ELEMENTS),
            Slip::Tariff => put_tail(numbers, lines, &["tariff"], &TARIFFS),
            Slip::Missing => remove_lines(numbers, lines),
            Slip::AlphaOfAWord => {
                put_tail(numbers, lines, &["element"], &["word"]);
                put_tail(numbers, lines, &["alpha"], &["1 0", "0 4294967295"]);
            }
            Slip::AlphaOfAPair => {
                put_tail(numbers, lines, &["element"], &["pair"]);
                put_tail(numbers, lines, &["alpha"], &["1", "0", "4294967295"]);
            }
        }
    }
}

/// Whether the line is of one of the items, named by one word or two.
fn is_of(words: &[String], items: &[&str]) -> bool {
    let line = words.join(" ") + " ";
    items.iter().any(|item| line.starts_with(&format!("{item} ")))
}

/// How many words name the item of a line; what follows `tariff` is no name.
fn name_length(line: &[String]) -> usize {
    if is_of(line, &["target", "source"]) {
        2
    } else {
        1
    }
}

fn words(text: &str) -> Words {
    text.split(' ').filter(|word| !word.is_empty()).map(str::to_string).collect()
}

fn pick_line<'a>(numbers: &mut Numbers, lines: &'a mut [Words], items: &[&str]) -> Option<&'a mut Words> {
    let found: Vec<_> = (0..lines.len()).filter(|index| is_of(&lines[*index], items)).collect();
    let index = *found.get(numbers.index(found.len()))?;
    lines.get_mut(index)
}

/// Puts one of some tails after the name of an item.
fn put_tail(numbers: &mut Numbers, lines: &mut [Words], items: &[&str], tails: &[&str]) {
    if let Some(line) = pick_line(numbers, lines, items) {
        line.truncate(name_length(line));
        line.extend(words(numbers.pick(tails)));
    }
}

fn insert_line(numbers: &mut Numbers, lines: &mut Vec<Words>, text: &str) {
    let at = numbers.index(lines.len() + 1);
    lines.insert(at, words(text));
}

/// Surcharges may stand twice, so they are repeated twice.
fn repeat_a_line(numbers: &mut Numbers, lines: &mut Vec<Words>) {
    let items =
        numbers.pick(&[&["surcharge", "tariff"][..], &["target", "source"], &["boards", "element", "alpha"]]);
    let again = pick_line(numbers, lines, items).map(|line| line.clone()).unwrap_or_default();
    let times = if is_of(&again, &["surcharge"]) { 2 } else { 1 };
    for _ in 0..times {
        let at = numbers.index(lines.len() + 1);
        lines.insert(at, again.clone());
    }
}

/// Where the numbers of a line begin and their bits, if numbers are due on it.
fn numbers_of(line: &[String]) -> Option<(usize, u32)> {
    if is_lettered(line) || is_of(line, &["element", "tariff plain"]) {
        None
    } else if is_of(line, &["target owners", "source owners"]) {
        Some((2, 8))
    } else if is_of(line, &["target rows", "source rows", "target columns", "source columns"]) {
        Some((2, 16))
    } else if is_of(line, &["tariff table"]) {
        Some((2, 32))
    } else if is_of(line, &["alpha", "surcharge"]) {
        Some((1, 32))
    } else {
        Some((name_length(line), 64))
    }
}

/// A number of so many bits, by its line and its word.
fn pick_number(numbers: &mut Numbers, lines: &[Words], bits: u32) -> Option<(usize, usize)> {
    let first_of = |line: &Words| {
        let (first, found) = numbers_of(line)?;
        (found == bits && first < line.len()).then_some(first)
    };
    let found: Vec<_> =
        lines.iter().enumerate().filter_map(|(index, line)| Some((index, first_of(line)?))).collect();
    let (line, first) = *found.get(numbers.index(found.len()))?;
    Some((line, first + numbers.index(lines[line].len() - first)))
}

fn put_no_number(numbers: &mut Numbers, lines: &mut [Words], bits: u32) {
    if let Some((line, at)) = pick_number(numbers, lines, bits) {
        lines[line][at] = numbers.pick(&NO_NUMBERS).to_string();
        if bits < 32 && numbers.once_in(3) {
            lines[line].push("y".to_string());
        }
    }
}

fn put_too_large_a_number(numbers: &mut Numbers, lines: &mut [Words], bits: u32) {
    if let Some((line, at)) = pick_number(numbers, lines, bits) {
        let first = 1u128 << bits;
        lines[line][at] = match numbers.up_to(4) {
            0..=2 => first.to_string(),
            3 => (first * 10).to_string(),
            _ => "9".repeat(41),
        };
    }
}

fn miscount(numbers: &mut Numbers, lines: &mut [Words], items: &[&str]) {
    let more = numbers.within(1..=2);
    let fewer = numbers.once_in(2);
    if let Some(line) = pick_line(numbers, lines, items) {
        if fewer {
            line.truncate(line.len().saturating_sub(more as usize).max(name_length(line)));
        } else {
            line.extend((0..more).map(|number| number.to_string()));
        }
    }
}

fn remove_lines(numbers: &mut Numbers, lines: &mut Vec<Words>) {
    lines.retain(|line| !is_of(line, &["surcharge"]) || numbers.once_in(2));
    for _ in 0..numbers.pick(&[1, 1, 1, 2, 3]) {
        if !lines.is_empty() {
            lines.remove(numbers.index(lines.len()));
        }
    }
}

/// Puts bytes that are no UTF-8 text somewhere.
pub fn break_utf8(numbers: &mut Numbers, text: &mut Vec<u8>) {
    let bytes = numbers.pick(&NOT_UTF8);
    let at = numbers.index(text.len() + 1);
    text.splice(at..at, bytes.iter().copied());
}
