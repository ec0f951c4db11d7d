//! A job as lines of words, and the lines as text.

use super::numbers::Numbers;
use crate::job::{Alpha, Job, Rates, Spread};

/// The words of one line.
pub type Words = Vec<String>;

/// The items of a job, in the order of docs/JOBS.md.
pub fn lines_of(job: &Job) -> Vec<Words> {
    let (element, alpha) = match job.alpha {
        Alpha::Word(number) => ("word", vec![u64::from(number)]),
        Alpha::Pair(real, imaginary) => ("pair", vec![u64::from(real), u64::from(imaginary)]),
    };
    let mut lines = vec![
        line("boards", &[job.boards]),
        vec!["element".to_string(), element.to_string()],
        vec!["operation".to_string(), job.operation.to_string()],
        line("alpha", &alpha),
    ];
    lines.extend(lines_of_spread("target", &job.target));
    lines.extend(lines_of_spread("source", &job.source));
    lines.push(match &job.rates {
        Rates::Plain => line("tariff plain", &[]),
        Rates::Table(list) => line("tariff table", list),
    });
    lines.extend(job.surcharges.iter().map(|charges| line("surcharge", charges)));
    lines
}

fn lines_of_spread(bank: &str, spread: &Spread) -> [Words; 6] {
    let of = |part: &str, list: &[u64]| line(&format!("{bank} {part}"), list);
    [
        of("size", &[spread.rows, spread.columns]),
        of("rows", &spread.row_splits),
        of("columns", &spread.column_splits),
        of("owners", &spread.owners),
        [of("order", &[]), vec![spread.order.to_string()]].concat(),
        of("share", &[spread.share]),
    ]
}

fn line(name: &str, list: &[u64]) -> Words {
    let numbers = list.iter().map(u64::to_string);
    name.split(' ').map(str::to_string).chain(numbers).collect()
}

/// One blank between words, one line feed after each line.
pub fn write_plainly(lines: &[Words]) -> Vec<u8> {
    let mut text = lines.iter().map(|words| words.join(" ")).collect::<Vec<_>>().join("\n");
    text.push('\n');
    text.into_bytes()
}

/// The same lines with other blanks, comments, lines without a word, and perhaps no line feed at the end.
pub fn write_oddly(numbers: &mut Numbers, lines: &[Words]) -> Vec<u8> {
    let line_end = numbers.pick(&["\n", "\n", "\r\n", " \t\n"]);
    let blanks: &[&str] = numbers.pick(&[&[" "][..], &["\t"], &[" ", "  ", "\t", " \r "]]);
    let comments = numbers.once_in(2);
    let mut text = String::new();
    for words in lines {
        if comments && numbers.once_in(5) {
            text.push_str(numbers.pick(&["", "   ", "\t\r", "#", "# a job", "  #boards 3", "## α ≠ 1 #"]));
            text.push_str(line_end);
        }
        if numbers.once_in(6) {
            text.push_str(numbers.pick(blanks));
        }
        for (index, word) in words.iter().enumerate() {
            if index > 0 {
                text.push_str(numbers.pick(blanks));
            }
            text.push_str(word);
        }
        if comments && numbers.once_in(4) {
            text.push_str(numbers.pick(&["#", " # the rest", "#x", "\t# 1 2 3", " # naïve"]));
        }
        text.push_str(line_end);
    }
    if numbers.once_in(3) {
        text.truncate(text.trim_end().len());
    }
    text.into_bytes()
}

/// Zeros in front of some numbers.
pub fn add_zeros(numbers: &mut Numbers, lines: &mut [Words]) {
    for words in lines.iter_mut().filter(|words| !is_lettered(words)) {
        for word in words.iter_mut() {
            if word.bytes().all(|byte| byte.is_ascii_digit()) && numbers.once_in(4) {
                let zeros = "0".repeat(numbers.pick(&[1, 1, 2, 22]));
                word.insert_str(0, &zeros);
            }
        }
    }
}

/// Whether a letter is due on the line, which zeros would spoil.
pub fn is_lettered(words: &[String]) -> bool {
    let name: Vec<_> = words.iter().take(2).map(String::as_str).collect();
    matches!(name[..], ["operation", ..] | [_, "order"])
}
