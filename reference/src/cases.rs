//! Rows of cases, in the format at the end of docs/JOBS.md.

use std::fmt;

#[derive(Debug, Clone, PartialEq, Eq)]
pub enum Case {
    Plan { job: Vec<u8> },
    Check { job: Vec<u8>, sheet: Vec<u8> },
    Echo { sheet: Vec<u8> },
}

/// The case of a row that does not have its form, counted from 0.
#[derive(Debug, Clone, Copy, PartialEq, Eq)]
pub struct Formless(pub usize);

impl fmt::Display for Formless {
    fn fmt(&self, f: &mut fmt::Formatter<'_>) -> fmt::Result {
        write!(f, "case {} does not have its form", self.0)
    }
}

impl Case {
    fn texts(&self) -> (&'static str, Vec<&[u8]>) {
        match self {
            Case::Plan { job } => ("plan", vec![job]),
            Case::Check { job, sheet } => ("check", vec![job, sheet]),
            Case::Echo { sheet } => ("echo", vec![sheet]),
        }
    }

    pub fn write(&self, row: &mut Vec<u8>) {
        let (word, texts) = self.texts();
        row.extend_from_slice(word.as_bytes());
        for text in &texts {
            row.extend_from_slice(format!(" {}", text.len()).as_bytes());
        }
        row.push(b'\n');
        for text in texts {
            row.extend_from_slice(text);
            row.push(b'\n');
        }
    }

    /// The case at the front of a row, which loses it.
    fn read(row: &mut &[u8]) -> Option<Case> {
        let end = row.iter().position(|byte| *byte == b'\n')?;
        let first_line = std::str::from_utf8(&row[..end]).ok()?;
        *row = &row[end + 1..];
        let words: Vec<_> = first_line.split(' ').collect();
        match words[..] {
            ["plan", job] => Some(Case::Plan { job: read_text(row, job)? }),
            ["check", job, sheet] => {
                Some(Case::Check { job: read_text(row, job)?, sheet: read_text(row, sheet)? })
            }
            ["echo", sheet] => Some(Case::Echo { sheet: read_text(row, sheet)? }),
            _ => None,
        }
    }
}

/// A text of so many bytes and a line feed, which the row loses.
fn read_text(row: &mut &[u8], length: &str) -> Option<Vec<u8>> {
    let length = length.parse().ok()?;
    let (text, rest) = row.split_at_checked(length)?;
    *row = rest.strip_prefix(b"\n")?;
    Some(text.to_vec())
}

pub fn write_row(cases: &[Case]) -> Vec<u8> {
    let mut row = Vec::new();
    for case in cases {
        case.write(&mut row);
    }
    row
}

pub fn read_row(mut row: &[u8]) -> Result<Vec<Case>, Formless> {
    let mut cases = Vec::new();
    while !row.is_empty() {
        cases.push(Case::read(&mut row).ok_or(Formless(cases.len()))?);
    }
    Ok(cases)
}

#[cfg(test)]
mod tests {
    use super::*;

    #[test]
    fn a_row_reads_back() {
        let cases = vec![
            Case::Plan { job: b"boards 1".to_vec() },
            Case::Check { job: b"\n\n".to_vec(), sheet: Vec::new() },
            Case::Echo { sheet: b"echo 3\n".to_vec() },
        ];
        let row = write_row(&cases);
        assert_eq!(row, b"plan 8\nboards 1\ncheck 2 0\n\n\n\n\necho 7\necho 3\n\n");
        assert_eq!(read_row(&row), Ok(cases));
    }

    #[test]
    fn odd_rows() {
        for row in
            [&b"plan"[..], b"plan 3\nabc", b"plan 9999\n", b"draw 0\n\n", b"check 0\n\n", b"plan -1\n\n"]
        {
            assert_eq!(read_row(row), Err(Formless(0)));
        }
    }
}
