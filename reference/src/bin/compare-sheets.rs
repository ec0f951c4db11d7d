//! Compares the program planecho with the reference on many sheets, good and damaged.
//!
//!     compare-sheets PLANECHO [SEED [CASES]]

use reference::causes::Cause;
use reference::sheet::{self, Plan};
use std::io::Write;
use std::process::{Command, ExitCode, Stdio};

/// A small generator of numbers, the same on every machine (xorshift64*).
struct Numbers(u64);

impl Numbers {
    fn next(&mut self) -> u64 {
        self.0 ^= self.0 >> 12;
        self.0 ^= self.0 << 25;
        self.0 ^= self.0 >> 27;
        self.0.wrapping_mul(0x2545_F491_4F6C_DD1D)
    }

    fn below(&mut self, n: u64) -> u64 {
        self.next() % n
    }

    fn pick<'a, T>(&mut self, from: &'a [T]) -> &'a T {
        &from[self.below(from.len() as u64) as usize]
    }

    fn price(&mut self) -> i128 {
        let top = sheet::MOST_PRICE;
        match self.below(8) {
            0 => *self.pick(&[top, -top, top - 1, 1 - top, 0, 1, -1, 10, -10]),
            1 => *self.pick(&[top + 1, -top - 1, 9_999_999_999_999_999_999, -999_999_999_999_999_999]),
            2 => i128::from(self.below(100)) - 50,
            _ => (i128::from(self.next()) % (2 * top)) - top,
        }
    }
}

/// A sheet that is often legal.
fn sheet_of(numbers: &mut Numbers) -> Vec<u8> {
    let boards = match numbers.below(20) {
        0 => *numbers.pick(&[0, 17, -1, 100, 9999]),
        _ => 1 + i128::from(numbers.below(16)),
    };
    let bill = match numbers.below(10) {
        0 => *numbers.pick(&[0, sheet::MOST_BILL, sheet::MOST_BILL + 1, -1]),
        _ => i128::from(numbers.next()) % (sheet::MOST_BILL + 1),
    };
    let mut lines = Vec::new();
    for _ in 0..boards.clamp(0, 20) {
        let board = match numbers.below(40) {
            0 => boards,
            1 => -1,
            _ => i128::from(numbers.below(boards.max(1) as u64)),
        };
        let in_range = |n: i128| n.clamp(-sheet::MOST_PRICE, sheet::MOST_PRICE);
        let (u, v) = (numbers.price(), numbers.price());
        lines.push(if numbers.below(30) == 0 { (board, u, v) } else { (board, in_range(u), in_range(v)) });
    }
    sheet::write(boards, bill, &lines)
}

/// Changes a few bytes: another byte, one left out, one twice, one more, a cut, a tail.
fn damage(numbers: &mut Numbers, bytes: &mut Vec<u8>) {
    const TELLING: &[u8] = b" 0123456789-+\t\n\r.,x\x00\xff";
    for _ in 0..numbers.below(3) {
        if bytes.is_empty() {
            return;
        }
        let at = numbers.below(bytes.len() as u64) as usize;
        match numbers.below(8) {
            0 => drop(bytes.remove(at)),
            1 => bytes.insert(at, bytes[at]),
            2 => bytes.insert(at, *numbers.pick(TELLING)),
            3 => bytes.truncate(at),
            4 => bytes.push(*numbers.pick(TELLING)),
            5 => {
                let with = *numbers.pick(&[&b"-0"[..], b"07", b"+1", b"\r\n", b"  ", b"1 "]);
                let end = (at + with.len()).min(bytes.len());
                bytes.splice(at..end, with.iter().copied());
            }
            _ => bytes[at] = *numbers.pick(TELLING),
        }
    }
}

fn expected(bytes: &[u8]) -> Vec<u8> {
    match Plan::read(bytes) {
        Ok(_) => bytes.to_vec(),
        Err(Cause::Field { line, column }) => format!("{:>8}{line:>8}{column:>8}\n", 16).into_bytes(),
        Err(cause) => format!("{cause:?} is no cause of a sheet that is read\n").into_bytes(),
    }
}

fn answer(program: &str, bytes: &[u8]) -> std::io::Result<(Vec<u8>, bool)> {
    let mut child = Command::new(program).stdin(Stdio::piped()).stdout(Stdio::piped()).spawn()?;
    if let Some(mut input) = child.stdin.take() {
        // A program that stops reading at its bound closes the pipe.
        let _ = input.write_all(bytes);
    }
    let output = child.wait_with_output()?;
    Ok((output.stdout, output.status.success()))
}

/// Every byte of a small sheet replaced, left out or doubled, and some inputs that are no sheets at all.
fn fixed_cases() -> Vec<Vec<u8>> {
    let sample = sheet::write(2, 20, &[(1, 4, 0), (0, 8, 8)]);
    let full: Vec<_> = (0..16).map(|x| (15 - x, -sheet::MOST_PRICE, sheet::MOST_PRICE)).collect();
    let longest = sheet::write(16, sheet::MOST_BILL, &full);
    let mut cases = vec![
        sample.clone(),
        longest.clone(),
        Vec::new(),
        vec![b'\n'; 5000],
        vec![0xff; 1 << 20],
        vec![b' '; 809],
    ];
    for at in 0..sample.len() {
        for with in *b" 019-+\n\r\t\x00" {
            let mut bytes = sample.clone();
            bytes[at] = with;
            cases.push(bytes);
        }
        let mut shorter = sample.clone();
        shorter.remove(at);
        cases.push(shorter);
        let mut longer = sample.clone();
        longer.insert(at, sample[at]);
        cases.push(longer);
        cases.push(sample[..at].to_vec());
    }
    for tail in [&b"\n"[..], b" ", b"x", b"   0"] {
        for whole in [&sample, &longest] {
            let mut bytes = whole.clone();
            bytes.extend_from_slice(tail);
            cases.push(bytes);
        }
    }
    cases
}

fn main() -> ExitCode {
    let words: Vec<String> = std::env::args().collect();
    let Some(program) = words.get(1) else {
        eprintln!("compare-sheets: the path of planecho is missing");
        return ExitCode::FAILURE;
    };
    let seed = words.get(2).and_then(|w| w.parse().ok()).unwrap_or(1);
    let random = words.get(3).and_then(|w| w.parse().ok()).unwrap_or(3000);
    let mut numbers = Numbers(seed);
    let mut cases = fixed_cases();
    for _ in 0..random {
        let mut bytes = sheet_of(&mut numbers);
        damage(&mut numbers, &mut bytes);
        cases.push(bytes);
    }
    let mut accepted = 0;
    for bytes in &cases {
        accepted += usize::from(Plan::read(bytes).is_ok());
        match answer(program, bytes) {
            Ok((text, true)) if text == expected(bytes) => {}
            other => {
                eprintln!(
                    "compare-sheets: {:?} gives {:?}, expected {:?}",
                    String::from_utf8_lossy(bytes),
                    other,
                    String::from_utf8_lossy(&expected(bytes))
                );
                return ExitCode::FAILURE;
            }
        }
    }
    println!("compare-sheets: {} sheets agree, {accepted} of them legal", cases.len());
    ExitCode::SUCCESS
}
