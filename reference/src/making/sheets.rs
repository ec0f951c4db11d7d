//! Sheets, good and damaged.

use super::numbers::Numbers;
use crate::sheet::{write, MOST_BILL, MOST_PRICE};

fn price(numbers: &mut Numbers) -> i128 {
    let top = MOST_PRICE;
    match numbers.up_to(7) {
        0 => numbers.pick(&[top, -top, top - 1, 1 - top, 0, 1, -1, 10, -10]),
        1 => numbers.pick(&[top + 1, -top - 1, 9_999_999_999_999_999_999, -999_999_999_999_999_999]),
        2 => i128::from(numbers.up_to(99)) - 50,
        _ => i128::from(numbers.any()) % (2 * top) - top,
    }
}

/// A sheet that is often legal.
pub fn any_sheet(numbers: &mut Numbers) -> Vec<u8> {
    let boards = match numbers.up_to(19) {
        0 => numbers.pick(&[0, 17, -1, 100, 9999]),
        1 => 16,
        _ => i128::from(numbers.within(1..=8)),
    };
    let bill = match numbers.up_to(9) {
        0 => numbers.pick(&[0, MOST_BILL, MOST_BILL + 1, -1]),
        _ => i128::from(numbers.any()) % (MOST_BILL + 1),
    };
    let lines: Vec<_> = (0..boards.clamp(0, 17)).map(|_| any_line(numbers, boards)).collect();
    write(boards, bill, &lines)
}

fn any_line(numbers: &mut Numbers, boards: i128) -> (i128, i128, i128) {
    let board = match numbers.up_to(39) {
        0 => boards,
        1 => -1,
        _ => i128::from(numbers.up_to(boards as u64 - 1)),
    };
    let (u, v) = (price(numbers), price(numbers));
    if numbers.once_in(30) {
        return (board, u, v);
    }
    (board, u.clamp(-MOST_PRICE, MOST_PRICE), v.clamp(-MOST_PRICE, MOST_PRICE))
}

/// Changes a few bytes: another byte, one left out, one twice, one more, a cut, a tail.
pub fn damage(numbers: &mut Numbers, bytes: &mut Vec<u8>) {
    const TELLING: &[u8] = b" 0123456789-+\t\n\r.,x\x00\xff";
    for _ in 0..numbers.within(1..=2) {
        if bytes.is_empty() {
            return;
        }
        let at = numbers.index(bytes.len());
        match numbers.up_to(7) {
            0 => drop(bytes.remove(at)),
            1 => bytes.insert(at, bytes[at]),
            2 => bytes.insert(at, numbers.pick(TELLING)),
            3 => bytes.truncate(at),
            4 => bytes.push(numbers.pick(TELLING)),
            5 => {
                let with = numbers.pick(&[&b"-0"[..], b"07", b"+1", b"\r\n", b"  ", b"1 "]);
                let end = (at + with.len()).min(bytes.len());
                bytes.splice(at..end, with.iter().copied());
            }
            _ => bytes[at] = numbers.pick(TELLING),
        }
    }
}

/// The sheet of the worked example.
pub fn small_sheet() -> Vec<u8> {
    write(2, 20, &[(1, 4, 0), (0, 8, 8)])
}

pub fn longest_sheet() -> Vec<u8> {
    let lines: Vec<_> = (0..16).map(|x| (15 - x, -MOST_PRICE, MOST_PRICE)).collect();
    write(16, MOST_BILL, &lines)
}

/// Whole sheets, sheets with a tail, and inputs that are no sheets at all.
pub fn set_sheets() -> Vec<Vec<u8>> {
    let mut sheets = vec![small_sheet(), longest_sheet(), Vec::new()];
    sheets.extend([vec![b'\n'; 900], vec![0xff; 900], vec![b' '; 809], vec![b'1'; 24]]);
    for tail in [&b"\n"[..], b" ", b"x", b"   0", b"   2                  20\n"] {
        sheets.push([&small_sheet()[..], tail].concat());
    }
    for tail in [&b"\n"[..], b"x", &[b'9'; 1200]] {
        sheets.push([&longest_sheet()[..], tail].concat());
    }
    sheets
}

/// The small sheet with one byte replaced, left out or doubled, or cut there.
pub fn nearly_small_sheet(numbers: &mut Numbers) -> Vec<u8> {
    let mut sheet = small_sheet();
    let at = numbers.index(sheet.len());
    match numbers.up_to(6) {
        0 => drop(sheet.remove(at)),
        1 => sheet.insert(at, sheet[at]),
        2 => sheet.truncate(at),
        _ => sheet[at] = numbers.pick(b" 019-+\n\r\t\x00"),
    }
    sheet
}
