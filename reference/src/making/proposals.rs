//! Sheets that are proposed for a job.

use super::numbers::Numbers;
use super::sheets::{any_sheet, damage};
use crate::assignment::solve;
use crate::job::Job;
use crate::planning::Drawn;
use crate::sheet::{Line, Plan, MOST_BILL, MOST_PRICE};

#[derive(Debug, Clone, Copy)]
pub enum Change {
    Nothing,
    /// Adds a number to all prices of roles and takes it from all prices of boards.
    ShiftPrices,
    SwapNames,
    RepeatName,
    MovePrice,
    MoveBill,
    NameAndBill,
    OtherCount,
    Bytes,
    Tail,
    Anything,
}

/// The sheet of a least plan for the job, changed; any sheet where the job cannot be drawn.
pub fn sheet(numbers: &mut Numbers, job: &Job, change: Change) -> Vec<u8> {
    let costs = Drawn::new(job).and_then(|drawn| drawn.costs());
    let Ok(mut plan) = costs.map(|costs| solve(&costs)) else { return any_sheet(numbers) };
    match change {
        Change::Nothing => {}
        Change::ShiftPrices => shift_prices(numbers, &mut plan),
        Change::SwapNames => swap_names(numbers, &mut plan),
        Change::RepeatName => repeat_name(numbers, &mut plan),
        Change::MovePrice => move_price(numbers, &mut plan),
        Change::MoveBill => move_bill(numbers, &mut plan),
        Change::NameAndBill => {
            repeat_name(numbers, &mut plan);
            move_bill(numbers, &mut plan);
        }
        Change::OtherCount => take_other_count(numbers, &mut plan),
        Change::Bytes => {
            let mut bytes = plan.write();
            damage(numbers, &mut bytes);
            return bytes;
        }
        Change::Tail => {
            return [&plan.write()[..], numbers.pick(&[&b"\n"[..], b" ", b"x", &[b'\n'; 900]])].concat()
        }
        Change::Anything => return any_sheet(numbers),
    }
    plan.write()
}

fn shift_prices(numbers: &mut Numbers, plan: &mut Plan) {
    let most = MOST_PRICE as i64;
    let room_up = plan.lines.iter().map(|line| (most - line.u).min(most + line.v)).min().unwrap_or(0);
    let room_down = plan.lines.iter().map(|line| (most + line.u).min(most - line.v)).min().unwrap_or(0);
    let any = numbers.up_to(1000) as i64 - 500;
    let shift = numbers.pick(&[1, -1, any, room_up, -room_down, room_up / 2]);
    for line in &mut plan.lines {
        line.u += shift;
        line.v -= shift;
    }
}

fn swap_names(numbers: &mut Numbers, plan: &mut Plan) {
    let (one, other) = (numbers.index(plan.boards()), numbers.index(plan.boards()));
    let other = if other == one { (one + 1) % plan.boards() } else { other };
    let board = plan.lines[one].board;
    plan.lines[one].board = plan.lines[other].board;
    plan.lines[other].board = board;
}

fn repeat_name(numbers: &mut Numbers, plan: &mut Plan) {
    let (one, other) = (numbers.index(plan.boards()), numbers.index(plan.boards()));
    let other = if other == one { (one + 1) % plan.boards() } else { other };
    plan.lines[one].board = plan.lines[other].board;
}

fn move_price(numbers: &mut Numbers, plan: &mut Plan) {
    let line = numbers.index(plan.boards());
    let line = &mut plan.lines[line];
    let step = numbers.pick(&[1, -1]);
    if numbers.once_in(2) {
        line.u += step;
    } else {
        line.v += step;
    }
}

fn move_bill(numbers: &mut Numbers, plan: &mut Plan) {
    plan.bill = match numbers.up_to(5) {
        0 if plan.bill > 0 => 0,
        1 => MOST_BILL as u64,
        2 | 3 if plan.bill > 0 => plan.bill - 1,
        _ => plan.bill + 1,
    };
}

fn take_other_count(numbers: &mut Numbers, plan: &mut Plan) {
    if plan.boards() > 1 && numbers.once_in(2) {
        plan.lines.pop();
        let boards = plan.boards();
        for line in &mut plan.lines {
            line.board = line.board.min(boards - 1);
        }
    } else if plan.boards() < 16 {
        plan.lines.push(Line { board: plan.boards(), u: 0, v: 0 });
    } else {
        plan.lines = vec![Line { board: 0, u: 0, v: 0 }];
    }
}
