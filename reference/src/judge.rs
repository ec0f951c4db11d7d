//! Whether a proposed plan can be adopted, from docs/ASSIGNMENT.md and docs/CAUSES.md.

use crate::assignment::Costs;
use crate::causes::{Cause, Rule};
use crate::sheet::{Plan, MOST_PRICE};

/// The naming and the limits of all roles first, then the sums of all roles, then the bill.
pub fn judge(costs: &Costs, plan: &Plan) -> Result<(), Cause> {
    let boards = costs.boards();
    if plan.boards() != boards {
        return Err(Cause::OtherCount(plan.boards()));
    }
    for role in 0..boards {
        if is_misnamed(plan, role) {
            return Err(Cause::PlanRole { role, rule: Rule::Naming });
        }
        if is_beyond_limits(plan, role) {
            return Err(Cause::PlanRole { role, rule: Rule::PriceLimits });
        }
    }
    if let Some(role) = (0..boards).find(|role| is_unfair(costs, plan, *role)) {
        return Err(Cause::PlanRole { role, rule: Rule::Sums });
    }
    let naming: Vec<_> = plan.lines.iter().map(|line| line.board).collect();
    if costs.bill(&naming) != plan.bill {
        return Err(Cause::PlanBill { boards });
    }
    Ok(())
}

fn is_misnamed(plan: &Plan, role: usize) -> bool {
    let board = plan.lines[role].board;
    board >= plan.boards() || plan.lines[..role].iter().any(|line| line.board == board)
}

fn is_beyond_limits(plan: &Plan, role: usize) -> bool {
    let line = plan.lines[role];
    [line.u, line.v].into_iter().any(|price| i128::from(price).abs() > MOST_PRICE)
}

fn is_unfair(costs: &Costs, plan: &Plan, role: usize) -> bool {
    let line = plan.lines[role];
    (0..costs.boards()).any(|board| {
        let sum = i128::from(line.u) + i128::from(plan.lines[board].v);
        let cost = i128::from(costs.at(role, board));
        sum > cost || (board == line.board && sum != cost)
    })
}

#[cfg(test)]
mod tests {
    use super::*;
    use crate::sheet::Line;

    const ROWS: [[u64; 2]; 2] = [[4, 12], [8, 24]];

    fn verdict(change: impl Fn(&mut Plan)) -> Result<(), Cause> {
        let costs = Costs::from_entries(2, |x, y| Ok::<_, ()>(ROWS[x][y])).unwrap();
        let mut plan =
            Plan { bill: 20, lines: vec![Line { board: 1, u: 4, v: 0 }, Line { board: 0, u: 8, v: 8 }] };
        change(&mut plan);
        judge(&costs, &plan)
    }

    fn role(role: usize, rule: Rule) -> Result<(), Cause> {
        Err(Cause::PlanRole { role, rule })
    }

    #[test]
    fn the_plan_of_the_page() {
        assert_eq!(verdict(|_| ()), Ok(()));
        assert_eq!(verdict(|plan| (plan.lines[0].u, plan.lines[1].v) = (5, 7)), role(0, Rule::Sums));
        assert_eq!(verdict(|plan| plan.bill = 21), Err(Cause::PlanBill { boards: 2 }));
    }

    #[test]
    fn namings_and_limits_come_before_sums() {
        let most = MOST_PRICE as i64;
        assert_eq!(verdict(|plan| plan.lines[1].board = 1), role(1, Rule::Naming));
        assert_eq!(verdict(|plan| plan.lines[0].board = 2), role(0, Rule::Naming));
        assert_eq!(verdict(|plan| plan.lines[1].v = most + 1), role(1, Rule::PriceLimits));
        assert_eq!(verdict(|plan| plan.lines[0].u = -most - 1), role(0, Rule::PriceLimits));
        assert_eq!(verdict(|plan| plan.lines[0].u = i64::MIN), role(0, Rule::PriceLimits));
        assert_eq!(
            verdict(|plan| (plan.lines[0].u, plan.lines[1].v) = (5, most + 1)),
            role(1, Rule::PriceLimits)
        );
        assert_eq!(verdict(|plan| (plan.lines[0].u, plan.lines[0].v) = (most, -most)), role(0, Rule::Sums));
    }

    #[test]
    fn a_plan_for_another_count() {
        assert_eq!(verdict(|plan| plan.lines.truncate(1)), Err(Cause::OtherCount(1)));
    }
}
