//! The least naming, from docs/ASSIGNMENT.md.

use crate::sheet::{Line, Plan};

/// What each role costs on each board.
#[derive(Debug, Clone)]
pub struct Costs {
    rows: Vec<Vec<u64>>,
}

impl Costs {
    /// A table of so many roles and boards, by its entries.
    pub fn from_entries<E>(
        boards: usize,
        mut entry: impl FnMut(usize, usize) -> Result<u64, E>,
    ) -> Result<Costs, E> {
        let mut rows = vec![vec![0; boards]; boards];
        for (role, row) in rows.iter_mut().enumerate() {
            for (board, cost) in row.iter_mut().enumerate() {
                *cost = entry(role, board)?;
            }
        }
        Ok(Costs { rows })
    }

    pub fn boards(&self) -> usize {
        self.rows.len()
    }

    pub fn at(&self, role: usize, board: usize) -> u64 {
        self.rows[role][board]
    }

    /// The bill of a naming, which gives each role a board.
    pub fn bill(&self, naming: &[usize]) -> u64 {
        naming.iter().enumerate().map(|(role, board)| self.at(role, *board)).sum()
    }

    pub fn bill_of_own_names(&self) -> u64 {
        (0..self.boards()).map(|x| self.at(x, x)).sum()
    }
}

/// A plan of least bill.
pub fn solve(costs: &Costs) -> Plan {
    let boards = costs.boards();
    let mut search = Search {
        costs,
        role_prices: vec![0; boards],
        board_prices: vec![0; boards],
        holders: vec![None; boards],
    };
    for role in 0..boards {
        search.place(role);
    }
    search.plan()
}

/// Prices that are feasible, and tight wherever a role holds a board.
struct Search<'a> {
    costs: &'a Costs,
    role_prices: Vec<i64>,
    board_prices: Vec<i64>,
    holders: Vec<Option<usize>>,
}

/// The tree of tight ways that grows from the role that is to be placed.
struct Tree {
    roles: Vec<usize>,
    boards: Vec<usize>,
    /// For each board outside the tree how far it is from tight, and the role of the tree that is so near.
    slacks: Vec<(i64, usize)>,
    /// For each board of the tree the role that it was reached from.
    reached_from: Vec<Option<usize>>,
}

impl Search<'_> {
    fn slack(&self, role: usize, board: usize) -> i64 {
        self.costs.at(role, board) as i64 - self.role_prices[role] - self.board_prices[board]
    }

    /// Gives the role a board; roles that hold one keep one.
    fn place(&mut self, root: usize) {
        let boards = self.costs.boards();
        let mut tree = Tree {
            roles: vec![root],
            boards: Vec::new(),
            slacks: (0..boards).map(|board| (self.slack(root, board), root)).collect(),
            reached_from: vec![None; boards],
        };
        while let Some(board) = tree.nearest() {
            let (step, from) = tree.slacks[board];
            self.shift_prices(&mut tree, step);
            tree.reached_from[board] = Some(from);
            match self.holders[board] {
                None => return self.hand_over(&tree, board),
                Some(holder) => self.grow(&mut tree, board, holder),
            }
        }
    }

    /// Raises the prices of the tree's roles, lowers those of its boards, and so brings the others nearer.
    fn shift_prices(&mut self, tree: &mut Tree, step: i64) {
        for &role in &tree.roles {
            self.role_prices[role] += step;
        }
        for &board in &tree.boards {
            self.board_prices[board] -= step;
        }
        for (board, (slack, _)) in tree.slacks.iter_mut().enumerate() {
            if tree.reached_from[board].is_none() {
                *slack -= step;
            }
        }
    }

    fn grow(&self, tree: &mut Tree, board: usize, holder: usize) {
        tree.boards.push(board);
        tree.roles.push(holder);
        for other in 0..self.costs.boards() {
            let slack = self.slack(holder, other);
            if tree.reached_from[other].is_none() && slack < tree.slacks[other].0 {
                tree.slacks[other] = (slack, holder);
            }
        }
    }

    /// Gives each board of the path that ends at `last` to the role that it was reached from.
    fn hand_over(&mut self, tree: &Tree, last: usize) {
        let mut free = Some(last);
        while let Some(board) = free {
            let Some(role) = tree.reached_from[board] else { return };
            let held = self.holders.iter().position(|holder| *holder == Some(role));
            self.holders[board] = Some(role);
            free = held;
        }
    }

    fn plan(&self) -> Plan {
        let boards = self.costs.boards();
        let mut naming = vec![0; boards];
        for (board, holder) in self.holders.iter().enumerate() {
            if let Some(role) = holder {
                naming[*role] = board;
            }
        }
        let line = |x: usize| Line { board: naming[x], u: self.role_prices[x], v: self.board_prices[x] };
        Plan { bill: self.costs.bill(&naming), lines: (0..boards).map(line).collect() }
    }
}

impl Tree {
    fn nearest(&self) -> Option<usize> {
        let outside = (0..self.slacks.len()).filter(|board| self.reached_from[*board].is_none());
        outside.min_by_key(|board| self.slacks[*board].0)
    }
}

#[cfg(test)]
mod tests {
    use super::*;
    use crate::judge::judge;
    use crate::making::numbers::Numbers;

    fn table(boards: usize, entry: impl Fn(usize, usize) -> u64) -> Costs {
        Costs::from_entries(boards, |x, y| Ok::<_, ()>(entry(x, y))).unwrap()
    }

    /// The least bill of the roles from `role` on, over all ways to give them the boards that are left.
    fn least_of_all(costs: &Costs, role: usize, taken: &mut [bool]) -> u64 {
        if role == costs.boards() {
            return 0;
        }
        let mut least = u64::MAX;
        for board in 0..costs.boards() {
            if !taken[board] {
                taken[board] = true;
                least = least.min(costs.at(role, board) + least_of_all(costs, role + 1, taken));
                taken[board] = false;
            }
        }
        least
    }

    #[test]
    fn tables_of_the_page() {
        let rows = [[4, 12], [8, 24]];
        let costs = table(2, |x, y| rows[x][y]);
        assert_eq!((costs.bill_of_own_names(), solve(&costs).bill), (28, 20));
        let rows = [[0, 1], [1, 10]];
        assert_eq!(solve(&table(2, |x, y| rows[x][y])).bill, 2);
    }

    #[test]
    fn no_naming_is_cheaper() {
        let mut numbers = Numbers::new(7);
        for turn in 0..3000 {
            let boards = 1 + turn % 6;
            let most = numbers.pick(&[1, 3, 10, 1000, 1 << 44]);
            let entries: Vec<_> = (0..boards * boards).map(|_| numbers.up_to(most)).collect();
            let costs = table(boards, |x, y| entries[x * boards + y]);
            let plan = solve(&costs);
            assert_eq!(plan.bill, least_of_all(&costs, 0, &mut vec![false; boards]));
            assert_eq!(judge(&costs, &plan), Ok(()));
        }
    }

    #[test]
    fn the_judge_takes_every_solution() {
        let mut numbers = Numbers::new(8);
        for turn in 0..1000 {
            let boards = 1 + turn % 16;
            let most = numbers.pick(&[0, 1, 5, 1 << 20, 1 << 44]);
            let entries: Vec<_> = (0..boards * boards).map(|_| numbers.up_to(most)).collect();
            let costs = table(boards, |x, y| entries[x * boards + y]);
            let plan = solve(&costs);
            assert_eq!(judge(&costs, &plan), Ok(()));
            assert_eq!(Plan::read(&plan.write()), Ok(plan));
        }
    }
}
