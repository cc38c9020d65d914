//! The plan: a joining choice is repaired against a potential until its cost is least. For the rows it is repaired at price
//! and count, and its rows are then decided one by one in order; for the cuts it is repaired at the price alone.
//!
//! Kept throughout, for a row from u to v with cost c: p(v) - p(u) <= c, with equality on chosen rows once repaired; and
//! where p(u) < p(v), some tight shore holds v and not u.

use crate::choice::Choice;
use crate::cuts;
use crate::hall::{Hall, Row};
use crate::sets::{holds, members, Arcs};
use crate::tight::Neighbourhoods;

#[derive(Clone, Copy, Debug, Default, PartialEq, Eq)]
pub struct Counts {
    pub flips: u32,
    pub raises: u32,
}

#[derive(Clone)]
pub struct Planner<'h> {
    pub choice: Choice<'h>,
    pub potential: [i64; 64],
    cost: Vec<i64>,
    /// Rows before this one are decided for good: they are neither opened nor closed.
    decided: usize,
    neighbourhoods: Neighbourhoods,
    counts: Counts,
}

enum Search {
    /// A path of fewest arcs, from its start to the target.
    Path(Vec<usize>),
    /// The set reached; it does not hold the target.
    Closed(u64),
}

/// What is least with a row, and without it where there is a joining choice without it.
pub struct Totals {
    pub with: i64,
    pub without: Option<i64>,
}

/// What a fixed row costs: more than any choice of the others.
const FIXED_COST: i64 = 256_000_001;

/// What a row costs where the total is to be least.
fn charge(row: &Row) -> i64 {
    if row.fixed {
        FIXED_COST
    } else {
        row.price.into()
    }
}

/// What a row costs where the total, then the number of rows, is to be least: there are at most 256 rows.
fn rank(row: &Row) -> i64 {
    257 * charge(row) + 1
}

/// The first choice.
pub fn rows(hall: &Hall) -> (Vec<usize>, Counts) {
    let mut planner = Planner::repaired(hall, hall.rows.iter().map(rank).collect());
    planner.decide_rows();
    (planner.choice.rows().collect(), planner.counts)
}

/// The cuts beside a choice of least total, and the levels.
pub fn cuts(hall: &Hall) -> (Vec<(u64, u64)>, Vec<i32>, Counts) {
    let mut planner = Planner::repaired(hall, hall.rows.iter().map(charge).collect());
    let levels = (0..hall.n).map(|j| (planner.potential[j] - planner.potential[0]) as i32).collect();
    (cuts::cuts(&mut planner), levels, planner.counts)
}

/// A choice of least cost and the cuts beside it, for other costs than the prices.
pub fn plan_at(hall: &Hall, cost: Vec<i64>) -> (Vec<usize>, Vec<(u64, u64)>) {
    let mut planner = Planner::repaired(hall, cost);
    (planner.choice.rows().collect(), cuts::cuts(&mut planner))
}

/// For each row but a fixed one the least totals of the joining choices with it and of those without it. A row that a choice
/// of least total has is tried at a fixed row's cost, any other for nothing.
pub fn totals(hall: &Hall) -> Vec<Option<Totals>> {
    let planner = Planner::repaired(hall, hall.rows.iter().map(charge).collect());
    let total = planner.total();
    let of_row = |(i, row): (usize, &Row)| {
        if row.fixed {
            None
        } else if planner.choice.has(i) {
            let without = planner.recosted(i, FIXED_COST).total();
            Some(Totals { with: total, without: (without < FIXED_COST).then_some(without) })
        } else {
            Some(Totals { with: planner.recosted(i, 0).total() + charge(row), without: Some(total) })
        }
    };
    hall.rows.iter().enumerate().map(of_row).collect()
}

impl<'h> Planner<'h> {
    /// A choice of least cost with its potential.
    fn repaired(hall: &'h Hall, cost: Vec<i64>) -> Planner<'h> {
        let mut planner = Planner {
            choice: Choice::thinned(hall, &cost),
            potential: [0; 64],
            cost,
            decided: 0,
            neighbourhoods: Neighbourhoods::unknown(),
            counts: Counts::default(),
        };
        planner.repair();
        planner
    }

    /// The same with another cost for a row, repaired from where it stands.
    fn recosted(&self, i: usize, cost: i64) -> Planner<'h> {
        let mut planner = self.clone();
        planner.cost[i] = cost;
        if planner.gap(i) < 0 {
            planner.shut(i);
        }
        planner.repair();
        planner
    }

    /// The potential between a row's ends is taken out, so that they are level; no difference grows.
    fn shut(&mut self, i: usize) {
        let row = self.hall().rows[i];
        let (low, high) = (self.potential[row.tail], self.potential[row.head]);
        self.potential.iter_mut().for_each(|level| *level -= (*level).clamp(low, high) - low);
    }

    fn total(&self) -> i64 {
        self.choice.rows().map(|i| self.cost[i]).sum()
    }

    pub fn hall(&self) -> &'h Hall {
        self.choice.hall
    }

    pub fn neighbourhood(&mut self, v: usize) -> u64 {
        self.neighbourhoods.of(&self.choice, v)
    }

    /// The cost of a row less its potential difference.
    fn gap(&self, i: usize) -> i64 {
        let row = self.hall().rows[i];
        self.cost[i] - (self.potential[row.head] - self.potential[row.tail])
    }

    fn undecided(&self) -> std::ops::Range<usize> {
        self.decided..self.hall().rows.len()
    }

    fn unrepaired(&self) -> Option<usize> {
        self.choice.rows().find(|&i| self.gap(i) > 0)
    }

    /// No gap is left on chosen rows, so the choice has least cost.
    fn repair(&mut self) {
        while let Some(row) = self.unrepaired() {
            let ends = self.hall().rows[row];
            match self.search(ends.head, ends.tail) {
                Search::Path(path) => {
                    self.flip(&path);
                    self.choice.close(row);
                }
                Search::Closed(set) => {
                    let gap = self.gap(row);
                    self.raise(set, gap);
                }
            }
        }
    }

    /// Each row in turn goes in if the cost allows it.
    fn decide_rows(&mut self) {
        for row in 0..self.hall().rows.len() {
            self.decided = row;
            if self.choice.has(row) || self.gap(row) > 0 {
                continue;
            }
            let ends = self.hall().rows[row];
            match self.search(ends.tail, ends.head) {
                Search::Path(path) => {
                    self.flip(&path);
                    self.choice.open(row);
                }
                Search::Closed(set) => self.raise_by(set, 1),
            }
        }
    }

    /// Arcs of undecided rows in the zero graph: back over a row without a gap, forward over a chosen row.
    fn row_arcs(&self) -> Arcs {
        let mut arcs = [0; 64];
        for i in self.undecided() {
            let row = self.hall().rows[i];
            if self.gap(i) == 0 {
                arcs[row.head] |= 1 << row.tail;
            }
            if self.choice.has(i) {
                arcs[row.tail] |= 1 << row.head;
            }
        }
        arcs
    }

    fn level_with(&self, x: usize) -> u64 {
        (0..self.hall().n).fold(0, |set, j| set | ((self.potential[j] == self.potential[x]) as u64) << j)
    }

    /// Breadth first over the zero graph: the arcs of rows, and swaps within a neighbourhood at equal potential.
    fn search(&mut self, start: usize, target: usize) -> Search {
        let row_arcs = self.row_arcs();
        let mut parent = [start; 64];
        let mut queue = vec![start];
        let mut seen = 1 << start;
        let mut next = 0;
        while next < queue.len() {
            let x = queue[next];
            next += 1;
            let found = (row_arcs[x] | self.neighbourhood(x) & self.level_with(x)) & !seen;
            seen |= found;
            for y in members(found) {
                parent[y] = x;
                queue.push(y);
            }
            if holds(seen, target) {
                return Search::Path(path(&parent, start, target));
            }
        }
        Search::Closed(seen)
    }

    /// Opens and closes the rows of the path's arcs; the other arcs are swaps.
    fn flip(&mut self, path: &[usize]) {
        self.counts.flips += 1;
        self.neighbourhoods = Neighbourhoods::unknown();
        for step in path.windows(2) {
            let (x, y) = (step[0], step[1]);
            let rows = &self.hall().rows;
            let backward = |&i: &usize| rows[i].tail == y && rows[i].head == x && self.gap(i) == 0;
            let forward = |&i: &usize| rows[i].tail == x && rows[i].head == y && self.choice.has(i);
            if let Some(i) = self.undecided().find(backward) {
                self.choice.open(i);
            } else if let Some(i) = self.undecided().find(forward) {
                self.choice.close(i);
            }
        }
    }

    /// Raises a closed set as far as it may go, at most by `limit`.
    fn raise(&mut self, set: u64, limit: i64) {
        let mut step = limit;
        for (i, row) in self.hall().rows.iter().enumerate() {
            if holds(set, row.head) && !holds(set, row.tail) {
                step = step.min(self.gap(i));
            }
        }
        for v in members(set) {
            for u in members(self.neighbourhood(v) & !set) {
                step = step.min(self.potential[u] - self.potential[v]);
            }
        }
        self.raise_by(set, step);
    }

    fn raise_by(&mut self, set: u64, step: i64) {
        self.counts.raises += 1;
        members(set).for_each(|j| self.potential[j] += step);
    }
}

fn path(parent: &[usize; 64], start: usize, target: usize) -> Vec<usize> {
    let mut path = vec![target];
    let mut at = target;
    while at != start {
        at = parent[at];
        path.push(at);
    }
    path.reverse();
    path
}
