//! Markdown tables of what one call takes beside another.

use compare::{Lists, Planner};

use crate::calls::{times, Call, Case, ADMISSION, CHECK, ROUTES, ROWS, TOTALS};
use crate::table::median_and_worst;

/// Two calls on the same full halls, in turns.
pub struct Beside {
    heading: &'static str,
    what: &'static str,
    names: [&'static str; 2],
    calls: [Call; 2],
    /// How often the second is called in a run on a hall of n junctions.
    often: fn(usize) -> usize,
}

const ROUTE_BESIDE_CHECK: Beside = Beside {
    heading: "A route beside a check",
    what: "Of the plan's choice of a full hall, in turns; a route is the mean of those above.",
    names: ["check", "route"],
    calls: [CHECK, ROUTES],
    often: |n| n,
};

const TOTALS_BESIDE_ROWS: Beside = Beside {
    heading: "All rows' totals beside a plan",
    what: "Of a full hall, in turns: the totals with and without each of its rows, and a plan by the rows' call alone.",
    names: ["plan", "all totals"],
    calls: [ROWS, TOTALS],
    often: |_| 1,
};

const ADMISSION_BESIDE_ROWS: Beside = Beside {
    heading: "An admission beside a plan",
    what: "Of a full hall to a site of 7 halls that have 256 kits each, in turns, and a plan by the rows' call alone.",
    names: ["plan", "admission"],
    calls: [ROWS, ADMISSION],
    often: |_| 1,
};

pub const BESIDE: [Beside; 3] = [ROUTE_BESIDE_CHECK, TOTALS_BESIDE_ROWS, ADMISSION_BESIDE_ROWS];

impl Beside {
    pub fn print_head(&self, planners: &[Planner]) {
        println!("\n## {}\n\n{}\n", self.heading, self.what);
        let [first, second] = self.names;
        let mut head = "| halls |".to_string();
        for Planner { name, .. } in planners {
            head += &format!(
                " {name}: {first} µs, median | {second} µs, median | worst | {second} / {first}, median | worst |"
            );
        }
        println!("{head}\n|---|{}", "---:|".repeat(head.matches('|').count() - 2));
    }

    pub fn print_line(&self, kind: &str, n: usize, planners: &[Planner], cases: &[Case], lent: &mut Lists) {
        let mut line = format!("| {kind} |");
        for planner in planners {
            let of_cases: Vec<[f64; 3]> = cases.iter().map(|case| self.of_case(planner, n, case, lent)).collect();
            let [first, second, ratio] = [0, 1, 2].map(|k| median_and_worst(of_cases.iter().map(|of| of[k]).collect()));
            line += &format!(" {:.1} | {:.1} | {:.1} |", first.0, second.0, second.1);
            line += &format!(" {:.2} | {:.2} |", ratio.0, ratio.1);
        }
        println!("{line}");
    }

    /// Microseconds of one call and of the other, and how many times the first the second is.
    fn of_case(&self, planner: &Planner, n: usize, case: &Case, lent: &mut Lists) -> [f64; 3] {
        let best = times(&self.calls.map(|call| (call, planner)), case, lent);
        let (first, second) = (best[0], best[1] / (self.often)(n) as f64);
        [first / 1e3, second / 1e3, second / first]
    }
}
