//! A Markdown table of one call: a line for each kind and size of halls, how times grow with n²m, and the mean ratios.

use compare::{Lists, Planner};

use crate::calls::{Call, Case};
use crate::growth::fit;

/// A hall's n, the kind's name, and each planner's time in nanoseconds.
struct Timed {
    kind: &'static str,
    n: usize,
    times: Vec<f64>,
}

pub struct Table<'a> {
    call: Call,
    planners: &'a [Planner],
    halls: Vec<Timed>,
}

/// The middle and the greatest.
pub fn median_and_worst(mut values: Vec<f64>) -> (f64, f64) {
    values.sort_by(f64::total_cmp);
    (values[values.len() / 2], values[values.len() - 1])
}

fn mean(values: &[f64]) -> f64 {
    values.iter().sum::<f64>() / values.len() as f64
}

/// n²m for m = 4n.
fn volume(n: usize) -> f64 {
    (n * n * 4 * n) as f64
}

impl<'a> Table<'a> {
    pub fn new(call: Call, planners: &'a [Planner]) -> Table<'a> {
        println!("\n## {}\n\n{}\n", call.name, call.what);
        let mut head = "| halls | n | m |".to_string();
        for planner in planners {
            head += &format!(" {} µs, median | worst |", planner.name);
        }
        for planner in &planners[1..] {
            head += &format!(" {} / {}, mean | worst |", planner.name, planners[0].name);
        }
        if call.counts.is_some() {
            head += " flips, median | worst | raises, median | worst |";
        }
        println!("{head}\n|---|{}", "---:|".repeat(head.matches('|').count() - 2));
        Table { call, planners, halls: vec![] }
    }

    pub fn line(&mut self, kind: &'static str, n: usize, cases: &[Case], lent: &mut Lists) {
        let times: Vec<Vec<f64>> = cases.iter().map(|case| self.call.times(self.planners, case, lent)).collect();
        let mut line = format!("| {kind} | {n} | {} |", 4 * n);
        for k in 0..self.planners.len() {
            let (median, worst) = median_and_worst(times.iter().map(|of_case| of_case[k]).collect());
            line += &format!(" {:.1} | {:.1} |", median / 1e3, worst / 1e3);
        }
        for k in 1..self.planners.len() {
            let ratios: Vec<f64> = times.iter().map(|of_case| of_case[k] / of_case[0]).collect();
            line += &format!(" {:.2} | {:.2} |", mean(&ratios), median_and_worst(ratios.clone()).1);
        }
        if let Some(counts) = self.call.counts {
            let flips = cases.iter().map(|case| counts(case).flips.into()).collect();
            let raises = cases.iter().map(|case| counts(case).raises.into()).collect();
            for (median, worst) in [median_and_worst(flips), median_and_worst(raises)] {
                line += &format!(" {median} | {worst} |");
            }
        }
        println!("{line}");
        self.halls.extend(times.into_iter().map(|times| Timed { kind, n, times }));
    }

    /// Times against n²m, fitted for each kind of halls over all sizes.
    pub fn growth(&self) {
        let mut head = "| halls |".to_string();
        for planner in self.planners {
            let name = planner.name;
            head += &format!(" {name}: exponent | ns / n²m, fitted at n = 8 | at n = 64 |");
        }
        println!("\nGrowth: time = c (n²m)^e, by least squares on the logarithms of all halls of a kind.\n");
        println!("{head}\n|---|{}", "---:|".repeat(head.matches('|').count() - 2));
        let mut kinds: Vec<&str> = self.halls.iter().map(|hall| hall.kind).collect();
        kinds.dedup();
        for kind in kinds {
            let mut line = format!("| {kind} |");
            for k in 0..self.planners.len() {
                let of_kind = self.halls.iter().filter(|hall| hall.kind == kind);
                let points: Vec<(f64, f64)> = of_kind.map(|hall| (volume(hall.n), hall.times[k])).collect();
                let fitted = fit(&points);
                let at = |n| fitted.at(volume(n)) / volume(n);
                line += &format!(" {:.2} | {:.3} | {:.3} |", fitted.exponent, at(8), at(64));
            }
            println!("{line}");
        }
    }

    pub fn end(&self, full: usize) {
        for k in 1..self.planners.len() {
            let ratio = |hall: &Timed| hall.times[k] / hall.times[0];
            let ratios: Vec<f64> = self.halls.iter().map(ratio).collect();
            let of_full: Vec<f64> = self.halls.iter().filter(|hall| hall.n == full).map(ratio).collect();
            println!(
                "\nMean of {} / {}: {:.2} over the {} full halls (n = {full}), {:.2} over all {} halls.",
                self.planners[k].name,
                self.planners[0].name,
                mean(&of_full),
                of_full.len(),
                mean(&ratios),
                ratios.len(),
            );
        }
    }
}
