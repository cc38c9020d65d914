//! The calls that are timed, and what they are called on.

use std::hint::black_box;
use std::time::Instant;

use compare::{Lists, Planner};
use reference::{Counts, SITE_PLACES};

pub const RUNS: usize = 9;

/// A hall, the plan's choice for it, and the flips and raises that each of the plan's calls took.
pub struct Case {
    file: Vec<u8>,
    n: usize,
    choice: Vec<u32>,
    total: u32,
    rows: Counts,
    cuts: Counts,
}

impl Case {
    pub fn new(file: Vec<u8>, n: usize, lent: &mut Lists) -> Case {
        let Lists { rows, shores, weights, levels } = lent;
        let of_rows = reference::plan_rows_into(&file, rows).expect("full halls are accepted");
        let of_cuts = reference::plan_cuts_into(&file, shores, weights, levels).expect("full halls are accepted");
        let choice = rows[..of_rows.chosen].to_vec();
        Case { file, n, choice, total: of_rows.total, rows: of_rows.counts, cuts: of_cuts.counts }
    }
}

/// A site of 2,048 kits, of which 7 halls have 256 each.
const FILLED: [u32; SITE_PLACES] = filled_site();

const fn filled_site() -> [u32; SITE_PLACES] {
    let mut site = [0; SITE_PLACES];
    [site[0], site[1], site[2]] = [2_048, 256, 7];
    let mut place = 0;
    while place < 7 * 256 {
        site[3 + place / 256] = 256;
        site[11 + place] = place as u32 % 256 + 1;
        place += 1;
    }
    site
}

#[derive(Clone, Copy)]
pub struct Call {
    pub name: &'static str,
    pub what: &'static str,
    /// The flips and raises, which stand beside the times.
    pub counts: Option<fn(&Case) -> Counts>,
    run: fn(&Planner, &Case, &mut Lists),
}

pub const ROWS: Call = Call {
    name: "Rows",
    what: "The first joining choice and its total.",
    counts: Some(|case| case.rows),
    run: |planner, case, lent| {
        black_box((planner.rows)(black_box(&case.file), lent));
    },
};

const CUTS: Call = Call {
    name: "Cuts",
    what: "The cuts beside the first joining choice, and the levels.",
    counts: Some(|case| case.cuts),
    run: |planner, case, lent| {
        black_box((planner.cuts)(black_box(&case.file), lent));
    },
};

pub const CHECK: Call = Call {
    name: "Check",
    what: "The plan's own choice, which joins: every junction is searched from.",
    counts: None,
    run: |planner, case, _| {
        black_box((planner.check)(black_box(&case.file), &case.choice));
    },
};

const TIGHT: Call = Call {
    name: "Tight neighbourhoods",
    what: "One call for each junction, for the plan's choice; each reads the file and checks the choice anew.",
    counts: None,
    run: |planner, case, _| {
        for junction in 1..=case.n as u32 {
            black_box((planner.tight)(black_box(&case.file), &case.choice, junction));
        }
    },
};

pub const ROUTES: Call = Call {
    name: "Routes",
    what: "One call for each junction j, from j to n + 1 - j, for the plan's choice; each reads the file and checks the choice anew.",
    counts: None,
    run: |planner, case, lent| {
        let n = case.n as u32;
        for from in 1..=n {
            black_box((planner.route)(black_box(&case.file), &case.choice, from, n + 1 - from, &mut lent.levels));
        }
    },
};

const FIGURES: Call = Call {
    name: "Figures",
    what: "The plan's own choice held to its total: every row is read.",
    counts: None,
    run: |planner, case, _| {
        black_box((planner.over)(black_box(&case.file), &case.choice, case.total));
    },
};

pub const TOTALS: Call = Call {
    name: "With and without each row",
    what: "For every row the least total with it and the least without it.",
    counts: None,
    run: |planner, case, _| {
        let (mut with, mut without) = ([0; 256], [0; 256]);
        black_box((planner.totals)(black_box(&case.file), &mut with, &mut without));
    },
};

pub const ADMISSION: Call = Call {
    name: "Admission",
    what: "The hall is put on a site of 2,048 kits, behind 7 halls that have 256 each.",
    counts: None,
    run: |planner, case, _| {
        let mut site = FILLED;
        black_box((planner.admit)(black_box(&case.file), &mut site));
    },
};

pub const CALLS: [Call; 8] = [ROWS, CUTS, CHECK, TIGHT, ROUTES, FIGURES, TOTALS, ADMISSION];

impl Call {
    /// Nanoseconds of each planner.
    pub fn times(self, planners: &[Planner], case: &Case, lent: &mut Lists) -> Vec<f64> {
        let turns: Vec<(Call, &Planner)> = planners.iter().map(|planner| (self, planner)).collect();
        times(&turns, case, lent)
    }
}

/// Nanoseconds of each call of a planner; they take turns.
pub fn times(turns: &[(Call, &Planner)], case: &Case, lent: &mut Lists) -> Vec<f64> {
    let mut best = vec![f64::INFINITY; turns.len()];
    for _ in 0..RUNS {
        for (best, (call, planner)) in best.iter_mut().zip(turns) {
            let start = Instant::now();
            (call.run)(planner, case, lent);
            *best = best.min(start.elapsed().as_nanos() as f64);
        }
    }
    best
}
