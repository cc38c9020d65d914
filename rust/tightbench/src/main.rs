//! Times the tight neighbourhoods of all junctions of full halls and prints a Markdown table: for the first choice, and
//! for it with further rows up to 40. A time is a hall's best of twenty. "At once" starts from the hall in columns; "by
//! calls" is one public call a junction, each of which reads the file and checks the choice. All must find the same sets.

#![deny(unsafe_code)]

#[allow(unsafe_code)]
mod library;

use std::hint::black_box;
use std::time::Instant;

use halls::{full_hall, Kind, KINDS};

const HALLS: u64 = 30;
const RUNS: usize = 20;
const JUNCTIONS: usize = 64;

type Sets = [u64; JUNCTIONS];

/// The first choice, and the lowest other rows until there are `least`.
fn chosen_rows(file: &[u8], least: usize) -> Vec<u32> {
    let mut rows = [0; 256];
    let planned = reference::plan_rows_into(file, &mut rows).expect("full halls are accepted");
    let mut choice = rows[..planned.chosen].to_vec();
    let others: Vec<u32> = (1..=256).filter(|row| !choice.contains(row)).collect();
    choice.extend(&others[..least.saturating_sub(choice.len())]);
    choice.sort();
    choice
}

/// The sets, and the microseconds of the best run.
fn time(find: impl Fn() -> Sets) -> (Sets, f64) {
    let run = |_| {
        let start = Instant::now();
        let sets = black_box(find());
        (sets, start.elapsed().as_nanos() as f64 / 1e3)
    };
    (0..RUNS).map(run).min_by(|a, b| a.1.total_cmp(&b.1)).expect("there are runs")
}

fn by_calls(one: impl Fn(u32) -> u64) -> Sets {
    std::array::from_fn(|j| one(j as u32 + 1))
}

fn reference_one(file: &[u8], choice: &[u32], junction: u32) -> u64 {
    match reference::tight(file, choice, junction) {
        Ok(reference::Finding::Around(set)) => set,
        other => panic!("a first choice joins, but {other:?}"),
    }
}

/// How many rows are chosen, and the three times.
fn measure(kind: Kind, seed: u64, least: usize) -> [f64; 4] {
    let file = full_hall(kind, JUNCTIONS, seed);
    let choice = chosen_rows(&file, least);
    let hall = library::Columns::of(&file, &choice);
    let (sets, at_once) = time(|| library::all(black_box(&hall)));
    let (called, library_calls) = time(|| by_calls(|j| library::one(black_box(&file), &choice, j)));
    let (expected, reference_calls) = time(|| by_calls(|j| reference_one(black_box(&file), &choice, j)));
    assert!(sets == expected && called == expected, "{} {seed}: the sets differ", kind.name());
    [choice.len() as f64, at_once, library_calls, reference_calls]
}

fn print_line(kind: Kind, least: usize) {
    let of_halls: Vec<[f64; 4]> = (0..HALLS).map(|seed| measure(kind, seed, least)).collect();
    let mut line = format!("| {} |", kind.name());
    for k in 0..4 {
        let mut column: Vec<f64> = of_halls.iter().map(|of_one| of_one[k]).collect();
        column.sort_by(f64::total_cmp);
        line += &format!(" {:.0} | {:.0} |", column[column.len() / 2], column[column.len() - 1]);
    }
    println!("{line}");
}

fn main() {
    println!("| halls | rows chosen median | most | at once µs median | worst | by calls µs median | worst | reference by calls µs median | worst |");
    println!("|---|{}", "---:|".repeat(8));
    for least in [0, 40] {
        for kind in KINDS {
            print_line(kind, least);
        }
    }
}
