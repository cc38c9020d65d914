//! Tries each planner on halls and files from fixed seeds and compares every answer with the oracle's.
//! `compare [TIMES]` tries so many times as many random halls.

use compare::{
    calls_with_a_choice, every_route, first_plan, plan, planners, quotes, short_columns, short_lists, sites,
    small_plan, with_without, Planner,
};
use halls::{
    all_halls, damaged, fixed_hall, fixed_halls, full_hall, large_fixed_halls, looped_hall, random_files, random_hall,
    sized_files, starred, Kind, KINDS,
};

type Test = fn(&Planner, &[u8], u64) -> Result<(), String>;

struct Suite {
    what: String,
    files: Box<dyn Iterator<Item = Vec<u8>>>,
    test: Test,
}

fn suite(what: impl Into<String>, files: impl Iterator<Item = Vec<u8>> + 'static, test: Test) -> Suite {
    Suite { what: what.into(), files: Box::new(files), test }
}

/// Of how many rows that are opened, and of how many others, the totals are shown in a hall that is not small.
const SOME: usize = 3;

const PLAN: Test = |planner, file, _| plan(planner, file);

const FIRST_PLAN: Test = |planner, file, _| first_plan(planner, file);

const TOTALS: Test = |planner, file, seed| with_without(planner, file, seed, SOME);

const EVERY_TOTAL: Test = |planner, file, seed| with_without(planner, file, seed, 256);

const PLAN_AND_TOTALS_OF_SMALL: Test = |planner, file, seed| {
    small_plan(planner, file)?;
    TOTALS(planner, file, seed)
};

const ALL_OF_SMALL: Test = |planner, file, seed| {
    PLAN_AND_TOTALS_OF_SMALL(planner, file, seed)?;
    calls_with_a_choice(planner, file, seed)
};

const ALL: Test = |planner, file, seed| {
    plan(planner, file)?;
    TOTALS(planner, file, seed)?;
    calls_with_a_choice(planner, file, seed)
};

const TOO_SHORT: Test = |planner, file, _| {
    short_lists(planner, file)?;
    short_columns(planner, file)
};

type Draw = fn(Kind, usize, u64) -> Vec<u8>;

fn of_kinds(draw: Draw, n: usize, seeds: u64) -> impl Iterator<Item = Vec<u8>> {
    KINDS.into_iter().flat_map(move |kind| (0..seeds).map(move |seed| draw(kind, n, seed)))
}

/// Halls drawn by hand, and halls at the limits.
fn telling() -> impl Iterator<Item = Vec<u8>> {
    starred().into_iter().chain(fixed_halls()).chain(large_fixed_halls()).chain(sized_files())
}

fn suites(times: u64) -> Vec<Suite> {
    let too_short = starred().into_iter().chain(fixed_halls()).chain([vec![]]);
    let mut suites = vec![
        suite("halls of the scope", starred().into_iter(), ALL_OF_SMALL),
        suite("halls with fixed rows, drawn by hand", fixed_halls().into_iter(), ALL_OF_SMALL),
        suite("large halls with fixed rows, drawn by hand", large_fixed_halls().into_iter(), ALL),
        suite("first choices, large halls with fixed rows", large_fixed_halls().into_iter(), FIRST_PLAN),
        suite("lists that are too short", too_short, TOO_SHORT),
        suite("halls and files at the limits", sized_files().into_iter(), ALL),
        suite("damaged files", (0..40).flat_map(|seed| damaged(&random_hall(6, 10, seed), seed)), ALL),
        suite("random files of every length", random_files(2_500, 7), ALL),
    ];
    for (n, rows, prices) in
        [(1, 0, 1), (1, 1, 4), (1, 3, 3), (2, 0, 1), (2, 1, 4), (2, 2, 4), (2, 3, 4), (3, 2, 3), (3, 3, 3), (4, 3, 2)]
    {
        let what = format!("all halls: {n} junctions, {rows} rows, fixed or below {prices}");
        suites.push(suite(what, all_halls(n, rows, prices), ALL_OF_SMALL));
    }
    for (n, rows, prices) in [(3, 4, 3), (3, 5, 1), (4, 4, 1)] {
        let what = format!("plans and totals: {n} junctions, {rows} rows, fixed or below {prices}");
        suites.push(suite(what, all_halls(n, rows, prices), PLAN_AND_TOTALS_OF_SMALL));
    }
    let drawn = starred().into_iter().chain(fixed_halls()).chain(sized_files());
    suites.push(suite("every route: halls drawn by hand, halls at the limits", drawn, every_route));
    for (n, rows) in [(1, 3), (2, 4), (3, 4), (4, 3)] {
        let what = format!("every route: all halls, {n} junctions, {rows} rows");
        suites.push(suite(what, all_halls(n, rows, 1), every_route));
    }
    for (n, rows, count) in [(6, 10, 10_000), (16, 48, 300)] {
        let files = (0..count * times).map(move |seed| random_hall(n, rows, seed));
        suites.push(suite(format!("every route: up to {n} junctions and {rows} rows"), files, every_route));
    }
    suites.push(suite("one quote: halls drawn by hand, halls at the limits", telling(), quotes));
    for (n, rows, prices) in [(2, 3, 3), (3, 3, 2)] {
        let what = format!("one quote: all halls, {n} junctions, {rows} rows");
        suites.push(suite(what, all_halls(n, rows, prices), quotes));
    }
    for (n, rows, count) in [(6, 10, 10_000), (16, 48, 1_000), (64, 256, 100)] {
        let files = (0..count * times).map(move |seed| random_hall(n, rows, seed));
        suites.push(suite(format!("one quote: up to {n} junctions and {rows} rows"), files, quotes));
    }
    suites.push(suite("sites: halls drawn by hand, halls at the limits", telling(), sites));
    for (n, rows, count) in [(6, 10, 4_000), (16, 48, 300), (64, 256, 100)] {
        let files = (0..count * times).map(move |seed| random_hall(n, rows, seed));
        suites.push(suite(format!("sites: up to {n} junctions and {rows} rows"), files, sites));
    }
    for (n, rows, count) in [(16, 48, 300), (64, 256, 30)] {
        let files = (0..count * times).map(move |seed| random_hall(n, rows, seed));
        suites.push(suite(format!("every total: up to {n} junctions and {rows} rows"), files, EVERY_TOTAL));
    }
    for (n, rows, count) in [(6, 10, 40_000), (8, 16, 1_000), (8, 32, 1_000), (12, 30, 1_000)] {
        let files = (0..count * times).map(move |seed| random_hall(n, rows, seed));
        suites.push(suite(format!("random halls up to {n} junctions and {rows} rows"), files, ALL_OF_SMALL));
    }
    for (n, rows, count, fewer) in [(16, 48, 20_000, 1_000), (64, 256, 2_000, 100)] {
        let files = |count| (0..count * times).map(move |seed| random_hall(n, rows, seed));
        suites.push(suite(format!("certificates of halls up to {n} junctions and {rows} rows"), files(count), PLAN));
        suites.push(suite(format!("first choices, up to {n} junctions and {rows} rows"), files(fewer), FIRST_PLAN));
    }
    let drawn = [
        ("full halls", full_hall as Draw),
        ("full halls with loops", looped_hall),
        ("full halls with fixed rows", fixed_hall),
    ];
    for (what, draw) in drawn {
        suites.push(suite(format!("{what}, 8 junctions"), of_kinds(draw, 8, 12 * times), ALL_OF_SMALL));
        suites.push(suite(format!("every route: {what}, 64 junctions"), of_kinds(draw, 64, times), every_route));
        suites.push(suite(format!("one quote: {what}, 64 junctions"), of_kinds(draw, 64, 12 * times), quotes));
        suites.push(suite(format!("sites: {what}, 64 junctions"), of_kinds(draw, 64, 3 * times), sites));
        suites.push(suite(format!("every total: {what}, 64 junctions"), of_kinds(draw, 64, times), EVERY_TOTAL));
        for n in [16, 32, 64] {
            suites.push(suite(format!("{what}, {n} junctions"), of_kinds(draw, n, 12 * times), ALL));
            suites.push(suite(
                format!("first choices, {what}, {n} junctions"),
                of_kinds(draw, n, 36 * times),
                FIRST_PLAN,
            ));
        }
    }
    suites
}

/// Runs a test on each file and prints how many differ, with the first of them. Gives how many were tried and differ.
fn run(planner: &Planner, suite: Suite) -> (u64, u64) {
    let (mut tried, mut differences) = (0, 0);
    for file in suite.files {
        tried += 1;
        if let Err(difference) = (suite.test)(planner, &file, tried) {
            if differences == 0 {
                println!("{difference}\nfile {file:02x?}");
            }
            differences += 1;
        }
    }
    print_counts(planner, &suite.what, tried, differences);
    (tried, differences)
}

fn print_counts(planner: &Planner, what: &str, tried: u64, differences: u64) {
    println!("{:10} {what:58} {tried:8} tried {differences:4} differ", planner.name);
}

fn main() {
    let times: u64 = std::env::args().nth(1).map_or(1, |word| word.parse().expect("a number of times"));
    let mut wrong = 0;
    for planner in &planners() {
        let counts: Vec<(u64, u64)> = suites(times).into_iter().map(|suite| run(planner, suite)).collect();
        let (tried, differences) = counts.iter().fold((0, 0), |(a, b), (c, d)| (a + c, b + d));
        print_counts(planner, "all files", tried, differences);
        wrong += differences;
    }
    if wrong > 0 {
        std::process::exit(1);
    }
}
