//! The definitions of halls, joining choices, plans, cuts and sites, tried out one by one. It shares no code with the proved
//! library, and believes no planner: small halls are decided by trying every set of junctions and every choice, large
//! ones by certificates. Junctions and rows count from 1; junction j counts 2^(j - 1) in a set.

mod certificate;
mod figure;
mod first;
mod forced;
mod hall;
mod list;
mod quote;
mod route;
mod site;
mod small;

pub use certificate::{faults, Claim};
pub use figure::{over_figure, sums, Screened};
pub use first::unshown;
pub use forced::{
    figures_by_showing, figures_by_trying, figures_left, misfigured, Cheapest, Columns, Figured, Figures,
};
pub use hall::{hall_in, unfixed, Hall};
pub use list::{judge, printed, words, Listed};
pub use quote::{misquoted, quoted, requoted, Plan, Quoted};
pub use reader::{Refusal, Row};
pub use route::{first_routes, route, route_by_trying, Routed};
pub use site::{site_admit, site_in, site_start, Site, Sited, SITE_PLACES};
pub use small::{first_choice, has_fixed_cut, neighbourhood_by_shores, FEW, SMALL};

use std::collections::BTreeMap;

use hall::everything;

/// The reply to a check or to a tight neighbourhood: number, row, outcome (1 joins, 2 misses, 3 a neighbourhood), set.
pub type Told = [u64; 4];

pub fn holds(set: u64, junction: u64) -> bool {
    set & 1 << (junction - 1) != 0
}

/// Arcs (from, to) over rows forward and chosen rows backward.
fn arcs(hall: &Hall, choice: &[u32]) -> Vec<(u64, u64)> {
    let forward = hall.rows.iter().map(|row| (row.from, row.to));
    let backward = choice.iter().map(|&i| &hall.rows[i as usize - 1]).map(|row| (row.to, row.from));
    forward.chain(backward).collect()
}

/// For each junction that `start` reaches, but `start` itself, the place of an arc by which it is reached.
fn came_by(arcs: &[(u64, u64)], start: u64) -> BTreeMap<u64, usize> {
    let mut leaving = vec![Vec::new(); 65];
    for (k, arc) in arcs.iter().enumerate() {
        leaving[arc.0 as usize].push(k);
    }
    let mut came_by = BTreeMap::new();
    let mut open = vec![start];
    while let Some(x) = open.pop() {
        for &k in &leaving[x as usize] {
            let y = arcs[k].1;
            if y != start && !came_by.contains_key(&y) {
                came_by.insert(y, k);
                open.push(y);
            }
        }
    }
    came_by
}

/// The set reached from the lowest junction that does not reach all.
pub fn missed(hall: &Hall, choice: &[u32]) -> Option<u64> {
    let arcs = arcs(hall, choice);
    let mut reached = (1..=hall.n).map(|j| 1 << (j - 1) | came_by(&arcs, j).keys().map(|i| 1 << (i - 1)).sum::<u64>());
    reached.find(|&set| set != everything(hall))
}

fn is_choice(hall: &Hall, choice: &[u32]) -> bool {
    let unfixed = unfixed(hall);
    choice.iter().all(|i| unfixed.contains(i)) && choice.windows(2).all(|pair| pair[0] < pair[1])
}

fn hall_and_choice(bytes: &[u8], choice: &[u32]) -> Result<Hall, Told> {
    let hall = hall_in(bytes).map_err(|refusal| [refusal.number.into(), refusal.row.into(), 0, 0])?;
    if is_choice(&hall, choice) {
        Ok(hall)
    } else {
        Err([10, 0, 0, 0])
    }
}

pub fn check(bytes: &[u8], choice: &[u32]) -> Told {
    match hall_and_choice(bytes, choice) {
        Err(refused) => refused,
        Ok(hall) => missed(&hall, choice).map_or([0, 0, 1, 0], |shore| [0, 0, 2, shore]),
    }
}

pub fn tight(bytes: &[u8], choice: &[u32], junction: u32) -> Told {
    match hall_and_choice(bytes, choice) {
        Err(refused) => refused,
        Ok(hall) if junction == 0 || u64::from(junction) > hall.n => [0, 0, 3, 0],
        Ok(hall) => match missed(&hall, choice) {
            Some(shore) => [0, 0, 2, shore],
            None => [0, 0, 3, neighbourhood_by_two_paths(&hall, choice, junction.into())],
        },
    }
}

/// The junctions that two paths without a common arc reach from `v`, over each row twice and the chosen rows backward.
pub fn neighbourhood_by_two_paths(hall: &Hall, choice: &[u32], v: u64) -> u64 {
    let mut arcs = arcs(hall, choice);
    arcs.extend(hall.rows.iter().map(|row| (row.from, row.to)));
    (1..=hall.n).filter(|&u| u == v || two_paths(&arcs, v, u)).map(|u| 1 << (u - 1)).sum()
}

/// Two rounds of reversing a path from v to u.
fn two_paths(arcs: &[(u64, u64)], v: u64, u: u64) -> bool {
    let mut arcs = arcs.to_vec();
    for _ in 0..2 {
        let came_by = came_by(&arcs, v);
        let mut at = u;
        while at != v {
            let Some(&k) = came_by.get(&at) else { return false };
            at = arcs[k].0;
            arcs[k] = (arcs[k].1, arcs[k].0);
        }
    }
    true
}
