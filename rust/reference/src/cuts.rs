//! Cuts with weights from a repaired choice and its potential: no two shores cross, and a row's load is its potential
//! difference.

use std::collections::BTreeMap;

use crate::hall::Hall;
use crate::planner::Planner;
use crate::sets::{holds, members, reached};

/// The cuts, ascending by shore.
pub fn cuts(planner: &mut Planner) -> Vec<(u64, u64)> {
    let hall = planner.hall();
    let mut steps = planner.potential[..hall.n].to_vec();
    steps.sort_unstable();
    steps.dedup();
    let mut weights = BTreeMap::new();
    for step in steps.windows(2) {
        for class in classes(planner, step[1]) {
            for part in components(hall, hall.all() & !class) {
                *weights.entry(hall.all() & !part).or_insert(0) += (step[1] - step[0]) as u64;
            }
        }
    }
    weights.into_iter().collect()
}

/// The neighbourhoods of all junctions of potential `least` or more, merged where they meet.
fn classes(planner: &mut Planner, least: i64) -> Vec<u64> {
    let mut classes: Vec<u64> = Vec::new();
    for v in 0..planner.hall().n {
        if planner.potential[v] >= least {
            let mut class = planner.neighbourhood(v);
            classes.retain(|&other| {
                let meets = other & class != 0;
                class |= if meets { other } else { 0 };
                !meets
            });
            classes.push(class);
        }
    }
    classes
}

/// The parts of a set that rows inside it hold together, directions ignored.
fn components(hall: &Hall, set: u64) -> Vec<u64> {
    let mut inside = hall.links;
    inside.iter_mut().for_each(|arcs| *arcs &= set);
    let mut parts: Vec<u64> = Vec::new();
    let mut seen = 0;
    for v in members(set) {
        if !holds(seen, v) {
            parts.push(reached(&inside, 1 << v));
            seen |= parts[parts.len() - 1];
        }
    }
    parts
}
