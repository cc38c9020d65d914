//! Certificates of a plan, for halls of any size: what must hold of a choice, its cuts and its levels.

use crate::hall::{entering, enters, everything, is_cut, total, Hall};
use crate::{holds, is_choice, missed};

/// A plan as it was given.
pub struct Claim<'a> {
    pub rows: &'a [u32],
    pub shores: &'a [u64],
    pub weights: &'a [u32],
    pub levels: &'a [i32],
    pub total: u64,
}

/// All that is wrong with a claim. Where it is nothing, no joining choice has a smaller total.
pub fn faults(hall: &Hall, claim: &Claim) -> Vec<&'static str> {
    if !is_choice(hall, claim.rows) {
        return vec!["the rows are no choice"];
    }
    let cuts: Vec<(u64, u64)> = claim.shores.iter().copied().zip(claim.weights.iter().map(|&w| w.into())).collect();
    let total = total(hall, claim.rows);
    let load = |shore_holds: &dyn Fn(u64) -> bool| -> u64 {
        cuts.iter().filter(|(shore, _)| shore_holds(*shore)).map(|(_, weight)| weight).sum()
    };
    let level = |j: u64| load(&|shore| holds(shore, j)) as i64 - load(&|shore| holds(shore, 1)) as i64;
    let ordered_pairs = || claim.shores.iter().flat_map(|a| claim.shores.iter().map(move |b| (*a, *b)));
    let chosen = |i: usize| claim.rows.contains(&(i as u32 + 1));
    let row_loads: Vec<u64> = hall.rows.iter().map(|row| load(&|shore| enters(row, shore))).collect();
    let tests = [
        (missed(hall, claim.rows).is_none(), "the rows do not join"),
        (claim.total == total, "the total is not the rows' total"),
        (claim.shores.len() == claim.weights.len(), "shores and weights differ in number"),
        (claim.shores.len() as u64 <= (2 * hall.n).saturating_sub(3), "there are more than 2n - 3 cuts"),
        (claim.shores.iter().all(|&shore| is_cut(hall, shore)), "a shore is no directed cut's"),
        (claim.shores.windows(2).all(|pair| pair[0] < pair[1]), "the shores do not ascend"),
        (claim.weights.iter().all(|&weight| weight > 0), "a weight is 0"),
        (!ordered_pairs().any(|(a, b)| cross(hall, a, b)), "two shores cross"),
        (
            hall.rows.iter().zip(&row_loads).all(|(row, load)| row.fixed || *load <= row.price),
            "a load is over the price",
        ),
        (cuts.iter().map(|(_, weight)| weight).sum::<u64>() == total, "the weights do not add up to the total"),
        (
            hall.rows.iter().zip(&row_loads).enumerate().all(|(i, (row, load))| !chosen(i) || *load == row.price),
            "a chosen row's load is under its price",
        ),
        (claim.shores.iter().all(|&shore| entering(hall, shore, claim.rows) == 1), "a listed shore is not tight"),
        (claim.levels.len() as u64 == hall.n, "the levels are not one for each junction"),
        ((1..=hall.n).zip(claim.levels).all(|(j, &given)| level(j) == given.into()), "a level is wrong"),
    ];
    tests.into_iter().filter(|(passed, _)| !passed).map(|(_, fault)| fault).collect()
}

/// They meet, neither contains the other, and together they miss some junction.
fn cross(hall: &Hall, a: u64, b: u64) -> bool {
    a & b != 0 && a & !b != 0 && b & !a != 0 && everything(hall) & !(a | b) != 0
}
