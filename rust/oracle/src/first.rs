//! Whether a joining choice is the first of all, in halls of any size. A planner hands over cuts with weights for the costs
//! that it is asked about; what they show is worked out here, so that nothing is believed of the planner.

use crate::hall::{enters, is_cut, Hall};

/// What is not shown of a joining choice. Where it is nothing, the choice is the first of all.
///
/// A row ranks 257 for each unit of its price and 1 for itself: with at most 256 rows that compares totals, then numbers
/// of rows. A fixed row has no rank. A choice that ranks the same and comes before in dictionary order has, at the first row
/// where they differ, a row that this choice has not. So for each row with a rank that is not chosen, a choice with this row,
/// and before it the same rows as this one, has to rank higher.
pub fn unshown(hall: &Hall, choice: &[u32], planner: impl Fn(&[u64]) -> Vec<(u64, u64)>) -> Vec<String> {
    let ranks: Vec<Option<u64>> = hall.rows.iter().map(|row| (!row.fixed).then_some(257 * row.price + 1)).collect();
    let chosen: Vec<bool> = (1..=hall.rows.len() as u32).map(|i| choice.contains(&i)).collect();
    let rank_from = |i: usize| (i..ranks.len()).filter(|&k| chosen[k]).filter_map(|k| ranks[k]).sum::<u64>();
    let shown = |costs: &[Option<u64>], least: u64| {
        let dearest = 1 + ranks.iter().flatten().sum::<u64>();
        let priced: Vec<u64> = costs.iter().map(|cost| cost.unwrap_or(dearest)).collect();
        bound(hall, costs, &planner(&priced)) >= least.into()
    };
    let mut faults = Vec::new();
    if !shown(&ranks, rank_from(0)) {
        faults.push("not shown that the total, then the number of rows, is least".to_string());
    }
    for i in (0..ranks.len()).filter(|&i| !chosen[i]) {
        let Some(rank) = ranks[i] else { continue };
        let cost = |k: usize| match k {
            _ if k > i => ranks[k],
            _ if k == i || chosen[k] => Some(0),
            _ => None,
        };
        let costs: Vec<Option<u64>> = (0..ranks.len()).map(cost).collect();
        if !shown(&costs, (rank_from(i) + 1).saturating_sub(rank)) {
            faults.push(format!("not shown that no choice with row {} comes before", i + 1));
        }
    }
    faults
}

/// What a joining choice costs at least, if it has none of the rows without a cost: it meets each cut, and no row's load is
/// over its cost. 0 where that is not so.
pub fn bound(hall: &Hall, costs: &[Option<u64>], cuts: &[(u64, u64)]) -> u128 {
    let sum_where = |test: &dyn Fn(u64) -> bool| -> u128 {
        cuts.iter().filter(|(shore, _)| test(*shore)).map(|(_, weight)| u128::from(*weight)).sum()
    };
    let within = |(row, cost): (_, &Option<u64>)| match cost {
        Some(cost) => sum_where(&|shore| enters(row, shore)) <= (*cost).into(),
        None => true,
    };
    let holds = cuts.iter().all(|(shore, _)| is_cut(hall, *shore)) && hall.rows.iter().zip(costs).all(within);
    if holds {
        sum_where(&|_| true)
    } else {
        0
    }
}
