//! Small halls: every shore, every choice.

use crate::hall::{entering, enters, everything, is_cut, total, Hall};
use crate::holds;

/// Halls of up to so many junctions are tried out whole.
pub const SMALL: u64 = 12;

/// Of up to so many rows every set is tried.
pub const FEW: usize = 16;

/// All shores of directed cuts.
fn shores(hall: &Hall) -> Vec<u64> {
    (1..everything(hall)).filter(|&shore| is_cut(hall, shore)).collect()
}

/// The junctions in every tight shore that holds `v`.
pub fn neighbourhood_by_shores(hall: &Hall, choice: &[u32], v: u64) -> u64 {
    shores(hall)
        .into_iter()
        .filter(|&shore| holds(shore, v) && entering(hall, shore, choice) == 1)
        .fold(everything(hall), |around, shore| around & shore)
}

/// Some directed cut has fixed rows only.
pub fn has_fixed_cut(hall: &Hall) -> bool {
    shores(hall).into_iter().any(|shore| hall.rows.iter().all(|row| row.fixed || !enters(row, shore)))
}

/// The rows of each directed cut, row i as 2^(i - 1).
fn cuts(hall: &Hall) -> Vec<u64> {
    let rows_into = |shore| (0..hall.rows.len()).filter(|&i| enters(&hall.rows[i], shore)).map(|i| 1 << i).sum();
    shores(hall).into_iter().map(rows_into).collect()
}

/// The fixed rows as such a number.
fn fixed(hall: &Hall) -> u64 {
    (0..hall.rows.len()).filter(|&i| hall.rows[i].fixed).map(|i| 1 << i).sum()
}

/// By total, then row count, then dictionary order.
type Rank = (u64, usize, Vec<u32>);

fn rank(hall: &Hall, choice: u64) -> Rank {
    let numbers: Vec<u32> = (1..=hall.rows.len() as u32).filter(|i| choice >> (i - 1) & 1 == 1).collect();
    (total(hall, &numbers), numbers.len(), numbers)
}

/// The first joining choice without fixed rows and its total, in halls of up to 64 rows: every set of rows is tried, or, of
/// more than a few, every choice that meets unmet cuts one after the other and is not yet later in rank than one already
/// found. The first choice is among those, since it can spare no row.
pub fn first_choice(hall: &Hall) -> (Vec<u32>, u64) {
    let (total, _, numbers) = if hall.rows.len() <= FEW { by_trying_all(hall) } else { by_branching(hall) };
    (numbers, total)
}

/// Every joining choice without fixed rows, in halls of few rows.
pub fn joining_choices(hall: &Hall) -> impl Iterator<Item = u64> {
    let (cuts, fixed) = (cuts(hall), fixed(hall));
    let choices = (0u64..1 << hall.rows.len()).filter(move |choice| choice & fixed == 0);
    choices.filter(move |choice| cuts.iter().all(|cut| cut & choice != 0))
}

fn by_trying_all(hall: &Hall) -> Rank {
    joining_choices(hall).map(|choice| rank(hall, choice)).min().expect("the unfixed rows join an accepted hall")
}

fn by_branching(hall: &Hall) -> Rank {
    let mut cuts = cuts(hall);
    cuts.sort_by_key(|cut| cut.count_ones());
    let every_row: u64 = (0..hall.rows.len()).map(|i| 1 << i).sum();
    let mut first = rank(hall, every_row & !fixed(hall));
    branch(hall, &cuts, 0, fixed(hall), &mut first);
    first
}

fn branch(hall: &Hall, cuts: &[u64], chosen: u64, barred: u64, first: &mut Rank) {
    let so_far = rank(hall, chosen);
    if (so_far.0, so_far.1) > (first.0, first.1) {
        return;
    }
    let Some(unmet) = cuts.iter().find(|&&cut| cut & chosen == 0) else {
        if so_far < *first {
            *first = so_far;
        }
        return;
    };
    let mut barred = barred;
    for i in (0..hall.rows.len()).filter(|i| unmet >> i & 1 == 1) {
        if barred >> i & 1 == 0 {
            branch(hall, cuts, chosen | 1 << i, barred, first);
            barred |= 1 << i;
        }
    }
}
