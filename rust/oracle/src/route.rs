//! Routes over rows forward and chosen rows backward: the fewest rows, then the row numbers that come first in dictionary
//! order. A row stands as its number, below 0 where it is run backward.

use crate::hall::Hall;
use crate::{hall_and_choice, missed};

/// The reply to a route, which is number, row, outcome (2 misses, 4 a route), set and filled length; and the rows.
pub type Routed = ([u64; 5], Vec<i32>);

/// A row as it stands in a route, and the junctions that it leads from and to there.
type Step = (i32, u64, u64);

/// In the order of row numbers.
fn steps(hall: &Hall, choice: &[u32]) -> Vec<Step> {
    let forward = (1..).zip(&hall.rows).map(|(i, row)| (i, row.from, row.to));
    let backward =
        choice.iter().map(|&i| (i, &hall.rows[i as usize - 1])).map(|(i, row)| (-(i as i32), row.to, row.from));
    let mut steps: Vec<Step> = forward.chain(backward).collect();
    steps.sort_by_key(|step| step.0.abs());
    steps
}

fn numbers(rows: &[i32]) -> Vec<u32> {
    rows.iter().map(|row| row.unsigned_abs()).collect()
}

/// For each junction the first of the routes with the fewest rows, or none where no route leads there; place 0 has none.
pub fn first_routes(hall: &Hall, choice: &[u32], from: u64) -> Vec<Option<Vec<i32>>> {
    let steps = steps(hall, choice);
    let mut first = vec![None; hall.n as usize + 1];
    first[from as usize] = Some(vec![]);
    loop {
        let longer = with_one_row_more(&steps, &first);
        if longer == first {
            return first;
        }
        first = longer;
    }
}

/// From the first routes of up to so many rows to those of one row more: each with one row more, and of those to the same
/// junction the first. It begins with a first route, for any other to where its last row begins would make it later.
fn with_one_row_more(steps: &[Step], first: &[Option<Vec<i32>>]) -> Vec<Option<Vec<i32>>> {
    let mut longer = first.to_vec();
    for &(row, start, end) in steps.iter().filter(|step| first[step.2 as usize].is_none()) {
        let Some(before) = &first[start as usize] else { continue };
        let found = [&before[..], &[row]].concat();
        match &longer[end as usize] {
            Some(other) if numbers(other) <= numbers(&found) => {}
            _ => longer[end as usize] = Some(found),
        }
    }
    longer
}

/// The same for one junction of a small hall that is reached: all sequences of no step, of one, of two and so on are tried,
/// those of a length in dictionary order, each step from where the one before has led.
pub fn route_by_trying(hall: &Hall, choice: &[u32], from: u64, to: u64) -> Vec<i32> {
    let steps = steps(hall, choice);
    let mut sequences = vec![(vec![], from)];
    loop {
        if let Some((rows, _)) = sequences.iter().find(|(_, at)| *at == to) {
            return rows.clone();
        }
        let onward = |(rows, at): (Vec<i32>, u64)| {
            let leaving = steps.iter().filter(move |step| step.1 == at);
            leaving.map(move |&(row, _, end)| ([&rows[..], &[row]].concat(), end))
        };
        sequences = sequences.into_iter().flat_map(onward).collect();
    }
}

pub fn route(bytes: &[u8], choice: &[u32], from: u32, to: u32) -> Routed {
    let hall = match hall_and_choice(bytes, choice) {
        Err([number, row, ..]) => return ([number, row, 0, 0, 0], vec![]),
        Ok(hall) => hall,
    };
    if [from, to].iter().any(|&j| j == 0 || u64::from(j) > hall.n) {
        return ([11, 0, 0, 0, 0], vec![]);
    }
    if let Some(shore) = missed(&hall, choice) {
        return ([0, 0, 2, shore, 0], vec![]);
    }
    let rows = first_routes(&hall, choice, from.into()).swap_remove(to as usize).expect("a joining choice");
    ([0, 0, 4, 0, rows.len() as u64], rows)
}
