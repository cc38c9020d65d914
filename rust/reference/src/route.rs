//! The first of the routes with the fewest rows: how far each junction is from the target, then the lowest row that leads
//! one nearer, again and again.

use crate::choice::Choice;
use crate::sets::{distances, Arcs};

/// The arcs of the choice turned round.
fn turned(choice: &Choice) -> Arcs {
    let mut turned = [0; 64];
    for (i, row) in choice.hall.rows.iter().enumerate() {
        turned[row.head] |= 1 << row.tail;
        turned[row.tail] |= u64::from(choice.has(i)) << row.head;
    }
    turned
}

/// For each junction the lowest row that leads one nearer to the target, below 0 where it is run backward, and to where.
fn nearer(choice: &Choice, to: usize) -> [(i32, usize); 64] {
    let distances = distances(&turned(choice), to);
    let mut nearer = [(0, to); 64];
    for (i, row) in choice.hall.rows.iter().enumerate() {
        let number = i as i32 + 1;
        for (number, start, end, open) in
            [(number, row.tail, row.head, true), (-number, row.head, row.tail, choice.has(i))]
        {
            if open && nearer[start].0 == 0 && distances[start] == distances[end] + 1 {
                nearer[start] = (number, end);
            }
        }
    }
    nearer
}

/// Fills the front of the lent list and gives back how many rows there are; the choice joins.
pub fn fill(choice: &Choice, from: usize, to: usize, rows: &mut [i32]) -> usize {
    let nearer = nearer(choice, to);
    let mut at = from;
    let mut filled = 0;
    while at != to {
        (rows[filled], at) = nearer[at];
        filled += 1;
    }
    filled
}
