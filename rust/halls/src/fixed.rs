//! Halls with fixed rows, drawn by hand.

use crate::{hall_file, Row, FIXED};

/// Small ones: planned, refused because some directed cut has fixed rows only, and refused before that for another reason.
pub fn fixed_halls() -> Vec<Vec<u8>> {
    let halls: [(u16, &[Row]); 25] = [
        (1, &[(1, 1, FIXED)]),
        (1, &[(1, 1, FIXED), (1, 1, 0), (1, 1, FIXED)]),
        (2, &[(1, 2, FIXED)]),
        (2, &[(2, 1, FIXED)]),
        (2, &[(1, 2, FIXED), (1, 2, 7)]),
        (2, &[(1, 2, 7), (1, 2, FIXED)]),
        (2, &[(1, 2, FIXED), (1, 2, 0), (1, 2, FIXED), (1, 2, 0)]),
        (2, &[(1, 2, FIXED), (1, 2, 1_000_000)]),
        (2, &[(1, 2, FIXED), (1, 2, 1_000_001)]),
        (2, &[(1, 2, FIXED), (1, 2, FIXED - 1)]),
        (2, &[(1, 2, FIXED), (3, 3, FIXED)]),
        (2, &[(1, 2, FIXED), (2, 1, FIXED)]),
        (2, &[(1, 2, 5), (2, 1, FIXED)]),
        (2, &[(1, 1, FIXED), (2, 2, FIXED)]),
        (3, &[(1, 2, FIXED), (2, 3, 1_000_001)]),
        (3, &[(1, 2, 3), (2, 3, 1), (1, 3, FIXED)]),
        (3, &[(1, 2, FIXED), (2, 3, 1), (1, 3, 4)]),
        (3, &[(1, 2, 3), (2, 3, FIXED), (1, 3, 4)]),
        (3, &[(1, 1, FIXED), (1, 2, 2), (2, 2, FIXED), (2, 3, 3), (3, 3, FIXED)]),
        (3, &[(1, 2, FIXED), (2, 3, FIXED), (3, 1, FIXED)]),
        (3, &[(1, 2, FIXED), (2, 3, FIXED), (3, 1, 0), (1, 3, 0)]),
        (4, &[(1, 2, FIXED), (3, 4, FIXED)]),
        (4, &[(1, 2, 1), (2, 3, FIXED), (3, 4, 1)]),
        (4, &[(1, 2, 1), (1, 4, FIXED), (3, 2, FIXED), (3, 4, 1)]),
        (5, &[(1, 2, FIXED), (2, 3, FIXED), (3, 1, FIXED), (3, 4, 2), (2, 4, FIXED), (4, 5, 6), (1, 5, FIXED)]),
    ];
    halls.iter().map(|(n, rows)| hall_file(*n, rows)).collect()
}

/// Fixed rows from each of these junctions to the next, and from the last to the first.
fn cycle(first: u16, last: u16) -> impl Iterator<Item = Row> {
    (first..=last).map(move |j| (j, if j == last { first } else { j + 1 }, FIXED))
}

/// Halls of 256 rows: all but one are fixed, or those of a cycle through all junctions.
pub fn large_fixed_halls() -> Vec<Vec<u8>> {
    let parallel = vec![(1, 2, FIXED); 256];
    let across = (0..192).map(|k| (k % 32 + 1, k % 31 + 33, FIXED));
    let two_cycles: Vec<Row> = cycle(1, 32).chain(cycle(33, 64)).chain(across).collect();
    let free = (0..192).map(|k| (k % 63 + 1, k % 63 + 2, 0));
    let one_cycle: Vec<Row> = cycle(1, 64).chain(free).collect();
    let but_one = |n: u16, rows: &[Row], at: usize, price: u32| {
        let mut rows = rows.to_vec();
        rows[at].2 = price;
        hall_file(n, &rows)
    };
    vec![
        but_one(2, &parallel, 0, 5),
        but_one(2, &parallel, 255, 1_000_000),
        but_one(64, &two_cycles, 200, 0),
        but_one(64, &two_cycles, 10, 0),
        hall_file(64, &one_cycle),
    ]
}
