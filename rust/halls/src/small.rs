//! Halls small enough for exhaustive search: the starred ones, all up to a size, and random ones.

use crate::{file_of_blocks, hall_file, Random, Row, FIXED};

/// The halls of the scope's list that are planned.
pub fn starred() -> Vec<Vec<u8>> {
    let halls: [(u16, &[Row]); 12] = [
        (1, &[]),
        (2, &[]),
        (2, &[(1, 2, 7)]),
        (2, &[(2, 1, 7)]),
        (2, &[(1, 2, 0)]),
        (2, &[(1, 2, 5), (2, 1, 5)]),
        (2, &[(1, 2, 5), (1, 2, 5)]),
        (3, &[(1, 2, 2), (2, 3, 3)]),
        (3, &[(1, 2, 3), (2, 3, 1), (1, 3, 4)]),
        (4, &[(1, 2, 1), (1, 4, 1), (3, 2, 1), (3, 4, 1)]),
        (4, &[(1, 2, 1), (2, 3, 1), (3, 4, 1)]),
        (2, &[(3, 3, 0)]),
    ];
    halls.iter().map(|(n, rows)| hall_file(*n, rows)).collect()
}

/// Every hall of n junctions with so many rows, loops among them, each of a price below `prices` or fixed.
pub fn all_halls(n: u16, rows: u32, prices: u32) -> impl Iterator<Item = Vec<u8>> {
    let ends: Vec<(u16, u16)> = (1..=n).flat_map(|a| (1..=n).map(move |b| (a, b))).collect();
    let fields = |(a, b)| (0..prices).chain([FIXED]).map(move |field| (a, b, field));
    let kinds: Vec<Row> = ends.into_iter().flat_map(fields).collect();
    let count = kinds.len() as u64;
    (0..count.pow(rows)).map(move |code| {
        let place = |k: u32| kinds[(code / count.pow(k) % count) as usize];
        hall_file(n, &(0..rows).map(place).collect::<Vec<Row>>())
    })
}

/// Up to so many junctions and rows, in blocks of 4 to 16 rows, with many ties, parallel rows, loops and price 0. Rows run
/// from lower to higher junctions, or from odd to even ones first, and some are turned. Some are fixed; in most halls none of
/// the first rows, which make it one piece, so that no directed cut has fixed rows only.
pub fn random_hall(most_junctions: usize, most_rows: usize, seed: u64) -> Vec<u8> {
    let mut random = Random::new(seed);
    let n = random.within(1, most_junctions);
    let dearest = random.pick(&[0, 1, 2, 3, 5, 20, 1_000_000]);
    let turned_of_8 = random.pick(&[0, 0, 1, 4]);
    let fixed_of_8 = random.pick(&[0, 0, 1, 4, 7]);
    let first_too = random.below(4) == 0;
    let odd_first = random.below(2) == 1;
    let rank = |j: usize| (odd_first && j.is_multiple_of(2), j);
    let count = random.within(n - 1, most_rows);
    let mut rows: Vec<Row> = Vec::new();
    while rows.len() < count {
        let (a, b) = match rows.len() + 2 {
            j if j <= n => (random.within(1, j - 1), j),
            _ => (random.within(1, n), random.within(1, n)),
        };
        let turned = random.below(8) < turned_of_8;
        let (from, to) = if (rank(a) < rank(b)) != turned { (a, b) } else { (b, a) };
        let fixed = random.below(8) < fixed_of_8 && (first_too || rows.len() + 2 > n);
        let price = random.within(0, dearest) as u32;
        rows.push((from as u16, to as u16, if fixed { FIXED } else { price }));
    }
    let rows = random.shuffled(rows);
    in_blocks(&mut random, n as u16, &rows)
}

fn in_blocks(random: &mut Random, n: u16, rows: &[Row]) -> Vec<u8> {
    let size = random.within(4, 12).max(rows.len().div_ceil(16));
    let blocks: Vec<&[Row]> = rows.chunks(size).collect();
    let remarks: Vec<usize> = blocks.iter().map(|_| random.pick(&[0, 0, 1, 5, 8])).collect();
    file_of_blocks(n, &blocks, &remarks)
}
