//! Halls in one piece of n junctions and 4n rows, of five kinds.

use crate::{hall_file, Random, Row, FIXED};

#[derive(Clone, Copy, Debug, PartialEq, Eq)]
pub enum Kind {
    /// Each row from a lower junction to a higher.
    Upward,
    /// Each row from the lower half of the junctions to the upper half.
    Sources,
    /// A grid, each row to the right or down to the next junction.
    Grid,
    /// A path, each of its steps by several parallel rows.
    Path,
    /// Cycles of four junctions, and rows from lower to higher cycles.
    Cycles,
}

pub const KINDS: [Kind; 5] = [Kind::Upward, Kind::Sources, Kind::Grid, Kind::Path, Kind::Cycles];

impl Kind {
    pub fn name(self) -> &'static str {
        match self {
            Kind::Upward => "lower to higher",
            Kind::Sources => "sources to sinks",
            Kind::Grid => "grid",
            Kind::Path => "path, parallel rows",
            Kind::Cycles => "cycles",
        }
    }
}

/// The hall file; n is a power of 2 from 8 to 64. Seeds go round through dear prices, few prices and one price.
pub fn full_hall(kind: Kind, n: usize, seed: u64) -> Vec<u8> {
    drawn(kind, n, seed, further, [0, 0])
}

/// The same with loops: one in four of the rows beyond those that make the hall one piece.
pub fn looped_hall(kind: Kind, n: usize, seed: u64) -> Vec<u8> {
    let more: More = |kind, n, random| match random.below(4) {
        0 => {
            let j = random.below(n);
            (j, j)
        }
        _ => further(kind, n, random),
    };
    drawn(kind, n, seed, more, [0, 0])
}

/// The same with fixed rows: few, half or all of the rows beyond those that make the hall one piece, or few of all rows.
pub fn fixed_hall(kind: Kind, n: usize, seed: u64) -> Vec<u8> {
    let shares = [[0, 2], [0, 8], [0, 16], [2, 8]];
    drawn(kind, n, seed, further, shares[(seed / 3 % 4) as usize])
}

type More = fn(Kind, usize, &mut Random) -> (usize, usize);

/// Of the rows that make the hall one piece, and of the others, so many in sixteen are fixed.
fn drawn(kind: Kind, n: usize, seed: u64, more: More, fixed_of_16: [usize; 2]) -> Vec<u8> {
    let mut random = Random::new(seed * 64 + n as u64);
    let most = [1_000_000, 9, 1][(seed % 3) as usize];
    let least = if most == 1 { 1 } else { 0 };
    let frame = frame(kind, n, &mut random);
    let others: Vec<(usize, usize)> = (frame.len()..4 * n).map(|_| more(kind, n, &mut random)).collect();
    let shared = |(ends, share): (Vec<_>, _)| ends.into_iter().map(move |(a, b)| (a, b, share));
    let lanes = random.shuffled([frame, others].into_iter().zip(fixed_of_16).flat_map(shared).collect());
    let prices: Vec<u32> = lanes.iter().map(|_| random.within(least, most) as u32).collect();
    let row = |((a, b, share), price): ((usize, usize, usize), u32)| {
        (a as u16 + 1, b as u16 + 1, if random.below(16) < share { FIXED } else { price })
    };
    hall_file(n as u16, &lanes.into_iter().zip(prices).map(row).collect::<Vec<Row>>())
}

/// Rows, junctions counted from 0, that make the hall one piece.
fn frame(kind: Kind, n: usize, random: &mut Random) -> Vec<(usize, usize)> {
    match kind {
        Kind::Upward => (1..n).map(|j| (random.below(j), j)).collect(),
        Kind::Sources => {
            let to_sink = (n / 2..n).map(|j| (random.below((j - n / 2).clamp(1, n / 2)), j)).collect::<Vec<_>>();
            let from_source = (1..n / 2).map(|j| (j, n / 2 + j - 1));
            to_sink.into_iter().chain(from_source).collect()
        }
        Kind::Grid => grid_steps(n),
        Kind::Path => (1..n).map(|j| (j - 1, j)).collect(),
        Kind::Cycles => {
            let around = (0..n).map(|j| (j, if j % 4 == 3 { j - 3 } else { j + 1 }));
            let between = (4..n).step_by(4).map(|j| (random.below(j), j)).collect::<Vec<_>>();
            around.chain(between).collect()
        }
    }
}

fn further(kind: Kind, n: usize, random: &mut Random) -> (usize, usize) {
    match kind {
        Kind::Upward => {
            let b = random.within(1, n - 1);
            (random.below(b), b)
        }
        Kind::Sources => (random.below(n / 2), random.within(n / 2, n - 1)),
        Kind::Grid => random.pick(&grid_steps(n)),
        Kind::Path => {
            let b = random.within(1, n - 1);
            (b - 1, b)
        }
        Kind::Cycles => {
            let b = random.within(4, n - 1);
            (random.below(b / 4 * 4), b)
        }
    }
}

/// All steps to the right and down in a grid as near to a square as powers of 2 allow: 8 by 8 for 64.
fn grid_steps(n: usize) -> Vec<(usize, usize)> {
    let width = 1 << (n.ilog2().div_ceil(2));
    let right = (0..n).filter(|j| j % width + 1 < width).map(|j| (j, j + 1));
    let down = (0..n - width).map(|j| (j, j + width));
    right.chain(down).collect()
}
