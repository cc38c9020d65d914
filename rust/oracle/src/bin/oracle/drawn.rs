//! The random halls that trychoices and tryroutes draw, in the same order.

use halls::{hall_file, Row, FIXED};

/// The next of a sequence of numbers, by three shifts.
fn next_of(x: u64) -> u64 {
    let a = x ^ x << 13;
    let b = a ^ a >> 7;
    b ^ b << 17
}

/// A row between any two junctions, or, for most kinds of halls, upward or a loop; its price is left out, since no refusal
/// of a hall that is drawn depends on it.
fn random_row(n: u64, kind: u64, x: u64) -> Row {
    let (a, b) = (x / 8 % n + 1, x / 8 / n % n + 1);
    let (from, to) = match kind % 3 {
        0 => (a, b),
        1 if x.is_multiple_of(8) => (a, b),
        _ => (a.min(b), a.max(b)),
    };
    let fixed_of_8 = [0, 1, 4][(kind / 1_048_576 % 3) as usize];
    let fixed = x / 16_777_216 % 8 < fixed_of_8;
    (from as u16, to as u16, if fixed { FIXED } else { 0 })
}

/// The hall that comes from a number, and the number that the next one comes from.
fn random_hall(mut x: u64) -> (Vec<u8>, u64) {
    let mut next = || {
        x = next_of(x);
        x
    };
    let kind = next();
    let n = 1 + kind / 16 % 6;
    let rows: Vec<Row> = (0..n - 1 + kind / 128 % (12 - n)).map(|_| random_row(n, kind, next())).collect();
    (hall_file(n as u16, &rows), x)
}

/// So many halls, each with the number that the next one comes from.
pub fn random_halls(count: usize) -> impl Iterator<Item = (Vec<u8>, u64)> {
    let after = |(_, x): &(Vec<u8>, u64)| Some(random_hall(*x));
    std::iter::successors(Some(random_hall(1)), after).take(count)
}
