//! A hall as its file tells it.

use reader::{read, Refusal, Row};

use crate::small::{has_fixed_cut, SMALL};
use crate::{holds, missed};

#[derive(Clone, Debug)]
pub struct Hall {
    pub n: u64,
    pub rows: Vec<Row>,
}

/// The hall of a file, or the first of refusals 2 to 9 and 15.
pub fn hall_in(file: &[u8]) -> Result<Hall, Refusal> {
    let mut rows = Vec::new();
    let n = read(file, |row| rows.push(row))?;
    if pieces(n, &rows) > 1 {
        return Err(Refusal::new(9));
    }
    let hall = Hall { n, rows };
    let refused = if n <= SMALL { has_fixed_cut(&hall) } else { missed(&hall, &unfixed(&hall)).is_some() };
    if refused {
        return Err(Refusal::new(15));
    }
    Ok(hall)
}

/// The numbers of the rows that are not fixed.
pub fn unfixed(hall: &Hall) -> Vec<u32> {
    (1..).zip(&hall.rows).filter(|(_, row)| !row.fixed).map(|(i, _)| i).collect()
}

/// What the listed rows cost together.
pub fn total<'a>(hall: &Hall, rows: impl IntoIterator<Item = &'a u32>) -> u64 {
    rows.into_iter().map(|&i| hall.rows[i as usize - 1].price).sum()
}

/// How many pieces the junctions make, directions ignored: each row makes its two ends' pieces one.
fn pieces(n: u64, rows: &[Row]) -> usize {
    let mut piece: Vec<u64> = (0..=n).collect();
    for row in rows {
        let (kept, gone) = (piece[row.from as usize], piece[row.to as usize]);
        piece.iter_mut().filter(|p| **p == gone).for_each(|p| *p = kept);
    }
    piece.sort();
    piece.dedup();
    piece.len() - 1
}

pub fn everything(hall: &Hall) -> u64 {
    (1..=hall.n).map(|j| 1 << (j - 1)).sum()
}

pub fn enters(row: &Row, shore: u64) -> bool {
    !holds(shore, row.from) && holds(shore, row.to)
}

pub fn is_cut(hall: &Hall, shore: u64) -> bool {
    let leaves = |row: &Row| holds(shore, row.from) && !holds(shore, row.to);
    shore != 0 && shore < everything(hall) && !hall.rows.iter().any(leaves)
}

/// How many of the listed rows enter the shore.
pub fn entering(hall: &Hall, shore: u64, choice: &[u32]) -> usize {
    choice.iter().filter(|&&i| enters(&hall.rows[i as usize - 1], shore)).count()
}
