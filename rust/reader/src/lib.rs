//! The hall file, read condition by condition in the order of refusals 2 to 8. Whether the hall is in one piece (9), and
//! whether some directed cut has fixed rows only (15), is left to those who ask for its rows.

/// Why a call was turned back; `row` is 0 for kinds that carry none.
#[derive(Clone, Copy, Debug, PartialEq, Eq)]
pub struct Refusal {
    pub number: u32,
    pub row: u32,
}

impl Refusal {
    pub fn new(number: u32) -> Refusal {
        Refusal { number, row: 0 }
    }
}

/// Junctions count from 1. A fixed row may not be opened and has no price, which is 0 here.
#[derive(Clone, Copy, Debug, PartialEq, Eq)]
pub struct Row {
    pub from: u64,
    pub to: u64,
    pub price: u64,
    pub fixed: bool,
}

/// The price field of a fixed row.
const FIXED: u64 = 0xFFFF_FFFF;

#[inline]
fn number(bytes: &[u8]) -> u64 {
    bytes.iter().rev().fold(0, |value, &byte| value << 8 | u64::from(byte))
}

/// The blocks in order, or refusal 4.
fn blocks(file: &[u8]) -> Result<Vec<&[u8]>, Refusal> {
    let count = number(&file[2..4]) as usize;
    let mut end = 4 + 8 * count;
    if count > 16 || end > file.len() {
        return Err(Refusal::new(4));
    }
    let mut blocks = Vec::with_capacity(count);
    for pair in file[4..end].chunks_exact(8) {
        let (offset, length) = (number(&pair[..4]) as usize, number(&pair[4..]) as usize);
        if length == 0 || length % 8 != 0 || offset < end || offset + length > file.len() {
            return Err(Refusal::new(4));
        }
        end = offset + length;
        blocks.push(&file[offset..end]);
    }
    Ok(blocks)
}

/// The row, or the number of its refusal.
#[inline]
fn row(bytes: &[u8], n: u64) -> Result<Row, u32> {
    let field = number(&bytes[4..]);
    let fixed = field == FIXED;
    let price = if fixed { 0 } else { field };
    let row = Row { from: number(&bytes[..2]), to: number(&bytes[2..4]), price, fixed };
    if !(1..=n).contains(&row.from) || !(1..=n).contains(&row.to) {
        return Err(6);
    }
    if row.price > 1_000_000 {
        return Err(8);
    }
    Ok(row)
}

/// Hands over the rows in order and gives back the number of junctions.
pub fn read(file: &[u8], mut hand_over: impl FnMut(Row)) -> Result<u64, Refusal> {
    if !(4..=65_536).contains(&file.len()) {
        return Err(Refusal::new(2));
    }
    let n = number(&file[..2]);
    if !(1..=64).contains(&n) {
        return Err(Refusal::new(3));
    }
    let blocks = blocks(file)?;
    if blocks.iter().map(|block| block.len() / 8).sum::<usize>() > 256 {
        return Err(Refusal::new(5));
    }
    let mut place = 0;
    for block in blocks {
        for bytes in block.chunks_exact(8) {
            place += 1;
            hand_over(row(bytes, n).map_err(|number| Refusal { number, row: place })?);
        }
    }
    Ok(n)
}
