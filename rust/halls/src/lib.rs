//! Hall files to try planners on. All are made from fixed seeds, so that every run tries the same.

mod damaged;
mod fixed;
mod full;
mod random;
mod small;

pub use damaged::{damaged, random_files, sized_files};
pub use fixed::{fixed_halls, large_fixed_halls};
pub use full::{fixed_hall, full_hall, looped_hall, Kind, KINDS};
pub use random::Random;
pub use small::{all_halls, random_hall, starred};

/// From, to, price field.
pub type Row = (u16, u16, u32);

/// The price field of a fixed row.
pub const FIXED: u32 = u32::MAX;

pub fn row_bytes(row: &Row) -> [u8; 8] {
    let mut bytes = [0; 8];
    bytes[..2].copy_from_slice(&row.0.to_le_bytes());
    bytes[2..4].copy_from_slice(&row.1.to_le_bytes());
    bytes[4..].copy_from_slice(&row.2.to_le_bytes());
    bytes
}

/// The hall file of one block, or of none for no rows.
pub fn hall_file(n: u16, rows: &[Row]) -> Vec<u8> {
    let blocks: &[&[Row]] = if rows.is_empty() { &[] } else { &[rows] };
    file_of_blocks(n, blocks, &[])
}

/// The hall file of the given blocks, each after so many bytes of remarks (none where the list has ended).
pub fn file_of_blocks(n: u16, blocks: &[&[Row]], remarks: &[usize]) -> Vec<u8> {
    let mut table = [n.to_le_bytes(), (blocks.len() as u16).to_le_bytes()].concat();
    let mut body = Vec::new();
    for (k, rows) in blocks.iter().enumerate() {
        body.extend(vec![0xA5; remarks.get(k).copied().unwrap_or(0)]);
        table.extend(((4 + 8 * blocks.len() + body.len()) as u32).to_le_bytes());
        table.extend((8 * rows.len() as u32).to_le_bytes());
        rows.iter().for_each(|row| body.extend(row_bytes(row)));
    }
    table.extend(body);
    table
}
