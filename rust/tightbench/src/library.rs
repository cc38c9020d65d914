//! The calls of libtightbench.a: a slice is a pointer and a length, an array a pointer.

mod exported {
    extern "C" {
        pub fn tightbench_all(
            n: usize,
            m: usize,
            tails: &[u8; 256],
            heads: &[u8; 256],
            flags: &[bool; 256],
            sets: &mut [u64; 64],
        );

        pub fn tightbench_one(
            file: *const u8,
            file_length: usize,
            choice: *const u32,
            choice_length: usize,
            junction: u32,
        ) -> u64;
    }
}

/// A hall in columns, with the flags of a choice.
pub struct Columns {
    n: usize,
    m: usize,
    tails: [u8; 256],
    heads: [u8; 256],
    flags: [bool; 256],
}

impl Columns {
    /// Of a hall file whose ends and sizes are within their limits, as the library asks.
    pub fn of(file: &[u8], choice: &[u32]) -> Columns {
        let mut columns = Columns { n: 0, m: 0, tails: [0; 256], heads: [0; 256], flags: [false; 256] };
        let put = |row: reader::Row| {
            columns.tails[columns.m] = row.from as u8;
            columns.heads[columns.m] = row.to as u8;
            columns.m += 1;
        };
        columns.n = reader::read(file, put).expect("full halls are accepted") as usize;
        for &row in choice {
            columns.flags[row as usize - 1] = true;
        }
        columns
    }
}

/// The neighbourhood of every junction.
pub fn all(hall: &Columns) -> [u64; 64] {
    let mut sets = [0; 64];
    unsafe { exported::tightbench_all(hall.n, hall.m, &hall.tails, &hall.heads, &hall.flags, &mut sets) };
    sets
}

/// The set that the public call answers with.
pub fn one(file: &[u8], choice: &[u32], junction: u32) -> u64 {
    unsafe { exported::tightbench_one(file.as_ptr(), file.len(), choice.as_ptr(), choice.len(), junction) }
}
