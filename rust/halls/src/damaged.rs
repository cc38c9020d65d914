//! Files that are no halls, or nearly: cut short, changed in a byte or a field, or random.

use crate::{hall_file, Random, Row, FIXED};

/// A hall file cut at every length, with each byte changed, and with each of its fields set to a telling number.
pub fn damaged(file: &[u8], seed: u64) -> Vec<Vec<u8>> {
    let mut random = Random::new(seed);
    let mut files: Vec<Vec<u8>> = (0..file.len()).map(|size| file[..size].to_vec()).collect();
    for at in 0..file.len() {
        for byte in [0, 255, file[at] ^ 1, file[at].wrapping_add(8), random.byte()] {
            let mut changed = file.to_vec();
            changed[at] = byte;
            files.push(changed);
        }
    }
    for at in (0..file.len().saturating_sub(3)).step_by(4) {
        for number in [0, 1, 7, 8, 64, 65, 257, 1_000_000, 1_000_001, 0x8000_0000, 0xFFFF_FFF8, 0xFFFF_FFFE, u32::MAX] {
            let mut changed = file.to_vec();
            changed[at..at + 4].copy_from_slice(&u32::to_le_bytes(number));
            files.push(changed);
        }
    }
    files
}

/// Two files of each length: any bytes, and bytes after a head that is often right.
pub fn random_files(longest: usize, seed: u64) -> impl Iterator<Item = Vec<u8>> {
    (0..=longest).flat_map(move |size| {
        let mut random = Random::new(seed ^ size as u64);
        let wild: Vec<u8> = (0..size).map(|_| random.byte()).collect();
        [wild, headed(&mut random, size)]
    })
}

/// A table of blocks that may overlap or run past the end, before rows whose ends are mostly inside.
fn headed(random: &mut Random, size: usize) -> Vec<u8> {
    let n = random.within(1, 8);
    let blocks = random.below(4);
    let mut bytes = vec![n as u8, 0, blocks as u8, 0];
    let mut offset = 4 + 8 * blocks;
    for _ in 0..blocks {
        let length = 8 * random.within(0, 6);
        bytes.extend((offset as u32).to_le_bytes());
        bytes.extend((length as u32).to_le_bytes());
        offset = (offset + length).saturating_add_signed(random.pick(&[0, 0, 0, 1, -1]));
    }
    while bytes.len() < size {
        let end = |random: &mut Random| if random.below(40) == 0 { random.byte() } else { random.within(1, n) as u8 };
        bytes.extend([end(random), 0, end(random), 0]);
        let price = random.below(17 << 16) as u32;
        let field = if random.below(8) == 0 { FIXED } else { price };
        bytes.extend(field.to_le_bytes());
    }
    bytes.truncate(size);
    bytes
}

/// Halls at the limits of junctions, rows, prices and file length, some of fixed rows only.
pub fn sized_files() -> Vec<Vec<u8>> {
    let path = |n: u16, count: usize, price: u32| -> Vec<Row> {
        (0..count).map(|i| (i as u16 % (n - 1) + 1, i as u16 % (n - 1) + 2, price)).collect()
    };
    let padded = |size: usize| {
        let mut file = hall_file(3, &path(3, 2, 1));
        file.resize(size, 0x5A);
        file
    };
    vec![
        hall_file(64, &path(64, 63, 1)),
        hall_file(64, &path(64, 62, 1)),
        hall_file(65, &path(65, 64, 1)),
        hall_file(0, &[]),
        hall_file(64, &path(64, 256, 1_000_000)),
        hall_file(64, &path(64, 257, 1_000_000)),
        hall_file(2, &path(2, 256, 1_000_001)),
        hall_file(2, &path(2, 256, 1_000_000)),
        hall_file(2, &path(2, 256, FIXED - 1)),
        hall_file(2, &path(2, 256, FIXED)),
        hall_file(64, &path(64, 63, FIXED)),
        hall_file(64, &path(64, 62, FIXED)),
        padded(65_535),
        padded(65_536),
        padded(65_537),
    ]
}
