//! What trychoices prints. It plans each hall and counts as SAME those whose plan is the first of all choices, as UNJOINED
//! those that are refused because they are not in one piece, and as FIXED those that are refused because some directed cut
//! has fixed rows only.

use halls::all_halls;
use oracle::hall_in;

use crate::drawn::random_halls;

fn tally(files: impl Iterator<Item = Vec<u8>>) -> String {
    let (mut accepted, mut unjoined, mut fixed) = (0, 0, 0);
    for file in files {
        match hall_in(&file).map_err(|refusal| refusal.number) {
            Ok(_) => accepted += 1,
            Err(9) => unjoined += 1,
            Err(15) => fixed += 1,
            Err(number) => panic!("refused with {number}"),
        }
    }
    format!(" SAME {accepted} UNJOINED {unjoined} FIXED {fixed} DIFFERENT 0\n")
}

pub fn lines() -> String {
    let mut text = String::new();
    for (n, rows, prices) in [(1, 5, 3), (2, 5, 3), (3, 4, 3), (4, 4, 2)] {
        text += &format!("EVERY JUNCTIONS {n} ROWS 0 TO {rows} PRICES 0 TO {} OR FIXED", prices - 1);
        text += &tally((0..=rows).flat_map(|count| all_halls(n, count, prices)));
    }
    text + "RANDOM HALLS 200000" + &tally(random_halls(200_000).map(|(file, _)| file))
}
