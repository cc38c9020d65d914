//! Whether a choice costs more than a figure: the whole sum is compared, and so is that of each number of rows from the front.

use crate::hall::total;
use crate::hall_and_choice;

/// The reply: number, row, over (1 or 0), and how many rows are read.
pub type Screened = [u64; 4];

/// What the first rows cost, for each number of them from 0 to all; nothing where the list is no choice of the file's hall.
pub fn sums(bytes: &[u8], choice: &[u32]) -> Vec<u64> {
    match hall_and_choice(bytes, choice) {
        Err(_) => vec![],
        Ok(hall) => (0..=choice.len()).map(|k| total(&hall, &choice[..k])).collect(),
    }
}

/// Over, if all rows together cost more. Read are as many first rows as it takes to cost more, or all where no number of them does.
pub fn over_figure(bytes: &[u8], choice: &[u32], figure: u32) -> Screened {
    match hall_and_choice(bytes, choice) {
        Err(refused) => refused,
        Ok(hall) => {
            let passes = |rows: &[u32]| total(&hall, rows) > figure.into();
            let read = (0..choice.len()).find(|&k| passes(&choice[..k])).unwrap_or(choice.len());
            [0, 0, passes(choice).into(), read as u64]
        }
    }
}
