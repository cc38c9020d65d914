//! What tryroutes prints. For choices of each hall that is accepted it asks for a route between every two of the numbers from 0
//! to n + 1, and for one into a list that is too short, and counts the calls by what they rightly tell.

use halls::all_halls;
use oracle::{hall_in, route, unfixed};

use crate::drawn::random_halls;

#[derive(Default)]
struct Tally {
    halls: u64,
    choices: u64,
    routes: u64,
    misses: u64,
    refused: u64,
}

impl Tally {
    /// The hall, if it is accepted, with the rows of each of these numbers that are not fixed, row i as 2^(i - 1).
    fn add(&mut self, file: &[u8], numbers: impl Iterator<Item = u64>) {
        let Ok(hall) = hall_in(file) else { return };
        let unfixed = unfixed(&hall);
        self.halls += 1;
        for number in numbers {
            let choice: Vec<u32> = unfixed.iter().copied().filter(|i| number >> (i - 1) & 1 == 1).collect();
            self.add_calls(file, hall.n as u32, &choice);
        }
    }

    fn add_calls(&mut self, file: &[u8], n: u32, choice: &[u32]) {
        self.choices += 1;
        self.refused += 1;
        for (from, to) in (0..=n + 1).flat_map(|from| (0..=n + 1).map(move |to| (from, to))) {
            match route(file, choice, from, to).0 {
                [0, _, 4, ..] => self.routes += 1,
                [0, _, 2, ..] => self.misses += 1,
                _ => self.refused += 1,
            }
        }
    }

    fn line(&self) -> String {
        let Tally { halls, choices, routes, misses, refused } = self;
        format!(" HALLS {halls} CHOICES {choices} ROUTES {routes} MISSES {misses} REFUSED {refused} DIFFERENT 0\n")
    }
}

/// Every choice of a hall, each once.
fn every_choice(file: &[u8]) -> impl Iterator<Item = u64> {
    let unfixed = hall_in(file).map_or(vec![], |hall| unfixed(&hall));
    let rows: u64 = unfixed.iter().map(|i| 1 << (i - 1)).sum();
    (0..=rows).filter(move |choice| choice & rows == *choice)
}

pub fn lines() -> String {
    let mut text = String::new();
    for (n, rows) in [(1, 3), (2, 4), (3, 3), (4, 3)] {
        let mut tally = Tally::default();
        all_halls(n, rows, 1).for_each(|file| tally.add(&file, every_choice(&file)));
        text += &format!("EVERY JUNCTIONS {n} ROWS {rows}{}", tally.line());
    }
    let mut tally = Tally::default();
    random_halls(20_000).for_each(|(file, next)| tally.add(&file, [u64::MAX, next].into_iter()));
    text + &format!("RANDOM OF 20000{}", tally.line())
}
