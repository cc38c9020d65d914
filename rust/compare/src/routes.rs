//! What a route must be, by the oracle.

use halls::Random;
use oracle::Routed;

use crate::expect::{lists_for, same, Outcome};
use crate::Planner;

/// What stands in every place of a lent list.
const MARK: i32 = -0x1234_5678;

/// A call, without the list that is lent to it.
struct Asked<'a> {
    file: &'a [u8],
    choice: &'a [u32],
    from: u32,
    to: u32,
}

impl Asked<'_> {
    /// The reply, the rows in front of a list of so many places, and the places after them.
    fn gets(&self, planner: &Planner, places: usize, (reply, mut rows): Routed) -> Outcome {
        let mut lent = vec![MARK; places];
        let given = (planner.route)(self.file, self.choice, self.from, self.to, &mut lent);
        rows.resize(places, MARK);
        same("route", (given, lent), (reply, rows))
    }
}

/// For the given lists, and most of all for the last: between the first junction and the last, from one to itself, between
/// any two, and from and to numbers that are no junctions. A list that is too short is refused before all else.
pub fn some_routes(planner: &Planner, file: &[u8], lists: &[Vec<u32>], random: &mut Random) -> Outcome {
    let n = oracle::hall_in(file).map_or(3, |hall| hall.n as u32);
    for (k, choice) in lists.iter().enumerate() {
        let [a, b, c] = [(); 3].map(|_| random.within(1, n as usize) as u32);
        let outside = random.pick(&[0, n + 1, u32::MAX]);
        let pairs = [(a, b), random.pick(&[(a, outside), (outside, a)]), (1, n), (n, 1), (c, c)];
        let asked = |(from, to)| Asked { file, choice, from, to };
        for &(from, to) in if k + 1 == lists.len() { &pairs[..] } else { &pairs[..2] } {
            asked((from, to)).gets(planner, random.pick(&[63, 70]), oracle::route(file, choice, from, to))?;
        }
        asked(random.pick(&pairs)).gets(planner, random.pick(&[0, 62]), ([1, 0, 0, 0, 0], vec![]))?;
    }
    Ok(())
}

/// Between every two junctions of a hall, for choices that join. In small halls the oracle finds each route by trying every
/// sequence of steps, too.
pub fn every_route(planner: &Planner, file: &[u8], seed: u64) -> Outcome {
    let Ok(hall) = oracle::hall_in(file) else { return Ok(()) };
    let mut lists = lists_for(&hall, &mut Random::new(seed));
    lists.retain(|list| oracle::check(file, list)[2] == 1);
    lists.dedup();
    for choice in &lists {
        for from in 1..=hall.n {
            for (to, rows) in (0..).zip(oracle::first_routes(&hall, choice, from)).skip(1) {
                let rows = rows.expect("a joining choice");
                if hall.n <= 6 {
                    same("the oracle's route", &rows, &oracle::route_by_trying(&hall, choice, from, to))?;
                }
                let asked = Asked { file, choice, from: from as u32, to: to as u32 };
                asked.gets(planner, 63, ([0, 0, 4, 0, rows.len() as u64], rows))?;
            }
        }
    }
    Ok(())
}
