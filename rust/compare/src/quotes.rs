//! What one quote may move, by the oracle.

use halls::Random;

use crate::expect::{planned, same, Outcome};
use crate::Planner;

/// A row that is opened and one that is not, each at several prices. Each plan's certificate holds, and in small halls it is the
/// first of all; no two plans differ by more than one quote moves them.
pub fn quotes(planner: &Planner, file: &[u8], seed: u64) -> Outcome {
    let Ok(hall) = oracle::hall_in(file) else { return Ok(()) };
    let mut random = Random::new(seed);
    let chosen = judged_plan(planner, file)?.0;
    let (opened, closed): (Vec<u32>, Vec<u32>) =
        oracle::unfixed(&hall).into_iter().partition(|row| chosen.contains(row));
    for rows in [opened, closed].into_iter().filter(|rows| !rows.is_empty()) {
        let row = random.pick(&rows);
        let own = hall.rows[row as usize - 1].price;
        let prices = [own, own.saturating_sub(1), own + 1, random.within(0, 1_000_000) as u64];
        let plans = oracle::quoted(file, row, &prices, |file| judged_plan(planner, file))?;
        same("misquoted", oracle::misquoted(row, &plans), vec![])?;
    }
    Ok(())
}

fn judged_plan(planner: &Planner, file: &[u8]) -> Result<oracle::Plan, String> {
    let (hall, choice, total) = planned(planner, file)?.ok_or("the hall is refused")?;
    let plan = (choice, total);
    if hall.n <= 8 && hall.rows.len() <= oracle::FEW {
        same("choice and total", &plan, &oracle::first_choice(&hall))?;
    }
    Ok(plan)
}
