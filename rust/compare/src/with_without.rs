//! What is least with each row and without it, by the oracle.

use halls::Random;
use oracle::{Columns, Figures, Hall, FEW, SMALL};

use crate::expect::{planned, same, Outcome};
use crate::{plain, Planner};

/// The totals that a call leaves in two lists of so many places; nothing where it has to refuse the lists or the file.
fn left(planner: &Planner, file: &[u8], places: [usize; 2]) -> Result<Option<(Hall, Vec<Figures>)>, String> {
    let lent: Columns = [vec![0x1111_1111; places[0]], vec![0x2222_2222; places[1]]];
    let [mut with, mut without] = lent.clone();
    let reply = (planner.totals)(file, &mut with, &mut without);
    oracle::figures_left(file, &lent, reply, &[with, without])
}

/// In small halls every choice is tried. In others each row's totals are held to the plain Rust's and to the plan, and those of
/// so many rows that it opens, and of so many others, are shown.
pub fn with_without(planner: &Planner, file: &[u8], seed: u64, most: usize) -> Outcome {
    let mut random = Random::new(seed);
    let places = [(); 2].map(|_| random.pick(&[256, 257, 300]));
    let Some((hall, totals)) = left(planner, file, places)? else { return Ok(()) };
    if hall.n <= SMALL && hall.rows.len() <= FEW {
        return same("totals", totals, oracle::figures_by_trying(&hall));
    }
    let of_plain = left(&plain(), file, [256; 2])?.map(|(_, totals)| totals);
    same("totals, and the plain Rust's", Some(&totals), of_plain.as_ref())?;
    let (_, opened, total) = planned(planner, file)?.ok_or("the hall is refused")?;
    let mut drawn = |test: &dyn Fn(&u32) -> bool| {
        let rows = random.shuffled(oracle::unfixed(&hall).into_iter().filter(test).collect());
        rows.into_iter().take(most)
    };
    let rows: Vec<u32> = drawn(&|row| opened.contains(row)).chain(drawn(&|row| !opened.contains(row))).collect();
    let plan_at = |costs: &[u64]| reference::plan_at(file, costs).expect("the hall is accepted");
    same("misfigured", oracle::misfigured(&hall, &totals, &(opened, total), &rows, plan_at), vec![])
}

/// Two lists of which one or both are too short.
pub fn short_columns(planner: &Planner, file: &[u8]) -> Outcome {
    for places in [[255, 256], [256, 255], [0, 300], [300, 0], [0, 0]] {
        left(planner, file, places)?;
    }
    Ok(())
}
