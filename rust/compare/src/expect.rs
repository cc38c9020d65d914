//! What each call must answer, by the oracle. Each test gives back what differs, or nothing.

use halls::Random;
use oracle::{Claim, Hall};

use crate::routes::some_routes;
use crate::{Lists, Plan, Planner};

pub type Outcome = Result<(), String>;

pub fn same<T: PartialEq + std::fmt::Debug>(what: &str, given: T, expected: T) -> Outcome {
    if given == expected {
        Ok(())
    } else {
        Err(format!("{what}: {given:?}, expected {expected:?}"))
    }
}

/// Check, figures, tight neighbourhoods and routes on a few choices, and on lists that are no choice.
pub fn calls_with_a_choice(planner: &Planner, file: &[u8], seed: u64) -> Outcome {
    let mut random = Random::new(seed);
    let lists = match oracle::hall_in(file) {
        Ok(hall) => lists_for(&hall, &mut random),
        Err(_) => vec![vec![], vec![1, 2, 3], vec![0], vec![4], vec![1, 1], vec![2, 1]],
    };
    for list in &lists {
        same("check", (planner.check)(file, list), oracle::check(file, list))?;
        figures(planner, file, list, &mut random)?;
    }
    for list in lists.iter().skip(1).step_by(2).chain(lists.last()) {
        for junction in [0, 1, random.within(1, 65) as u32, random.within(1, 6) as u32, u32::MAX] {
            tight(planner, file, list, junction)?;
        }
    }
    some_routes(planner, file, &lists, &mut random)
}

/// Figures around what all rows cost, around what the first of them do, as many as are drawn, and the least and the largest.
fn figures(planner: &Planner, file: &[u8], list: &[u32], random: &mut Random) -> Outcome {
    let sums = oracle::sums(file, list);
    let all = sums.last().copied();
    let some = (!sums.is_empty()).then(|| random.pick(&sums));
    let around = |sum: u64| [sum.saturating_sub(1), sum, sum + 1].map(|figure| figure as u32);
    for figure in all.into_iter().chain(some).flat_map(around).chain([0, u32::MAX]) {
        same("figure", (planner.over)(file, list, figure), oracle::over_figure(file, list, figure))?;
    }
    Ok(())
}

/// Choices of a hall, the last of which joins and can spare no row, and lists that are no choice.
pub fn lists_for(hall: &Hall, random: &mut Random) -> Vec<Vec<u32>> {
    let count = hall.rows.len() as u32;
    let unfixed = oracle::unfixed(hall);
    let mut lists = vec![vec![], unfixed.clone(), vec![0], vec![count + 1], vec![1, 1], vec![2, 1]];
    for keep in 1..=3 {
        lists.push(unfixed.iter().copied().filter(|_| random.below(4) < keep).collect());
    }
    let fixed: Vec<u32> = (1..=count).filter(|i| !unfixed.contains(i)).collect();
    for &row in fixed.first().into_iter().chain(fixed.last()) {
        lists.push((1..=count).filter(|&i| i == row || unfixed.contains(&i)).collect());
        lists.push(vec![row]);
    }
    lists.push(spared(hall, unfixed, random));
    lists
}

/// Without each row in turn, in any order, that the others can spare.
fn spared(hall: &Hall, choice: Vec<u32>, random: &mut Random) -> Vec<u32> {
    let mut kept = choice.clone();
    for row in random.shuffled(choice) {
        let rest: Vec<u32> = kept.iter().copied().filter(|&i| i != row).collect();
        if oracle::missed(hall, &rest).is_none() {
            kept = rest;
        }
    }
    kept
}

/// By two paths in every hall, and by all tight shores where there are few junctions.
fn tight(planner: &Planner, file: &[u8], choice: &[u32], junction: u32) -> Outcome {
    let given = (planner.tight)(file, choice, junction);
    same("tight", given, oracle::tight(file, choice, junction))?;
    match oracle::hall_in(file) {
        Ok(hall) if hall.n <= 8 && given[2] == 3 && (1..=hall.n).contains(&junction.into()) => {
            same("tight by shores", given[3], oracle::neighbourhood_by_shores(&hall, choice, junction.into()))
        }
        _ => Ok(()),
    }
}

/// The plan's certificate, the lent lists after the filled places, and refusals.
pub fn plan(planner: &Planner, file: &[u8]) -> Outcome {
    planned(planner, file).map(|_| ())
}

/// The same, and the choice is the first of all.
pub fn small_plan(planner: &Planner, file: &[u8]) -> Outcome {
    match planned(planner, file)? {
        Some((hall, choice, total)) => same("choice and total", (choice, total), oracle::first_choice(&hall)),
        None => Ok(()),
    }
}

/// The plan's certificate, and that the choice is the first of all, by cuts of the plain Rust at other costs.
pub fn first_plan(planner: &Planner, file: &[u8]) -> Outcome {
    match planned(planner, file)? {
        Some((hall, choice, _)) => {
            let cuts_at = |costs: &[u64]| reference::cuts_at(file, costs).expect("the hall is accepted");
            same("unshown", oracle::unshown(&hall, &choice, cuts_at), vec![])
        }
        None => Ok(()),
    }
}

/// Both calls for one file. Together their replies claim a plan; gives the hall, the choice and its total, or nothing where
/// both calls have to refuse the file.
pub fn planned(planner: &Planner, file: &[u8]) -> Result<Option<(Hall, Vec<u32>, u64)>, String> {
    let mut lent = Lists::marked(257, 125, 126, 64);
    let untouched = lent.clone();
    let of_rows = (planner.rows)(file, &mut lent);
    let of_cuts = (planner.cuts)(file, &mut lent);
    let hall = match oracle::hall_in(file) {
        Ok(hall) => hall,
        Err(refusal) => {
            let refused = [refusal.number.into(), refusal.row.into(), 0, 0];
            same("rows' and cuts' call", [of_rows, of_cuts], [refused; 2])?;
            same("lists of a refused plan", &lent, &untouched)?;
            return Ok(None);
        }
    };
    same("numbers and rows", [of_rows[0], of_rows[1], of_cuts[0], of_cuts[1]], [0; 4])?;
    let [chosen, cuts, levels] = [of_rows[2], of_cuts[2], of_cuts[3]].map(|length| length as usize);
    same("lengths that fit", chosen <= 256 && cuts <= 125 && levels <= 64, true)?;
    let claim = Claim {
        rows: &lent.rows[..chosen],
        shores: &lent.shores[..cuts],
        weights: &lent.weights[..cuts],
        levels: &lent.levels[..levels],
        total: of_rows[3],
    };
    same("faults", oracle::faults(&hall, &claim), vec![])?;
    same("rows after", &lent.rows[chosen..], &untouched.rows[chosen..])?;
    same("shores after", &lent.shores[cuts..], &untouched.shores[cuts..])?;
    same("weights after", &lent.weights[cuts..], &untouched.weights[cuts..])?;
    same("levels after", &lent.levels[levels..], &untouched.levels[levels..])?;
    Ok(Some((hall, lent.rows[..chosen].to_vec(), of_rows[3])))
}

/// Lists of which none, one or all are too short, for the rows' call, for the cuts' call or for both.
pub fn short_lists(planner: &Planner, file: &[u8]) -> Outcome {
    for (rows, shores, weights, levels) in [
        (256, 125, 125, 64),
        (255, 125, 125, 64),
        (256, 124, 125, 64),
        (256, 125, 124, 64),
        (256, 125, 125, 63),
        (256, 0, 0, 0),
        (0, 125, 125, 64),
        (0, 0, 0, 0),
    ] {
        let lists = Lists::marked(rows, shores, weights, levels);
        refused_if_short(planner.rows, file, &lists, rows < 256)?;
        refused_if_short(planner.cuts, file, &lists, shores < 125 || weights < 125 || levels < 64)?;
    }
    Ok(())
}

/// Refusal 1 comes before all others and writes nothing. Where it does not come, the file's own number does.
fn refused_if_short(call: Plan, file: &[u8], lists: &Lists, short: bool) -> Outcome {
    let mut lent = lists.clone();
    let reply = call(file, &mut lent);
    if short {
        same("short lists", (reply, &lent), ([1, 0, 0, 0], lists))
    } else {
        let number = oracle::hall_in(file).map_or_else(|refusal| refusal.number.into(), |_| 0);
        same("number with lists that suffice", reply[0], number)
    }
}
