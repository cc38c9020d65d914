//! What is least with each row and without it: in small halls every choice is tried; in halls of any size a planner hands over
//! a choice and cuts for the costs that it is asked about, and nothing is believed of it but what they show.

use crate::first::bound;
use crate::hall::{total, Hall};
use crate::quote::Plan;
use crate::small::joining_choices;
use crate::{arcs, came_by, hall_in, is_choice, missed, unfixed, Refusal, Row};

/// A row's figures.
#[derive(Clone, Copy, Debug, PartialEq, Eq)]
pub enum Figures {
    Fixed,
    /// The least totals of the joining choices with the row and of those without it, if there are any.
    Totals {
        with: u64,
        without: Option<u64>,
    },
}

/// The reply: number, row, and how many rows have their figures.
pub type Figured = [u64; 3];

/// The two lists that are lent, the totals with a row and those without it.
pub type Columns = [Vec<u32>; 2];

/// A choice, and shores and weights of cuts.
pub type Cheapest = (Vec<u32>, Vec<(u64, u64)>);

const PLACES: usize = 256;
const NONE: u32 = 0xFFFF_FFFF;
const FIXED: u32 = 0xFFFF_FFFE;

fn read(with: u32, without: u32) -> Figures {
    match (with, without) {
        (FIXED, FIXED) => Figures::Fixed,
        (with, NONE) => Figures::Totals { with: with.into(), without: None },
        (with, without) => Figures::Totals { with: with.into(), without: Some(without.into()) },
    }
}

/// The figures that a call has left for each row, by its reply and both lists before and after; nothing where it rightly
/// refuses. An error where the reply is another, or a place has changed in which there is no figure.
pub fn figures_left(
    bytes: &[u8],
    lent: &Columns,
    reply: Figured,
    left: &Columns,
) -> Result<Option<(Hall, Vec<Figures>)>, String> {
    let short = lent.iter().any(|list| list.len() < PLACES);
    let hall = if short { Err(Refusal::new(1)) } else { hall_in(bytes) };
    let (expected, filled) = match &hall {
        Ok(hall) => ([0, 0, hall.rows.len() as u64], hall.rows.len()),
        Err(refusal) => ([refusal.number.into(), refusal.row.into(), 0], 0),
    };
    if reply != expected {
        return Err(format!("the reply is {reply:?}, not {expected:?}"));
    }
    if lent.iter().zip(left).any(|(lent, left)| lent[filled..] != left[filled..]) {
        return Err("a place without a figure has changed".to_string());
    }
    let figures = left[0].iter().zip(&left[1]).map(|(&with, &without)| read(with, without));
    Ok(hall.ok().map(|hall| (hall, figures.take(filled).collect())))
}

/// Each row's figures, in halls of few junctions and few rows.
pub fn figures_by_trying(hall: &Hall) -> Vec<Figures> {
    let unfixed = unfixed(hall);
    let mut least = vec![[None; 2]; hall.rows.len()];
    for choice in joining_choices(hall) {
        let has = |i: u32| choice >> (i - 1) & 1 == 1;
        let total = total(hall, unfixed.iter().filter(|&&i| has(i)));
        for &i in &unfixed {
            let least = &mut least[i as usize - 1][usize::from(has(i))];
            *least = Some(least.map_or(total, |least| total.min(least)));
        }
    }
    let of_row = |[without, with]: [Option<u64>; 2]| match with {
        Some(with) => Figures::Totals { with, without },
        None => Figures::Fixed,
    };
    least.into_iter().map(of_row).collect()
}

/// What a joining choice costs at the least, if it has none of the rows without a cost: the planner's costs so much, and no
/// other costs less by the planner's cuts. None where either is not so.
fn shown_least(hall: &Hall, costs: &[Option<u64>], planner: &impl Fn(&[u64]) -> Cheapest) -> Option<u64> {
    let dearest = 1 + hall.rows.iter().map(|row| row.price).sum::<u64>();
    let priced: Vec<u64> = costs.iter().map(|cost| cost.unwrap_or(dearest)).collect();
    let (choice, cuts) = planner(&priced);
    if !is_choice(hall, &choice) || missed(hall, &choice).is_some() {
        return None;
    }
    let cost: u64 = choice.iter().map(|&i| costs[i as usize - 1]).sum::<Option<u64>>()?;
    (bound(hall, costs, &cuts) >= cost.into()).then_some(cost)
}

/// An unfixed row's figures as the planner's choices and cuts show them. At a cost of 0 each joining choice with the row costs
/// its price less, and one without the row can take it in and costs no more.
pub fn figures_by_showing(hall: &Hall, row: u32, planner: &impl Fn(&[u64]) -> Cheapest) -> Option<Figures> {
    let least_at = |own: Option<u64>| {
        let cost = |(i, other): (u32, &Row)| if i == row { own } else { (!other.fixed).then_some(other.price) };
        shown_least(hall, &(1..).zip(&hall.rows).map(cost).collect::<Vec<_>>(), planner)
    };
    let with = least_at(Some(0))? + hall.rows[row as usize - 1].price;
    let without = if is_needed(hall, row) { None } else { Some(least_at(None)?) };
    Some(Figures::Totals { with, without })
}

/// The other unfixed rows do not join: with all of them opened, the row's end does not reach its beginning.
fn is_needed(hall: &Hall, row: u32) -> bool {
    let others: Vec<u32> = unfixed(hall).into_iter().filter(|&i| i != row).collect();
    let own = &hall.rows[row as usize - 1];
    own.from != own.to && !came_by(&arcs(hall, &others), own.to).contains_key(&own.from)
}

/// All that is wrong with the figures of a hall whose plan is given: in any row what the plan tells of it, and in the listed
/// rows what is not shown with the planner's help.
pub fn misfigured(
    hall: &Hall,
    figures: &[Figures],
    plan: &Plan,
    rows: &[u32],
    planner: impl Fn(&[u64]) -> Cheapest,
) -> Vec<String> {
    let beside_plan = (1..).zip(figures).flat_map(|(i, &figures)| {
        unlike_plan(hall, i, figures, plan).into_iter().map(move |fault| format!("row {i}: {fault}"))
    });
    let listed = rows.iter().filter_map(|&row| {
        let (given, shown) = (figures[row as usize - 1], figures_by_showing(hall, row, &planner));
        (Some(given) != shown).then(|| format!("row {row}: {given:?}, but {shown:?} is shown"))
    });
    beside_plan.chain(listed).collect()
}

/// What does not go with the plan in one row's figures.
fn unlike_plan(hall: &Hall, i: u32, figures: Figures, (opened, total): &Plan) -> Vec<&'static str> {
    let row = &hall.rows[i as usize - 1];
    let Figures::Totals { with, without } = figures else {
        return if row.fixed { vec![] } else { vec!["it is not fixed"] };
    };
    if row.fixed {
        return vec!["it is fixed"];
    }
    let is_opened = opened.contains(&i);
    let tests = [
        (without.unwrap_or(with).min(with) == *total, "the smaller total is not the plan's"),
        (!is_opened || with == *total, "it is opened, and the total with it is not the plan's"),
        (is_opened || without == Some(*total), "it is not opened, and the total without it is not the plan's"),
        (
            row.from != row.to || with == total + row.price,
            "it is a loop, and the total with it is not the plan's and its price",
        ),
        (!is_opened || without.is_none() == is_needed(hall, i), "whether every joining choice has it is told wrongly"),
    ];
    tests.into_iter().filter(|(passed, _)| !passed).map(|(_, fault)| fault).collect()
}
