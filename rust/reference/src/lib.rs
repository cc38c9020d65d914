//! Opening lanes at least cost: the method of the proved library in plain Rust, unproved.
//! It is the baseline for benchmarks and answers the same nine calls. Inside, junctions and rows count from 0.

mod choice;
mod cuts;
mod hall;
mod planner;
mod route;
mod sets;
mod site;
mod tight;

pub use planner::Counts;
pub use reader::Refusal;
pub use site::{site_admit_into, site_start_into};

use choice::Choice;

pub const ROW_PLACES: usize = 256;
pub const CUT_PLACES: usize = 125;
pub const LEVEL_PLACES: usize = 64;
pub const ROUTE_PLACES: usize = 63;
pub const SITE_PLACES: usize = 2059;

/// In a list of totals without a row: every joining choice has the row.
pub const NONE: u32 = 0xFFFF_FFFF;

/// In both lists of totals: the row is fixed.
pub const FIXED: u32 = 0xFFFF_FFFE;

#[derive(Clone, Copy, Debug, PartialEq, Eq)]
pub enum Finding {
    Joins,
    Misses(u64),
    Around(u64),
}

/// A missed shore, or how much of the lent list the route fills.
#[derive(Clone, Copy, Debug, PartialEq, Eq)]
pub enum Way {
    Misses(u64),
    Route(usize),
}

/// Whether a choice costs more than a figure, and how many of its rows were read to tell.
#[derive(Clone, Copy, Debug, PartialEq, Eq)]
pub struct Screened {
    pub over: bool,
    pub read: usize,
}

/// How much of the lent list is filled, the total, and the work it took.
#[derive(Clone, Copy, Debug, PartialEq, Eq)]
pub struct PlannedRows {
    pub chosen: usize,
    pub total: u32,
    pub counts: Counts,
}

/// How much of the lent lists is filled, and the work it took.
#[derive(Clone, Copy, Debug, PartialEq, Eq)]
pub struct PlannedCuts {
    pub cuts: usize,
    pub levels: usize,
    pub counts: Counts,
}

/// Shores and weights.
pub type Cuts = Vec<(u64, u64)>;

/// Joins, or the set reached from the lowest junction that does not reach all.
pub fn check(file: &[u8], choice: &[u32]) -> Result<Finding, Refusal> {
    let hall = hall::read(file)?;
    let choice = Choice::read(&hall, choice)?;
    Ok(match choice.missed() {
        Some(shore) => Finding::Misses(shore),
        None => Finding::Joins,
    })
}

/// The junctions in every tight shore that holds `junction`; none for a junction outside the hall.
pub fn tight(file: &[u8], choice: &[u32], junction: u32) -> Result<Finding, Refusal> {
    let hall = hall::read(file)?;
    let choice = Choice::read(&hall, choice)?;
    if junction == 0 || junction as usize > hall.n {
        return Ok(Finding::Around(0));
    }
    Ok(match choice.missed() {
        Some(shore) => Finding::Misses(shore),
        None => Finding::Around(tight::neighbourhood(&choice, &[0; 64], junction as usize - 1)),
    })
}

/// Fills the front of the lent list with the first of the routes with the fewest rows.
pub fn route_into(file: &[u8], choice: &[u32], from: u32, to: u32, rows: &mut [i32]) -> Result<Way, Refusal> {
    if rows.len() < ROUTE_PLACES {
        return Err(Refusal::new(1));
    }
    let hall = hall::read(file)?;
    let choice = Choice::read(&hall, choice)?;
    let ends = [from, to].map(|junction| junction as usize);
    if ends.iter().any(|&end| end == 0 || end > hall.n) {
        return Err(Refusal::new(11));
    }
    Ok(match choice.missed() {
        Some(shore) => Way::Misses(shore),
        None => Way::Route(route::fill(&choice, ends[0] - 1, ends[1] - 1, rows)),
    })
}

/// Reads the chosen rows until their prices have passed the figure.
pub fn over_figure(file: &[u8], choice: &[u32], figure: u32) -> Result<Screened, Refusal> {
    let hall = hall::read(file)?;
    Choice::read(&hall, choice)?;
    let mut left = figure;
    for (k, &row) in choice.iter().enumerate() {
        match left.checked_sub(hall.rows[row as usize - 1].price) {
            Some(rest) => left = rest,
            None => return Ok(Screened { over: true, read: k + 1 }),
        }
    }
    Ok(Screened { over: false, read: choice.len() })
}

/// Fills the front of the lent list with the first joining choice.
pub fn plan_rows_into(file: &[u8], rows: &mut [u32]) -> Result<PlannedRows, Refusal> {
    if rows.len() < ROW_PLACES {
        return Err(Refusal::new(1));
    }
    let hall = hall::read(file)?;
    let (chosen, counts) = planner::rows(&hall);
    for (place, &row) in rows.iter_mut().zip(&chosen) {
        *place = row as u32 + 1;
    }
    Ok(PlannedRows { chosen: chosen.len(), total: chosen.iter().map(|&i| hall.rows[i].price).sum(), counts })
}

/// Fills the front of the lent lists with the cuts beside the first joining choice and their levels.
pub fn plan_cuts_into(
    file: &[u8],
    shores: &mut [u64],
    weights: &mut [u32],
    levels: &mut [i32],
) -> Result<PlannedCuts, Refusal> {
    if shores.len() < CUT_PLACES || weights.len() < CUT_PLACES || levels.len() < LEVEL_PLACES {
        return Err(Refusal::new(1));
    }
    let hall = hall::read(file)?;
    let (cuts, found, counts) = planner::cuts(&hall);
    for (k, &(shore, weight)) in cuts.iter().enumerate() {
        shores[k] = shore;
        weights[k] = weight as u32;
    }
    levels[..hall.n].copy_from_slice(&found);
    Ok(PlannedCuts { cuts: cuts.len(), levels: hall.n, counts })
}

/// For each row the least total with it and the least without it, in the front of the lent lists; gives how many rows there are.
pub fn with_without_into(file: &[u8], with: &mut [u32], without: &mut [u32]) -> Result<usize, Refusal> {
    if with.len() < ROW_PLACES || without.len() < ROW_PLACES {
        return Err(Refusal::new(1));
    }
    let hall = hall::read(file)?;
    for (places, totals) in with.iter_mut().zip(without).zip(planner::totals(&hall)) {
        (*places.0, *places.1) = match totals {
            Some(totals) => (totals.with as u32, totals.without.map_or(NONE, |total| total as u32)),
            None => (FIXED, FIXED),
        };
    }
    Ok(hall.rows.len())
}

/// A choice of least cost, where each row has another cost than its price, and the cuts beside it.
pub fn plan_at(file: &[u8], costs: &[u64]) -> Result<(Vec<u32>, Cuts), Refusal> {
    let hall = hall::read(file)?;
    let (chosen, cuts) = planner::plan_at(&hall, costs.iter().map(|&cost| cost as i64).collect());
    Ok((chosen.into_iter().map(|i| i as u32 + 1).collect(), cuts))
}

/// The cuts alone.
pub fn cuts_at(file: &[u8], costs: &[u64]) -> Result<Cuts, Refusal> {
    plan_at(file, costs).map(|(_, cuts)| cuts)
}
