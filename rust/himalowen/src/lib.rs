//! Opening one-way lanes at least cost: safe calls of the proved library. Rows and junctions count from 1; junction j
//! counts 2^(j - 1) in a junction set.

#![deny(unsafe_code)]

#[allow(unsafe_code)]
mod boundary;
mod site;

pub use site::{site_admit_into, site_start_into, Site};

pub const ROW_PLACES: usize = 256;
pub const CUT_PLACES: usize = 125;
pub const LEVEL_PLACES: usize = 64;
pub const ROUTE_PLACES: usize = 63;
pub const SITE_PLACES: usize = 2059;

/// In the list of totals without each row: every joining choice has the row.
pub const NONE: u32 = 0xFFFF_FFFF;

/// In both lists of totals: the row is fixed.
pub const FIXED: u32 = 0xFFFF_FFFE;

/// Why a call was turned back: 1 to 15 without 7, and the row for 6 and 8, else 0.
#[derive(Clone, Copy, Debug, PartialEq, Eq)]
pub struct Refusal {
    pub number: u32,
    pub row: u32,
}

impl std::fmt::Display for Refusal {
    fn fmt(&self, out: &mut std::fmt::Formatter) -> std::fmt::Result {
        write!(out, "REFUSED {} {}", self.number, self.row)
    }
}

impl std::error::Error for Refusal {}

#[derive(Clone, Copy, Debug, PartialEq, Eq)]
pub enum Finding {
    Joins,
    /// A shore that no chosen row enters.
    Misses(u64),
    /// A tight neighbourhood.
    Around(u64),
}

/// A route, or why there is none.
#[derive(Clone, Copy, Debug, PartialEq, Eq)]
pub enum Way<T> {
    /// A shore that no chosen row enters.
    Misses(u64),
    /// The route's rows in travelling order, or how many they are.
    Route(T),
}

/// Whether a choice costs more than a figure, and how many of its rows were read to tell.
#[derive(Clone, Copy, Debug, PartialEq, Eq)]
pub struct Screened {
    pub over: bool,
    pub read: usize,
}

/// How many places of the lent list are filled, and the total of these rows.
#[derive(Clone, Copy, Debug, PartialEq, Eq)]
pub struct PlannedRows {
    pub chosen: usize,
    pub total: u32,
}

/// How many places of the lent lists are filled: the cuts stand in two.
#[derive(Clone, Copy, Debug, PartialEq, Eq)]
pub struct PlannedCuts {
    pub cuts: usize,
    pub levels: usize,
}

/// The rows that a plan opens, and their total.
#[derive(Clone, Debug, PartialEq, Eq)]
pub struct FirstChoice {
    pub rows: Vec<u32>,
    pub total: u32,
}

#[derive(Clone, Copy, Debug, PartialEq, Eq)]
pub struct Cut {
    pub shore: u64,
    pub weight: u32,
}

/// The cuts beside the first choice, and the level of each junction.
#[derive(Clone, Debug, PartialEq, Eq)]
pub struct Cuts {
    pub cuts: Vec<Cut>,
    pub levels: Vec<i32>,
}

/// A row's figures.
#[derive(Clone, Copy, Debug, PartialEq, Eq)]
pub enum Figures {
    /// The row is fixed: no choice has it.
    Fixed,
    /// The least total of the joining choices with the row, and of those without it, unless every joining choice has it.
    Totals { with: u32, without: Option<u32> },
}

/// Whether the chosen rows, ascending and none of them fixed, join the hall.
pub fn check(file: &[u8], choice: &[u32]) -> Result<Finding, Refusal> {
    finding(boundary::check(file, choice))
}

/// The junctions that lie in every tight shore with `junction`; the check's reply where the choice does not join.
pub fn tight(file: &[u8], choice: &[u32], junction: u32) -> Result<Finding, Refusal> {
    finding(boundary::tight(file, choice, junction))
}

/// The route with the fewest rows, over rows forward and chosen rows backward, in the front of the lent list: each row as
/// its number, below 0 where it is run backward. Of several, the one whose row numbers come first in dictionary order. The
/// check's reply where the choice does not join.
pub fn route_into(file: &[u8], choice: &[u32], from: u32, to: u32, rows: &mut [i32]) -> Result<Way<usize>, Refusal> {
    let [number, row, outcome, set, filled] = boundary::route(file, choice, from, to, rows);
    accepted(number, row)?;
    Ok(match outcome {
        2 => Way::Misses(set),
        4 => Way::Route(filled as usize),
        _ => unreachable!("the library promises an outcome of 2 or 4"),
    })
}

/// The same route in a list of its own.
pub fn route(file: &[u8], choice: &[u32], from: u32, to: u32) -> Result<Way<Vec<i32>>, Refusal> {
    let mut rows = [0; ROUTE_PLACES];
    Ok(match route_into(file, choice, from, to, &mut rows)? {
        Way::Misses(shore) => Way::Misses(shore),
        Way::Route(filled) => Way::Route(rows[..filled].to_vec()),
    })
}

/// Whether the chosen rows, which need not join, cost more than `figure`. They are read in order, and no further than until
/// their prices add up to more.
pub fn over_figure(file: &[u8], choice: &[u32], figure: u32) -> Result<Screened, Refusal> {
    let [number, row, over, read] = boundary::over_figure(file, choice, figure);
    accepted(number, row)?;
    Ok(Screened { over: over == 1, read: read as usize })
}

/// The first joining choice in the front of the lent list, and its total. Refusal 1 looks at that list alone.
pub fn plan_rows_into(file: &[u8], rows: &mut [u32]) -> Result<PlannedRows, Refusal> {
    let [number, row, chosen, total] = boundary::plan_rows(file, rows);
    accepted(number, row)?;
    Ok(PlannedRows { chosen: chosen as usize, total: total as u32 })
}

/// The first joining choice and its total.
pub fn plan_rows(file: &[u8]) -> Result<FirstChoice, Refusal> {
    let mut rows = [0; ROW_PLACES];
    let PlannedRows { chosen, total } = plan_rows_into(file, &mut rows)?;
    Ok(FirstChoice { rows: rows[..chosen].to_vec(), total })
}

/// The cuts beside the first joining choice, and the levels, in the front of the lent lists. The weights add up to the
/// total that `plan_rows` gives for the same file. Refusal 1 looks at these lists alone.
pub fn plan_cuts_into(
    file: &[u8],
    shores: &mut [u64],
    weights: &mut [u32],
    levels: &mut [i32],
) -> Result<PlannedCuts, Refusal> {
    let [number, row, cuts, levels] = boundary::plan_cuts(file, shores, weights, levels);
    accepted(number, row)?;
    Ok(PlannedCuts { cuts: cuts as usize, levels: levels as usize })
}

/// The same cuts and levels in lists of their own.
pub fn plan_cuts(file: &[u8]) -> Result<Cuts, Refusal> {
    let mut shores = [0; CUT_PLACES];
    let mut weights = [0; CUT_PLACES];
    let mut levels = [0; LEVEL_PLACES];
    let planned = plan_cuts_into(file, &mut shores, &mut weights, &mut levels)?;
    let cuts = shores.iter().zip(&weights).map(|(&shore, &weight)| Cut { shore, weight });
    Ok(Cuts { cuts: cuts.take(planned.cuts).collect(), levels: levels[..planned.levels].to_vec() })
}

/// The least total of the joining choices with each row, and of those without it, in the front of the lent lists: row i's in
/// place i - 1, [`NONE`] without a row that every joining choice has, and [`FIXED`] in both lists for a fixed row. Gives how
/// many rows there are. Refusal 1 looks at these lists alone.
pub fn with_without_into(file: &[u8], with: &mut [u32], without: &mut [u32]) -> Result<usize, Refusal> {
    let [number, row, filled] = boundary::with_without(file, with, without);
    accepted(number, row)?;
    Ok(filled as usize)
}

/// The same for row after row. The smaller total of a row, or its only one, is the plan's; a row that the plan opens has it
/// as the first.
pub fn with_without(file: &[u8]) -> Result<Vec<Figures>, Refusal> {
    let (mut with, mut without) = ([0; ROW_PLACES], [0; ROW_PLACES]);
    let filled = with_without_into(file, &mut with, &mut without)?;
    Ok(with.iter().zip(&without).take(filled).map(|(&with, &without)| figures(with, without)).collect())
}

fn figures(with: u32, without: u32) -> Figures {
    match with {
        FIXED => Figures::Fixed,
        _ => Figures::Totals { with, without: (without != NONE).then_some(without) },
    }
}

fn accepted(number: u64, row: u64) -> Result<(), Refusal> {
    match number {
        0 => Ok(()),
        _ => Err(Refusal { number: number as u32, row: row as u32 }),
    }
}

fn finding([number, row, outcome, set]: [u64; 4]) -> Result<Finding, Refusal> {
    accepted(number, row)?;
    Ok(match outcome {
        1 => Finding::Joins,
        2 => Finding::Misses(set),
        3 => Finding::Around(set),
        _ => unreachable!("the library promises an outcome from 1 to 3"),
    })
}
