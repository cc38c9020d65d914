//! The planners that there are, behind the same nine calls, and what each call must answer.

mod expect;
mod quotes;
mod routes;
mod site;
mod with_without;

pub use expect::{calls_with_a_choice, first_plan, plan, short_lists, small_plan};
pub use quotes::quotes;
pub use routes::every_route;
pub use site::sites;
pub use with_without::{short_columns, with_without};

/// Number, row, outcome, set.
pub type Told = [u64; 4];

/// Number, row, outcome, set, filled.
pub type Routed = [u64; 5];

/// Number, row; then chosen, total for the rows' call, and cuts, levels for the cuts' call.
pub type Planned = [u64; 4];

/// What is lent to a plan: the rows to the rows' call, the others to the cuts' call.
#[derive(Clone, Debug, PartialEq, Eq)]
pub struct Lists {
    pub rows: Vec<u32>,
    pub shores: Vec<u64>,
    pub weights: Vec<u32>,
    pub levels: Vec<i32>,
}

impl Lists {
    /// Lists of these lengths, marked in every place.
    pub fn marked(rows: usize, shores: usize, weights: usize, levels: usize) -> Lists {
        Lists {
            rows: vec![0xAAAA_AAAA; rows],
            shores: vec![0xBBBB_BBBB_BBBB_BBBB; shores],
            weights: vec![0xCCCC_CCCC; weights],
            levels: vec![-0x1234_5678; levels],
        }
    }

    /// Lists that are just long enough.
    pub fn enough() -> Lists {
        Lists::marked(256, 125, 125, 64)
    }
}

/// From one junction to another, into a lent list.
pub type Route = fn(&[u8], &[u32], u32, u32, &mut [i32]) -> Routed;

/// Each of the two calls looks only at its own of these lists.
pub type Plan = fn(&[u8], &mut Lists) -> Planned;

/// Into two lent lists.
pub type Totals = fn(&[u8], &mut [u32], &mut [u32]) -> oracle::Figured;

/// The places of a site, each call's to write.
pub type Places = [u32; oracle::SITE_PLACES];

pub struct Planner {
    pub name: &'static str,
    pub check: fn(&[u8], &[u32]) -> Told,
    pub tight: fn(&[u8], &[u32], u32) -> Told,
    pub route: Route,
    pub over: fn(&[u8], &[u32], u32) -> oracle::Screened,
    pub rows: Plan,
    pub cuts: Plan,
    pub totals: Totals,
    pub start: fn(u32, &mut Places) -> oracle::Sited,
    pub admit: fn(&[u8], &mut Places) -> oracle::Sited,
}

/// A planner by its name and its crate; the crates have the same calls over types of their own.
macro_rules! planner {
    ($name:literal, $of:ident) => {{
        fn refused(refusal: $of::Refusal) -> [u64; 4] {
            [refusal.number.into(), refusal.row.into(), 0, 0]
        }
        fn told(reply: Result<$of::Finding, $of::Refusal>) -> Told {
            match reply {
                Ok($of::Finding::Joins) => [0, 0, 1, 0],
                Ok($of::Finding::Misses(shore)) => [0, 0, 2, shore],
                Ok($of::Finding::Around(set)) => [0, 0, 3, set],
                Err(refusal) => refused(refusal),
            }
        }
        fn sited(reply: Result<(), $of::Refusal>) -> oracle::Sited {
            reply.map_or_else(|refusal| [refusal.number.into(), refusal.row.into()], |()| [0, 0])
        }
        Planner {
            name: $name,
            check: |file, choice| told($of::check(file, choice)),
            tight: |file, choice, junction| told($of::tight(file, choice, junction)),
            route: |file, choice, from, to, rows| match $of::route_into(file, choice, from, to, rows) {
                Ok($of::Way::Misses(shore)) => [0, 0, 2, shore, 0],
                Ok($of::Way::Route(filled)) => [0, 0, 4, 0, filled as u64],
                Err(refusal) => [refusal.number.into(), refusal.row.into(), 0, 0, 0],
            },
            over: |file, choice, figure| match $of::over_figure(file, choice, figure) {
                Ok(screened) => [0, 0, screened.over.into(), screened.read as u64],
                Err(refusal) => refused(refusal),
            },
            rows: |file, lent| match $of::plan_rows_into(file, &mut lent.rows) {
                Ok(p) => [0, 0, p.chosen as u64, p.total.into()],
                Err(refusal) => refused(refusal),
            },
            cuts: |file, lent| {
                let Lists { shores, weights, levels, .. } = lent;
                match $of::plan_cuts_into(file, shores, weights, levels) {
                    Ok(p) => [0, 0, p.cuts as u64, p.levels as u64],
                    Err(refusal) => refused(refusal),
                }
            },
            totals: |file, with, without| match $of::with_without_into(file, with, without) {
                Ok(filled) => [0, 0, filled as u64],
                Err(refusal) => [refusal.number.into(), refusal.row.into(), 0],
            },
            start: |stock, site| sited($of::site_start_into(stock, site)),
            admit: |file, site| sited($of::site_admit_into(file, site)),
        }
    }};
}

/// The plain Rust.
pub fn plain() -> Planner {
    planner!("reference", reference)
}

pub fn planners() -> Vec<Planner> {
    vec![
        plain(),
        #[cfg(feature = "library")]
        planner!("library", himalowen),
    ]
}
