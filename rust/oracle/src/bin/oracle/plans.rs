//! Plans: the plain Rust's, of which nothing is believed but what is judged right.

use oracle::{
    figures_by_trying, figures_left, hall_in, misfigured, printed, unfixed, words, Columns, Figures, Hall, Listed,
    Refusal, FEW, SMALL,
};

pub fn judge(file: &[u8], text: &str) -> Vec<String> {
    oracle::judge(file, text, |costs| reference::cuts_at(file, costs).expect("the hall is accepted"))
}

/// The first joining choice, with cuts that fit it. In small halls it is the first when every choice is tried, too.
fn plan(file: &[u8]) -> Result<(Hall, Listed), Refusal> {
    let hall = hall_in(file)?;
    let (mut rows, mut shores, mut weights, mut levels) = ([0; 256], [0; 125], [0; 125], [0; 64]);
    let of_rows = reference::plan_rows_into(file, &mut rows)?;
    let of_cuts = reference::plan_cuts_into(file, &mut shores, &mut weights, &mut levels)?;
    let listed = Listed {
        rows: rows[..of_rows.chosen].to_vec(),
        shores: shores[..of_cuts.cuts].to_vec(),
        weights: weights[..of_cuts.cuts].to_vec(),
        levels: levels[..of_cuts.levels].to_vec(),
        total: of_rows.total.into(),
    };
    assert_eq!(judge(file, &printed(&hall, &listed.claim())), [""; 0], "the plain Rust's plan");
    if hall.n <= SMALL && hall.rows.len() <= FEW {
        assert_eq!(oracle::first_choice(&hall), (listed.rows.clone(), listed.total), "the plain Rust's choice");
    }
    Ok((hall, listed))
}

pub fn refused(refusal: Refusal) -> String {
    format!("REFUSED {} {}\n", refusal.number, refusal.row)
}

/// The first joining choice of an accepted hall.
pub fn rows(file: &[u8]) -> Vec<u32> {
    plan(file).expect("the hall is accepted").1.rows
}

pub fn choice(file: &[u8]) -> String {
    told(file, |_, plan| format!("OPEN {}{} TOTAL {}\n", plan.rows.len(), words(&plan.rows), plan.total))
}

pub fn list(file: &[u8]) -> String {
    told(file, |hall, plan| printed(hall, &plan.claim()))
}

fn told(file: &[u8], tell: impl Fn(&Hall, &Listed) -> String) -> String {
    plan(file).map_or_else(refused, |(hall, plan)| tell(&hall, &plan))
}

/// How many rows there are, and a line for each: its number and the least totals with it and without it, or NONE where every
/// joining choice has it, or FIXED. Those of every row are shown, and in small halls they are the figures when every choice is
/// tried, too.
pub fn figures(file: &[u8]) -> String {
    let line = |(row, figures): (usize, &Figures)| match figures {
        Figures::Fixed => format!("{row} FIXED\n"),
        Figures::Totals { with, without: None } => format!("{row} {with} NONE\n"),
        Figures::Totals { with, without: Some(without) } => format!("{row} {with} {without}\n"),
    };
    let list = |figures: Vec<Figures>| {
        format!("ROWS {}\n", figures.len()) + &(1..).zip(&figures).map(line).collect::<String>()
    };
    shown_figures(file).map_or_else(refused, list)
}

/// The plain Rust's figures, of every row.
fn shown_figures(file: &[u8]) -> Result<Vec<Figures>, Refusal> {
    let (hall, plan) = plan(file)?;
    let lent: Columns = [vec![0; 256], vec![0; 256]];
    let [mut with, mut without] = lent.clone();
    let filled = reference::with_without_into(file, &mut with, &mut without)?;
    let left = figures_left(file, &lent, [0, 0, filled as u64], &[with, without]);
    let (_, figures) = left.expect("the plain Rust's lists").expect("the hall is accepted");
    let plan_at = |costs: &[u64]| reference::plan_at(file, costs).expect("the hall is accepted");
    let faults = misfigured(&hall, &figures, &(plan.rows, plan.total), &unfixed(&hall), plan_at);
    assert_eq!(faults, [""; 0], "the plain Rust's figures");
    if hall.n <= SMALL && hall.rows.len() <= FEW {
        assert_eq!(figures_by_trying(&hall), figures, "the plain Rust's figures");
    }
    Ok(figures)
}
