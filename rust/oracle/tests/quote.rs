//! One price moves: in small halls each plan is found by trying every choice, in full ones it is shown to be first.

use halls::{full_hall, random_hall, Random, KINDS};
use oracle::{check, first_choice, hall_in, misquoted, quoted, requoted, sums, unfixed, unshown, Hall, Plan, Quoted};

fn accepted(file: &[u8]) -> Result<Hall, String> {
    hall_in(file).map_err(|refusal| format!("{refusal:?}"))
}

fn by_trying(file: &[u8]) -> Result<Plan, String> {
    accepted(file).map(|hall| first_choice(&hall))
}

/// The plain Rust's rows and what they cost, if they join and are shown to be the first choice.
fn by_showing(file: &[u8]) -> Result<Plan, String> {
    let hall = accepted(file)?;
    let mut rows = [0; 256];
    let planned = reference::plan_rows_into(file, &mut rows).expect("an accepted hall");
    let rows = rows[..planned.chosen].to_vec();
    assert_eq!(check(file, &rows), [0, 0, 1, 0]);
    let faults = unshown(&hall, &rows, |costs| reference::cuts_at(file, costs).expect("an accepted hall"));
    assert_eq!(faults, [""; 0]);
    let total = sums(file, &rows).pop().expect("a choice");
    Ok((rows, total))
}

/// Whether the row leaves the plan as its price grows, if nothing is wrong with the plans.
fn leaves(row: u32, plans: &[Quoted]) -> bool {
    assert_eq!(misquoted(row, plans), [""; 0]);
    let has = |(_, (rows, _)): &Quoted| rows.contains(&row);
    has(&plans[0]) && !plans.last().is_some_and(has)
}

#[test]
fn in_small_halls_every_row() {
    let (mut rows, mut leaving) = (0, 0);
    for seed in 0..2_000 {
        let file = random_hall(6, 10, seed);
        let Ok(hall) = hall_in(&file) else { continue };
        for row in unfixed(&hall) {
            let own = hall.rows[row as usize - 1].price;
            rows += 1;
            leaving += u32::from(leaves(row, &quoted(&file, row, &[1, own, own + 1], by_trying).unwrap()));
        }
    }
    assert!(rows > 5_000 && leaving > 1_000, "{leaving} of {rows} rows leave the plan");
}

#[test]
fn in_full_halls_a_row_that_is_opened_and_one_that_is_not() {
    let mut leaving = 0;
    for (kind, seed) in KINDS.into_iter().zip(0..) {
        let file = full_hall(kind, 64, seed);
        let hall = hall_in(&file).unwrap();
        let plan = by_showing(&file).unwrap().0;
        let (opened, closed): (Vec<u32>, Vec<u32>) = unfixed(&hall).into_iter().partition(|row| plan.contains(row));
        let mut random = Random::new(seed);
        for row in [random.pick(&opened), random.pick(&closed)] {
            let own = hall.rows[row as usize - 1].price;
            leaving += u32::from(leaves(row, &quoted(&file, row, &[own], by_showing).unwrap()));
        }
    }
    assert!(leaving > 0, "no row leaves the plan");
}

#[test]
fn what_is_wrong_is_named() {
    let plan = |rows: &[u32], total| (rows.to_vec(), total);
    let cheaper = plan(&[2, 3], 5);
    let cases: [(u32, Plan, &[&str]); 9] = [
        (2, plan(&[2, 3], 9), &[]),
        (2, plan(&[1], 8), &[]),
        (1, plan(&[2, 3], 5), &[]),
        (2, plan(&[1], 4), &["the total falls"]),
        (2, plan(&[1], 10), &["the total grows by more"]),
        (1, plan(&[4], 5), &["a row that was not in the plan moves it"]),
        (1, plan(&[2, 3], 6), &["a row that was not in the plan moves it"]),
        (2, plan(&[2], 9), &["a row that stays in the plan moves it"]),
        (2, plan(&[2, 3], 8), &["a row that stays in the plan moves the total by something else"]),
    ];
    for (row, dearer, faults) in cases {
        let named: Vec<String> = faults.iter().map(|fault| format!("row {row} from 3 to 7: {fault}")).collect();
        assert_eq!(misquoted(row, &[(3, cheaper.clone()), (7, dearer)]), named);
    }
}

#[test]
fn one_price_moves_and_nothing_else() {
    for seed in 0..200 {
        let file = random_hall(16, 48, seed);
        let Ok(hall) = hall_in(&file) else { continue };
        for row in unfixed(&hall) {
            let mut rows = hall.rows.clone();
            let price = &mut rows[row as usize - 1].price;
            *price = price.checked_sub(1).unwrap_or(1_000_000);
            let moved = accepted(&requoted(&file, row, *price)).unwrap();
            assert_eq!((moved.n, moved.rows), (hall.n, rows));
        }
    }
}
