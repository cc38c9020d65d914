//! A plan in two calls, for a hall of three rows of which the third is opened.

use himalowen::{
    plan_cuts, plan_cuts_into, plan_rows, plan_rows_into, Cut, Cuts, FirstChoice, PlannedCuts, PlannedRows, Refusal,
    CUT_PLACES, LEVEL_PLACES, ROW_PLACES,
};

const THREE_ROWS: &[u8] = include_bytes!("../../../samples/three-rows.hall");

fn refused(number: u32) -> Refusal {
    Refusal { number, row: 0 }
}

#[test]
fn two_calls_give_one_plan() {
    let cuts = vec![Cut { shore: 0b100, weight: 1 }, Cut { shore: 0b110, weight: 3 }];
    assert_eq!(plan_rows(THREE_ROWS), Ok(FirstChoice { rows: vec![3], total: 4 }));
    assert_eq!(plan_cuts(THREE_ROWS), Ok(Cuts { cuts, levels: vec![0, 3, 4] }));
}

#[test]
fn only_the_first_places_are_written() {
    let mut rows = [77; ROW_PLACES];
    let (mut shores, mut weights, mut levels) = ([77; CUT_PLACES], [77; CUT_PLACES], [77; LEVEL_PLACES]);
    assert_eq!(plan_rows_into(THREE_ROWS, &mut rows), Ok(PlannedRows { chosen: 1, total: 4 }));
    let planned = plan_cuts_into(THREE_ROWS, &mut shores, &mut weights, &mut levels);
    assert_eq!(planned, Ok(PlannedCuts { cuts: 2, levels: 3 }));
    assert!(rows[1..].iter().all(|&row| row == 77));
    assert!(shores[2..].iter().all(|&shore| shore == 77));
    assert!(weights[2..].iter().all(|&weight| weight == 77));
    assert!(levels[3..].iter().all(|&level| level == 77));
}

#[test]
fn refusals_write_nothing() {
    let mut rows = [77; ROW_PLACES];
    let (mut shores, mut weights, mut levels) = ([77; CUT_PLACES], [77; CUT_PLACES], [77; LEVEL_PLACES]);
    assert_eq!(plan_rows_into(THREE_ROWS, &mut rows[1..]), Err(refused(1)));
    assert_eq!(plan_rows_into(&THREE_ROWS[..3], &mut rows), Err(refused(2)));
    for (s, w, l) in [(1, 0, 0), (0, 1, 0), (0, 0, 1)] {
        let planned = plan_cuts_into(THREE_ROWS, &mut shores[s..], &mut weights[w..], &mut levels[l..]);
        assert_eq!(planned, Err(refused(1)));
    }
    assert_eq!(plan_cuts_into(&THREE_ROWS[..3], &mut shores, &mut weights, &mut levels), Err(refused(2)));
    assert_eq!(rows, [77; ROW_PLACES]);
    assert_eq!((shores, weights, levels), ([77; CUT_PLACES], [77; CUT_PLACES], [77; LEVEL_PLACES]));
}
