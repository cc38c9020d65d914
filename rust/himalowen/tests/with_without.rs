//! Totals with and without each row of a hall: from 1 to 3 by rows 1 and 2 or by row 3, beside which row 4 is fixed; row 5 is a
//! loop, and row 6 alone leads to 4.

use himalowen::{plan_rows, with_without, with_without_into, Figures, Refusal, FIXED, NONE, ROW_PLACES};

const SIX_ROWS: &[u8] = include_bytes!("../../../samples/six-rows.hall");

const FIXED_FIELD: u32 = 0xFFFF_FFFF;

/// One block of rows: from, to, price field.
fn hall(n: u8, rows: &[[u32; 3]]) -> Vec<u8> {
    let mut file = vec![n, 0, 1, 0, 12, 0, 0, 0, 8 * rows.len() as u8, 0, 0, 0];
    for &[from, to, price] in rows {
        file.extend([from as u8, 0, to as u8, 0]);
        file.extend(price.to_le_bytes());
    }
    file
}

fn totals(with: u32, without: impl Into<Option<u32>>) -> Figures {
    Figures::Totals { with, without: without.into() }
}

#[test]
fn each_row_has_its_totals() {
    assert_eq!(plan_rows(SIX_ROWS).expect("a hall").rows, [1, 2, 6]);
    let figures = [totals(6, 7), totals(6, 7), totals(7, 6), Figures::Fixed, totals(11, 6), totals(6, None)];
    assert_eq!(with_without(SIX_ROWS), Ok(figures.to_vec()));
}

#[test]
fn a_hall_without_rows_has_no_totals() {
    assert_eq!(with_without(&[1, 0, 0, 0]), Ok(vec![]));
}

#[test]
fn only_the_first_places_are_written() {
    let (mut with, mut without) = ([77; ROW_PLACES], [88; ROW_PLACES + 1]);
    assert_eq!(with_without_into(SIX_ROWS, &mut with, &mut without), Ok(6));
    assert_eq!(with[..6], [6, 6, 7, FIXED, 11, 6]);
    assert_eq!(without[..6], [7, 7, 6, FIXED, 6, NONE]);
    assert!(with[6..].iter().all(|&total| total == 77));
    assert!(without[6..].iter().all(|&total| total == 88));
}

#[test]
fn refusals_write_nothing() {
    let refused = |number, row| Err(Refusal { number, row });
    let (mut with, mut without) = ([77; ROW_PLACES], [88; ROW_PLACES]);
    for (a, b) in [(1, 0), (0, 1), (ROW_PLACES, ROW_PLACES)] {
        assert_eq!(with_without_into(SIX_ROWS, &mut with[a..], &mut without[b..]), refused(1, 0));
        assert_eq!(with_without_into(&[], &mut with[a..], &mut without[b..]), refused(1, 0));
    }
    let halls = [
        (SIX_ROWS[..3].to_vec(), refused(2, 0)),
        (hall(2, &[[1, 2, 1], [1, 2, 1_000_001]]), refused(8, 2)),
        (hall(3, &[[1, 2, 1]]), refused(9, 0)),
        (hall(2, &[[1, 2, FIXED_FIELD]]), refused(15, 0)),
    ];
    for (file, refusal) in halls {
        assert_eq!(with_without_into(&file, &mut with, &mut without), refusal);
    }
    assert_eq!((with, without), ([77; ROW_PLACES], [88; ROW_PLACES]));
}
