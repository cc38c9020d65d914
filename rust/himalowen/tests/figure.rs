//! Choices of a path of four junctions, whose rows 1, 2 and 3 cost 2, 0 and 5, held to figures.

use himalowen::{check, over_figure, Finding, Refusal, Screened};

/// One block of three rows: from, to, price.
fn path() -> Vec<u8> {
    let rows: [[u32; 3]; 3] = [[1, 2, 2], [2, 3, 0], [3, 4, 5]];
    let mut file = vec![4, 0, 1, 0, 12, 0, 0, 0, 24, 0, 0, 0];
    for [from, to, price] in rows {
        file.extend([from as u8, 0, to as u8, 0]);
        file.extend(price.to_le_bytes());
    }
    file
}

fn screened(choice: &[u32], figure: u32) -> (bool, usize) {
    let Screened { over, read } = over_figure(&path(), choice, figure).expect("a choice");
    (over, read)
}

#[test]
fn a_choice_is_not_over_its_total_but_over_less() {
    assert_eq!(screened(&[1, 2, 3], 7), (false, 3));
    assert_eq!(screened(&[1, 2, 3], 6), (true, 3));
    assert_eq!(screened(&[1, 2, 3], u32::MAX), (false, 3));
}

#[test]
fn reading_stops_where_the_figure_is_passed() {
    assert_eq!(screened(&[1, 2, 3], 1), (true, 1));
    assert_eq!(screened(&[1, 2, 3], 2), (true, 3));
    assert_eq!(screened(&[2, 3], 0), (true, 2));
}

#[test]
fn no_rows_and_rows_that_cost_nothing_are_within_0() {
    assert_eq!(screened(&[], 0), (false, 0));
    assert_eq!(screened(&[2], 0), (false, 1));
}

#[test]
fn a_choice_need_not_join() {
    assert_eq!(check(&path(), &[1, 3]), Ok(Finding::Misses(0b1100)));
    assert_eq!(screened(&[1, 3], 7), (false, 2));
    assert_eq!(screened(&[1, 3], 6), (true, 2));
}

#[test]
fn a_list_that_is_no_choice_is_refused() {
    let refused = |number| Err(Refusal { number, row: 0 });
    assert_eq!(over_figure(&path(), &[2, 1], 0), refused(10));
    assert_eq!(over_figure(&path(), &[1, 4], 0), refused(10));
    assert_eq!(over_figure(&path()[..3], &[2, 1], 0), refused(2));
}
