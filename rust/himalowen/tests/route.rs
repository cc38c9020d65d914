//! Routes through a path of four junctions, whose rows 1, 2 and 3 run upward.

use himalowen::{check, route, route_into, Finding, Refusal, Way, ROUTE_PLACES};

const PATH: &[u8] = include_bytes!("../../../samples/path.hall");

fn refused(number: u32) -> Refusal {
    Refusal { number, row: 0 }
}

#[test]
fn forward_and_backward() {
    assert_eq!(route(PATH, &[1, 2, 3], 1, 4), Ok(Way::Route(vec![1, 2, 3])));
    assert_eq!(route(PATH, &[1, 2, 3], 4, 2), Ok(Way::Route(vec![-3, -2])));
    assert_eq!(route(PATH, &[1, 2, 3], 3, 3), Ok(Way::Route(vec![])));
}

#[test]
fn only_the_first_places_are_written() {
    let mut rows = [77; ROUTE_PLACES + 1];
    assert_eq!(route_into(PATH, &[1, 2, 3], 3, 1, &mut rows), Ok(Way::Route(2)));
    assert_eq!(rows[..2], [-2, -1]);
    assert!(rows[2..].iter().all(|&row| row == 77));
}

#[test]
fn a_miss_and_refusals_write_nothing() {
    let mut rows = [77; ROUTE_PLACES];
    assert_eq!(check(PATH, &[1, 3]), Ok(Finding::Misses(0b1100)));
    assert_eq!(route_into(PATH, &[1, 3], 1, 1, &mut rows), Ok(Way::Misses(0b1100)));
    assert_eq!(route_into(PATH, &[1, 3], 0, 1, &mut rows), Err(refused(11)));
    assert_eq!(route_into(PATH, &[1, 2, 3], 1, 5, &mut rows), Err(refused(11)));
    assert_eq!(route_into(PATH, &[2, 1], 0, 1, &mut rows), Err(refused(10)));
    assert_eq!(route_into(&PATH[..3], &[2, 1], 0, 1, &mut rows), Err(refused(2)));
    assert_eq!(route_into(&PATH[..3], &[2, 1], 0, 1, &mut rows[1..]), Err(refused(1)));
    assert_eq!(rows, [77; ROUTE_PLACES]);
}
