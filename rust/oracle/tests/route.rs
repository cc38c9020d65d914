//! Routes: the two ways to find one agree, and what is answered in place of one, in which order.

use halls::{full_hall, hall_file, random_hall, Row, FIXED, KINDS};
use oracle::{check, first_routes, hall_in, missed, route, route_by_trying, unfixed};

/// Junctions, rows, choice, from, to, and the route.
type Case<'a> = (u16, &'a [Row], &'a [u32], u32, u32, &'a [i32]);

fn rows_between(file: &[u8], choice: &[u32], from: u32, to: u32) -> Vec<i32> {
    let (reply, rows) = route(file, choice, from, to);
    assert_eq!(reply, [0, 0, 4, 0, rows.len() as u64]);
    rows
}

#[test]
fn every_sequence_and_every_number_of_rows_agree() {
    for seed in 0..1_000 {
        let Ok(hall) = hall_in(&random_hall(6, 10, seed)) else { continue };
        for choice in [vec![], unfixed(&hall)] {
            if missed(&hall, &choice).is_some() {
                continue;
            }
            for from in 1..=hall.n {
                let first = first_routes(&hall, &choice, from);
                for to in 1..=hall.n {
                    assert_eq!(first[to as usize], Some(route_by_trying(&hall, &choice, from, to)), "{hall:?}");
                }
            }
        }
    }
}

#[test]
fn where_no_row_leads_there_is_no_route() {
    let hall = hall_in(&hall_file(3, &[(1, 2, 1), (1, 3, 1)])).unwrap();
    assert_eq!(first_routes(&hall, &[1], 2), [None, Some(vec![-1]), Some(vec![]), Some(vec![-1, 2])]);
    assert_eq!(first_routes(&hall, &[1], 3), [None, None, None, Some(vec![])]);
}

#[test]
fn the_row_numbers_tell_which_of_several_comes_first() {
    let cases: [Case; 6] = [
        (4, &[(3, 4, 1), (1, 2, 1), (1, 3, 1), (2, 4, 1), (4, 1, 1)], &[], 1, 4, &[2, 4]),
        (2, &[(1, 2, 5), (2, 1, 5)], &[1, 2], 2, 1, &[-1]),
        (2, &[(1, 2, 5), (2, 1, 5)], &[2], 2, 1, &[2]),
        (2, &[(1, 1, 0), (1, 2, 5), (1, 2, 0)], &[1, 3], 2, 1, &[-3]),
        (3, &[(1, 2, FIXED), (2, 3, FIXED), (1, 3, 9)], &[3], 1, 3, &[3]),
        (3, &[(1, 2, FIXED), (2, 3, FIXED), (1, 3, 9)], &[3], 2, 1, &[2, -3]),
    ];
    for (n, rows, choice, from, to, expected) in cases {
        assert_eq!(rows_between(&hall_file(n, rows), choice, from, to), expected, "{rows:?}");
    }
}

#[test]
fn the_longest_route() {
    let rows: Vec<Row> = (1..64).map(|j| (j, j + 1, 1)).collect();
    let choice: Vec<u32> = (1..64).collect();
    let file = hall_file(64, &rows);
    assert_eq!(rows_between(&file, &choice, 1, 64), (1..64).collect::<Vec<i32>>());
    assert_eq!(rows_between(&file, &choice, 64, 1), (-63..0).collect::<Vec<i32>>());
}

#[test]
fn the_order_of_refusals() {
    let turned_back = |number| ([number, 0, 0, 0, 0], vec![]);
    let path = hall_file(3, &[(1, 2, 2), (2, 3, 3)]);
    let beside = [(0, 1), (1, 0), (4, 1), (1, 4), (u32::MAX, 1), (1, u32::MAX), (0, 0)];
    for (from, to) in beside {
        assert_eq!(route(&path[..3], &[2, 1], from, to), turned_back(2));
        assert_eq!(route(&hall_file(2, &[(1, 2, FIXED)]), &[2, 1], from, to), turned_back(15));
        assert_eq!(route(&path, &[2, 1], from, to), turned_back(10));
        assert_eq!(route(&path, &[1, 2], from, to), turned_back(11));
        assert_eq!(route(&path, &[], from, to), turned_back(11));
    }
    assert_eq!(check(&path, &[1]), [0, 0, 2, 0b100]);
    for (from, to) in [(1, 1), (1, 2), (3, 1)] {
        assert_eq!(route(&path, &[1], from, to), ([0, 0, 2, 0b100, 0], vec![]));
    }
}

#[test]
fn a_junction_to_itself_is_the_empty_route() {
    for kind in KINDS {
        let file = full_hall(kind, 64, 0);
        let choice = unfixed(&hall_in(&file).unwrap());
        for junction in [1, 32, 64] {
            assert_eq!(rows_between(&file, &choice, junction, junction), [0; 0]);
        }
    }
}
