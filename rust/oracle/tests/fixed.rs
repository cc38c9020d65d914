//! Fixed rows: what is refused because of them, in which order, and what is planned beside them.

use halls::{all_halls, hall_file, random_hall, Row, FIXED};
use oracle::{check, first_choice, hall_in, has_fixed_cut, missed, tight, unfixed, Hall};

fn refusal(n: u16, rows: &[Row]) -> (u32, u32) {
    hall_in(&hall_file(n, rows)).map_or_else(|refusal| (refusal.number, refusal.row), |_| (0, 0))
}

#[test]
fn every_shore_and_every_junction_agree_on_fixed_cuts() {
    let drawn = (0..3_000).map(|seed| random_hall(7, 12, seed));
    for file in all_halls(2, 4, 1).chain(all_halls(3, 3, 1)).chain(all_halls(4, 3, 1)).chain(drawn) {
        let mut rows = Vec::new();
        let n = reader::read(&file, |row| rows.push(row)).expect("only 9 and 15 are left");
        let hall = Hall { n, rows };
        assert_eq!(has_fixed_cut(&hall), missed(&hall, &unfixed(&hall)).is_some(), "{hall:?}");
    }
}

#[test]
fn the_price_field_tells() {
    let refusals = [1_000_000, 1_000_001, FIXED - 1, FIXED].map(|field| refusal(2, &[(1, 2, 1), (1, 2, field)]));
    assert_eq!(refusals, [(0, 0), (8, 2), (8, 2), (0, 0)]);
    let hall = hall_in(&hall_file(2, &[(1, 2, 1_000_000), (1, 2, FIXED)])).unwrap();
    assert_eq!(hall.rows.iter().map(|row| (row.price, row.fixed)).collect::<Vec<_>>(), [(1_000_000, false), (0, true)]);
}

#[test]
fn the_order_of_refusals() {
    assert_eq!(refusal(2, &[(1, 2, FIXED)]), (15, 0));
    assert_eq!(refusal(2, &[(1, 2, FIXED), (3, 3, FIXED)]), (6, 2));
    assert_eq!(refusal(2, &[(1, 2, FIXED), (1, 1, 1_000_001)]), (8, 2));
    assert_eq!(refusal(3, &[(1, 2, FIXED), (3, 3, FIXED)]), (9, 0));
    assert_eq!(refusal(4, &[(1, 2, 1), (2, 3, FIXED), (3, 4, 1)]), (15, 0));
    let closed = hall_file(2, &[(1, 2, FIXED)]);
    assert_eq!(check(&closed, &[2, 1]), [15, 0, 0, 0]);
    assert_eq!(tight(&closed, &[0], 7), [15, 0, 0, 0]);
}

#[test]
fn a_choice_has_no_fixed_row() {
    let file = hall_file(2, &[(1, 2, FIXED), (1, 2, 5), (1, 2, 3), (1, 2, FIXED)]);
    for choice in [&[1][..], &[4], &[1, 2], &[2, 4], &[1, 2, 3, 4]] {
        assert_eq!(check(&file, choice), [10, 0, 0, 0], "{choice:?}");
        assert_eq!(tight(&file, choice, 1), [10, 0, 0, 0], "{choice:?}");
    }
    assert_eq!(check(&file, &[2, 3]), [0, 0, 1, 0]);
    assert_eq!(check(&file, &[]), [0, 0, 2, 0b10]);
}

#[test]
fn first_choices_beside_fixed_rows() {
    let halls: [(u16, &[Row], &[u32], u64); 7] = [
        (1, &[(1, 1, FIXED)], &[], 0),
        (2, &[(1, 2, FIXED), (1, 2, 7)], &[2], 7),
        (2, &[(1, 2, FIXED), (1, 2, 0), (1, 2, 0)], &[2], 0),
        (2, &[(1, 2, FIXED), (2, 1, FIXED)], &[], 0),
        (3, &[(1, 2, 3), (2, 3, 1), (1, 3, FIXED)], &[1, 2], 4),
        (3, &[(1, 2, FIXED), (2, 3, FIXED), (1, 3, 9)], &[3], 9),
        (4, &[(1, 2, FIXED), (2, 3, FIXED), (3, 1, FIXED), (2, 4, 2), (3, 4, FIXED), (4, 4, FIXED)], &[4], 2),
    ];
    for (n, rows, first, total) in halls {
        let hall = hall_in(&hall_file(n, rows)).unwrap();
        assert_eq!(first_choice(&hall), (first.to_vec(), total), "{rows:?}");
    }
}
