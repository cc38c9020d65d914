//! Each fault is found in a claim that has it.

use oracle::{faults, Claim, Hall, Row};

fn hall(n: u64, rows: &[(u64, u64, u64)]) -> Hall {
    Hall { n, rows: rows.iter().map(|&(from, to, price)| Row { from, to, price, fixed: false }).collect() }
}

/// 1>2:3, 2>3:1, 1>3:4, whose plan opens row 3.
fn printed() -> Hall {
    hall(3, &[(1, 2, 3), (2, 3, 1), (1, 3, 4)])
}

const RIGHT: Claim = Claim { rows: &[3], shores: &[4, 6], weights: &[1, 3], levels: &[0, 3, 4], total: 4 };

#[test]
fn a_right_claim_has_no_fault() {
    assert!(faults(&printed(), &RIGHT).is_empty());
}

#[test]
fn each_fault_is_found() {
    let claims = [
        ("the rows are no choice", Claim { rows: &[2, 1], ..RIGHT }),
        ("the rows are no choice", Claim { rows: &[4], ..RIGHT }),
        ("the rows do not join", Claim { rows: &[1], ..RIGHT }),
        ("the total is not the rows' total", Claim { total: 5, ..RIGHT }),
        ("shores and weights differ in number", Claim { weights: &[1], ..RIGHT }),
        ("there are more than 2n - 3 cuts", Claim { shores: &[4, 4, 6, 6], weights: &[1, 1, 1, 1], ..RIGHT }),
        ("a shore is no directed cut's", Claim { shores: &[2, 6], ..RIGHT }),
        ("a shore is no directed cut's", Claim { shores: &[4, 7], ..RIGHT }),
        ("the shores do not ascend", Claim { shores: &[6, 4], weights: &[3, 1], ..RIGHT }),
        ("a weight is 0", Claim { weights: &[0, 4], ..RIGHT }),
        ("a load is over the price", Claim { weights: &[2, 2], ..RIGHT }),
        ("the weights do not add up to the total", Claim { weights: &[1, 2], ..RIGHT }),
        ("a chosen row's load is under its price", Claim { weights: &[1, 2], ..RIGHT }),
        ("a listed shore is not tight", Claim { rows: &[1, 2, 3], ..RIGHT }),
        ("the levels are not one for each junction", Claim { levels: &[0, 3], ..RIGHT }),
        ("a level is wrong", Claim { levels: &[0, 3, 3], ..RIGHT }),
    ];
    for (fault, claim) in claims {
        assert!(faults(&printed(), &claim).contains(&fault), "{fault}");
    }
}

#[test]
fn fixed_rows_bear_any_load_and_are_in_no_choice() {
    let mut shortcut = printed();
    shortcut.rows[2] = Row { from: 1, to: 3, price: 0, fixed: true };
    let right = Claim { rows: &[1, 2], ..RIGHT };
    assert!(faults(&shortcut, &right).is_empty());
    assert_eq!(faults(&shortcut, &RIGHT), ["the rows are no choice"]);
    assert_eq!(faults(&shortcut, &Claim { rows: &[1, 2, 3], ..right }), ["the rows are no choice"]);
    shortcut.rows[2].fixed = false;
    assert_eq!(faults(&shortcut, &right), ["a load is over the price"]);
}

#[test]
fn crossing_shores_are_found() {
    let diamond = hall(4, &[(1, 2, 1), (1, 3, 1), (2, 4, 1), (3, 4, 1)]);
    let claim =
        Claim { rows: &[1, 2, 3], shores: &[0b1010, 0b1100], weights: &[1, 1], levels: &[0, 1, 1, 2], total: 3 };
    assert!(faults(&diamond, &claim).contains(&"two shores cross"));
}
