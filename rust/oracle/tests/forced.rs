//! Each row's figures: trying, showing and forcing agree in small halls, those of the plain Rust are shown in full ones, and
//! every misfit is found.

use halls::{fixed_hall, full_hall, hall_file, looped_hall, random_hall, FIXED, KINDS};
use oracle::{
    figures_by_showing, figures_by_trying, figures_left, first_choice, hall_in, holds, misfigured, requoted, unfixed,
    Cheapest, Columns, Figured, Figures, Hall,
};

type Offer<'a> = &'a dyn Fn(&[u64]) -> Cheapest;

const NONE: u32 = 0xFFFF_FFFF;
const FIXED_ROW: u32 = 0xFFFF_FFFE;

fn plan_at(file: &[u8], costs: &[u64]) -> Cheapest {
    reference::plan_at(file, costs).expect("the hall is accepted")
}

fn marked() -> Columns {
    [vec![0x1111_1111; 256], vec![0x2222_2222; 257]]
}

/// The plain Rust's reply and lists.
fn answered(file: &[u8]) -> (Figured, Columns) {
    let [mut with, mut without] = marked();
    let reply = match reference::with_without_into(file, &mut with, &mut without) {
        Ok(filled) => [0, 0, filled as u64],
        Err(refusal) => [refusal.number.into(), refusal.row.into(), 0],
    };
    (reply, [with, without])
}

fn plan(file: &[u8]) -> (Vec<u32>, u64) {
    let mut rows = [0; 256];
    let planned = reference::plan_rows_into(file, &mut rows).expect("the hall is accepted");
    (rows[..planned.chosen].to_vec(), planned.total.into())
}

/// What is wrong with a reply and two lists of an accepted hall, or not shown of the listed rows.
fn faults(file: &[u8], (reply, left): &(Figured, Columns), rows: &[u32]) -> Vec<String> {
    match figures_left(file, &marked(), *reply, left) {
        Err(fault) => vec![fault],
        Ok(None) => vec!["the hall is refused".to_string()],
        Ok(Some((hall, figures))) => misfigured(&hall, &figures, &plan(file), rows, |costs| plan_at(file, costs)),
    }
}

/// A small hall's figures by its first choices with the row at price 0, and with it fixed.
fn by_forcing(file: &[u8], hall: &Hall, row: u32) -> Figures {
    let forced = |price| hall_in(&requoted(file, row, price)).ok().map(|hall| first_choice(&hall).1);
    let with = forced(0).expect("a price refuses no hall") + hall.rows[row as usize - 1].price;
    Figures::Totals { with, without: forced(FIXED.into()) }
}

/// Some directed cut has the row as its only one that is not fixed.
fn alone_in_a_cut(hall: &Hall, row: u32) -> bool {
    let enters = |i: u32, shore: u64| {
        let row = &hall.rows[i as usize - 1];
        !holds(shore, row.from) && holds(shore, row.to)
    };
    let leaves = |shore: u64| hall.rows.iter().any(|row| holds(shore, row.from) && !holds(shore, row.to));
    (1..(1 << hall.n) - 1)
        .any(|shore| !leaves(shore) && unfixed(hall).into_iter().filter(|&i| enters(i, shore)).eq([row]))
}

#[test]
fn trying_showing_and_forcing_agree() {
    let (mut needed, mut dearer, mut spare) = (0, 0, 0);
    for seed in 0..2_000 {
        let file = random_hall(6, 10, seed);
        let Ok(hall) = hall_in(&file) else { continue };
        let figures = figures_by_trying(&hall);
        assert_eq!(figures_left(&file, &marked(), answered(&file).0, &answered(&file).1).unwrap().unwrap().1, figures);
        for (row, &given) in (1..).zip(&figures) {
            let Figures::Totals { with, without } = given else {
                assert!(hall.rows[row as usize - 1].fixed);
                continue;
            };
            assert_eq!(by_forcing(&file, &hall, row), given);
            assert_eq!(figures_by_showing(&hall, row, &|costs: &[u64]| plan_at(&file, costs)), Some(given));
            assert_eq!(without.is_none(), alone_in_a_cut(&hall, row));
            needed += u32::from(without.is_none());
            dearer += u32::from(without.is_some_and(|without| without > with));
            spare += u32::from(without.is_some_and(|without| without < with));
        }
        assert_eq!(misfigured(&hall, &figures, &first_choice(&hall), &[], |_| unreachable!()), [""; 0]);
    }
    assert!(needed > 1_000 && dearer > 500 && spare > 1_000, "{needed} {dearer} {spare}");
}

#[test]
fn figures_of_full_halls_are_shown() {
    for (draw, seed) in [(full_hall as fn(_, _, _) -> _, 0), (looped_hall, 1), (fixed_hall, 2)] {
        for kind in KINDS {
            let file: Vec<u8> = draw(kind, 16, seed);
            let rows = unfixed(&hall_in(&file).unwrap());
            assert_eq!(faults(&file, &answered(&file), &rows), [""; 0]);
        }
    }
}

/// From 1 to 3 by rows 1 and 2 or by row 3, beside which row 4 is fixed; row 5 is a loop, and row 6 alone leads to 4.
fn drawn_by_hand() -> Vec<u8> {
    hall_file(4, &[(1, 2, 3), (2, 3, 1), (1, 3, 5), (1, 3, FIXED), (2, 2, 5), (3, 4, 2)])
}

#[test]
fn a_hall_drawn_by_hand() {
    let file = drawn_by_hand();
    let (reply, [with, without]) = answered(&file);
    assert_eq!(reply, [0, 0, 6]);
    assert_eq!(with[..6], [6, 6, 7, FIXED_ROW, 11, 6]);
    assert_eq!(without[..6], [7, 7, 6, FIXED_ROW, 6, NONE]);
    let totals = |with, without| Figures::Totals { with, without };
    let loops_and_needed = [Figures::Fixed, totals(11, Some(6)), totals(6, None)];
    let figures = [&[totals(6, Some(7)), totals(6, Some(7)), totals(7, Some(6))], &loops_and_needed[..]].concat();
    assert_eq!(figures_by_trying(&hall_in(&file).unwrap()), figures);
}

#[test]
fn what_is_wrong_is_named() {
    let file = drawn_by_hand();
    let hall = hall_in(&file).unwrap();
    let right = answered(&file);
    let cases: [(usize, u32, u32, &[&str]); 14] = [
        (1, 6, 7, &[]),
        (1, 7, 6, &["it is opened, and the total with it is not the plan's"]),
        (3, 6, 7, &["it is not opened, and the total without it is not the plan's"]),
        (3, 2, 6, &["the smaller total is not the plan's"]),
        (3, 8, 6, &[]),
        (
            3,
            7,
            NONE,
            &["the smaller total is not the plan's", "it is not opened, and the total without it is not the plan's"],
        ),
        (5, 6, 6, &["it is a loop, and the total with it is not the plan's and its price"]),
        (1, 6, NONE, &["whether every joining choice has it is told wrongly"]),
        (1, 6, 8, &[]),
        (6, 6, 256_000_001, &["whether every joining choice has it is told wrongly"]),
        (6, 6, 6, &["whether every joining choice has it is told wrongly"]),
        (4, 6, 6, &["it is fixed"]),
        (4, FIXED_ROW, NONE, &["it is fixed"]),
        (2, FIXED_ROW, FIXED_ROW, &["it is not fixed"]),
    ];
    for (row, with, without, expected) in cases {
        let (reply, mut left) = right.clone();
        (left[0][row - 1], left[1][row - 1]) = (with, without);
        let figures = figures_left(&file, &marked(), reply, &left).unwrap().unwrap().1;
        let faults = |rows: &[u32]| misfigured(&hall, &figures, &plan(&file), rows, |costs| plan_at(&file, costs));
        let named: Vec<String> = expected.iter().map(|fault| format!("row {row}: {fault}")).collect();
        assert_eq!(faults(&[]), named);
        let is_right = (reply, left) == right;
        assert_eq!(figures == figures_by_trying(&hall), is_right);
        if !hall.rows[row - 1].fixed {
            assert_eq!(faults(&[row as u32]).len(), named.len() + usize::from(!is_right));
        }
    }
}

#[test]
fn no_misfit_in_full_halls_stays_unfound() {
    let (mut exchanged, mut cheap, mut none) = (0, 0, 0);
    for (kind, seed) in KINDS.into_iter().zip(0..) {
        let file = fixed_hall(kind, 16, 3 * seed);
        let hall = hall_in(&file).unwrap();
        let (reply, right) = answered(&file);
        let opened = plan(&file).0;
        for (at, row) in hall.rows.iter().enumerate() {
            let number = at as u32 + 1;
            let (with, without) = (right[0][at], right[1][at]);
            let mut misfits = vec![];
            if row.fixed {
                misfits.extend([(0, 0), (with, NONE), (NONE, without)]);
            } else {
                misfits.extend([(without, with), (with - row.price as u32, without)]);
                misfits.extend([(with + 1, without), (with, without.wrapping_add(1)), (with, without - 1)]);
            }
            if opened.contains(&number) {
                misfits.push((with, NONE));
            }
            misfits.retain(|&misfit| misfit != (with, without));
            exchanged += u32::from(misfits.contains(&(without, with)));
            cheap += u32::from(row.price > 0);
            none += u32::from(misfits.contains(&(with, NONE)));
            for (with, without) in misfits {
                let mut left = right.clone();
                (left[0][at], left[1][at]) = (with, without);
                let shown = if row.fixed { vec![] } else { vec![number] };
                assert!(!faults(&file, &(reply, left), &shown).is_empty(), "{row:?}: {with} {without}");
            }
        }
    }
    assert!(exchanged > 50 && cheap > 50 && none > 20, "{exchanged} {cheap} {none}");
}

#[test]
fn what_else_a_call_leaves_is_held_to_its_reply() {
    let file = drawn_by_hand();
    let (reply, right) = answered(&file);
    let left = |reply: Figured, left: &Columns| figures_left(&file, &marked(), reply, left).map(|_| ());
    assert_eq!(left(reply, &right), Ok(()));
    for other in [[0, 0, 5], [0, 0, 7], [0, 1, 6], [15, 0, 0]] {
        assert!(left(other, &right).unwrap_err().starts_with("the reply is"));
    }
    for (list, at) in [(0, 6), (1, 6), (0, 255), (1, 256)] {
        let mut changed = right.clone();
        changed[list][at] ^= 1;
        assert_eq!(left(reply, &changed).unwrap_err(), "a place without a figure has changed");
    }
}

#[test]
fn refusals_leave_both_lists() {
    let file = drawn_by_hand();
    let closed = hall_file(2, &[(1, 2, FIXED)]);
    let short = |with, without| -> Columns { [vec![7; with], vec![8; without]] };
    let refused = [(&file[..3], marked(), 2), (&closed, marked(), 15)];
    let too_short = [(255, 256), (256, 255), (0, 0)].map(|(with, without)| (&file[..], short(with, without), 1));
    for (file, lent, number) in refused.into_iter().chain(too_short).chain([(&closed[..3], short(0, 256), 1)]) {
        assert!(matches!(figures_left(file, &lent, [number, 0, 0], &lent), Ok(None)));
        assert!(figures_left(file, &lent, [3, 0, 0], &lent).is_err());
        assert!(figures_left(file, &lent, [number, 1, 0], &lent).is_err());
        let mut changed = lent.clone();
        if let Some(place) = changed.iter_mut().flatten().next() {
            *place ^= 1;
            assert!(figures_left(file, &lent, [number, 0, 0], &changed).is_err());
        }
    }
}

#[test]
fn no_offer_is_believed() {
    let file = drawn_by_hand();
    let hall = hall_in(&file).unwrap();
    let offers: [Offer; 6] = [
        &|_| (vec![], vec![]),
        &|costs| (vec![1, 2], plan_at(&file, costs).1),
        &|costs| (vec![1, 2, 4, 6], plan_at(&file, costs).1),
        &|costs| (plan_at(&file, costs).0, vec![]),
        &|costs| (plan_at(&file, costs).0, vec![(0b1000, u64::MAX), (0b1000, u64::MAX)]),
        &|costs| (vec![1, 2, 3, 6], plan_at(&file, costs).1),
    ];
    for offer in offers {
        for row in [1, 2, 3, 5] {
            assert_eq!(figures_by_showing(&hall, row, &offer), None);
        }
    }
}
