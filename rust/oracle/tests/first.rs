//! The first choice is shown to be first, no other is, and no offer of cuts shows what is not so.

use halls::{full_hall, hall_file, random_hall, FIXED, KINDS};
use oracle::{check, first_choice, hall_in, judge, unshown};

type Cuts = Vec<(u64, u64)>;

type Offer<'a> = &'a dyn Fn(&[u64]) -> Cuts;

fn cuts_at(file: &[u8], costs: &[u64]) -> Cuts {
    reference::cuts_at(file, costs).expect("the hall is accepted")
}

#[test]
fn of_all_joining_choices_the_first_alone_is_shown() {
    for seed in 0..300 {
        let file = random_hall(5, 8, seed);
        let Ok(hall) = hall_in(&file) else { continue };
        let (first, _) = first_choice(&hall);
        for code in 0..1u32 << hall.rows.len() {
            let choice: Vec<u32> = (1..=hall.rows.len() as u32).filter(|i| code >> (i - 1) & 1 == 1).collect();
            if check(&file, &choice)[2] == 1 {
                let shown = unshown(&hall, &choice, |costs| cuts_at(&file, costs)).is_empty();
                assert_eq!(shown, choice == first, "{choice:?} of {hall:?}");
            }
        }
    }
}

#[test]
fn a_fixed_row_makes_no_choice_come_before() {
    let file = hall_file(4, &[(1, 2, FIXED), (1, 4, 1), (3, 2, 1), (3, 4, 1)]);
    let hall = hall_in(&file).unwrap();
    assert!(unshown(&hall, &[2, 3], |costs| cuts_at(&file, costs)).is_empty());
}

#[test]
fn a_tie_that_comes_later_is_not_shown() {
    let file = hall_file(4, &[(1, 2, 1), (1, 4, 1), (3, 2, 1), (3, 4, 1)]);
    let hall = hall_in(&file).unwrap();
    assert!(unshown(&hall, &[1, 4], |costs| cuts_at(&file, costs)).is_empty());
    let faults = unshown(&hall, &[2, 3], |costs| cuts_at(&file, costs));
    assert_eq!(faults, ["not shown that no choice with row 1 comes before"]);
}

#[test]
fn no_offer_is_believed() {
    let file = full_hall(KINDS[0], 8, 0);
    let hall = hall_in(&file).unwrap();
    let every_row: Vec<u32> = (1..=hall.rows.len() as u32).collect();
    let offers: [Offer; 4] = [
        &|_| vec![],
        &|_| vec![(0b1000_0000, u64::MAX), (0b1000_0000, u64::MAX)],
        &|_| vec![(0b0000_0001, 1 << 40)],
        &|costs| cuts_at(&file, costs).into_iter().map(|(shore, weight)| (shore, 2 * weight)).collect(),
    ];
    for offer in offers {
        assert!(!unshown(&hall, &every_row, offer).is_empty());
    }
}

#[test]
fn a_changed_list_is_not_right() {
    let file = hall_file(3, &[(1, 2, 3), (2, 3, 1), (1, 3, 4)]);
    let right = "HALL 3 3\nOPEN 1\n3 1 3 4\nTOTAL 4\nCUTS 2\n1 3\n3 2 3\nLEVELS 0 3 4\n";
    let faults = |text: &str| judge(&file, text, |costs| cuts_at(&file, costs));
    assert!(faults(right).is_empty());
    for at in 0..right.len() {
        let mut bytes = right.as_bytes().to_vec();
        bytes[at] ^= 1;
        assert!(!faults(&String::from_utf8_lossy(&bytes)).is_empty(), "byte {at}");
        assert!(!faults(&right[..at]).is_empty(), "the first {at} bytes");
    }
    assert!(!faults(&(right.to_string() + "\n")).is_empty());
    assert!(!faults("HALL 3 3\nOPEN 2\n1 1 2 3\n2 2 3 1\nTOTAL 4\nCUTS 2\n1 3\n3 2 3\nLEVELS 0 3 4\n").is_empty());
    assert!(!faults("REFUSED 9 0\n").is_empty());
    assert!(judge(&file[..9], "REFUSED 4 0\n", |_| vec![]).is_empty());
    assert!(!judge(&file[..9], "REFUSED 3 0\n", |_| vec![]).is_empty());
}
