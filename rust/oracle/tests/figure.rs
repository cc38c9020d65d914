//! Figures: what is over, how many rows tell, and which lists are refused first.

use halls::{hall_file, random_hall, FIXED};
use oracle::{hall_in, over_figure, sums, unfixed};

/// A path whose rows 1, 2 and 4 cost 2, 0 and 5; row 3 is fixed, beside row 2.
fn path() -> Vec<u8> {
    hall_file(4, &[(1, 2, 2), (2, 3, 0), (2, 3, FIXED), (3, 4, 5)])
}

#[test]
fn the_fewest_rows_that_pass_are_read() {
    let file = path();
    assert_eq!(sums(&file, &[1, 2, 4]), [0, 2, 2, 7]);
    for (figure, over, read) in [(0, 1, 1), (1, 1, 1), (2, 1, 3), (6, 1, 3), (7, 0, 3), (u32::MAX, 0, 3)] {
        assert_eq!(over_figure(&file, &[1, 2, 4], figure), [0, 0, over, read]);
    }
    assert_eq!(over_figure(&file, &[2], 0), [0, 0, 0, 1]);
    assert_eq!(over_figure(&file, &[], 0), [0, 0, 0, 0]);
}

#[test]
fn lists_that_are_no_choice_are_refused() {
    let file = path();
    for list in [&[2, 1][..], &[0], &[5], &[3], &[1, 1]] {
        assert_eq!(over_figure(&file, list, u32::MAX), [10, 0, 0, 0]);
        assert_eq!(sums(&file, list), []);
    }
    assert_eq!(over_figure(&file[..3], &[2, 1], 0), [2, 0, 0, 0]);
}

#[test]
fn the_rows_read_pass_exactly_if_all_do() {
    for seed in 0..1_000 {
        let file = random_hall(6, 10, seed);
        let Ok(hall) = hall_in(&file) else { continue };
        let choice = unfixed(&hall);
        let sums = sums(&file, &choice);
        for figure in sums.iter().flat_map(|&sum| [sum.saturating_sub(1), sum]) {
            let [.., over, read] = over_figure(&file, &choice, figure as u32);
            assert_eq!(over == 1, sums[read as usize] > figure);
            assert_eq!(over == 1, *sums.last().unwrap() > figure);
            assert!(over == 1 || read as usize == choice.len());
        }
    }
}
