//! Sites: what numbers stand for, which are sound, and what a start and an admission leave.

use halls::{hall_file, FIXED};
use oracle::{first_choice, site_admit, site_in, site_start, Hall, Site, SITE_PLACES};

/// A path of so many junctions, whose plan opens every row.
fn path(n: u16) -> Vec<u8> {
    hall_file(n, &(1..n).map(|j| (j, j + 1, 1)).collect::<Vec<_>>())
}

/// One for each number of a refusal that a file may have.
fn refused_files() -> [(Vec<u8>, [u64; 2]); 8] {
    [
        (vec![1, 0, 0], [2, 0]),
        (hall_file(65, &[]), [3, 0]),
        (hall_file(2, &[(1, 2, 1)])[..12].to_vec(), [4, 0]),
        (hall_file(2, &[(1, 2, 1); 257]), [5, 0]),
        (hall_file(2, &[(1, 2, 1), (1, 3, 1)]), [6, 2]),
        (hall_file(2, &[(1, 2, 1_000_001)]), [8, 1]),
        (hall_file(2, &[]), [9, 0]),
        (hall_file(2, &[(1, 2, FIXED)]), [15, 0]),
    ]
}

fn by_trying(hall: &Hall) -> Vec<u32> {
    first_choice(hall).0
}

fn unasked(_: &Hall) -> Vec<u32> {
    panic!("the plan makes no difference")
}

/// The places of a start and then of admissions, none of which is refused.
fn history(stock: u32, files: &[Vec<u8>]) -> Vec<u32> {
    files.iter().fold(site_start(stock).1, |places, file| {
        let (reply, places) = site_admit(&places, file, by_trying);
        assert_eq!(reply, [0, 0]);
        places
    })
}

/// With other numbers in some places.
fn with(places: &[u32], numbers: &[(usize, u32)]) -> Vec<u32> {
    let mut places = places.to_vec();
    numbers.iter().for_each(|&(place, number)| places[place] = number);
    places
}

#[test]
fn a_start_has_its_kits_or_none() {
    let zero = [0; SITE_PLACES];
    for stock in [0, 1, 2048] {
        assert_eq!(site_start(stock), ([0, 0], with(&zero, &[(0, stock), (1, stock)])));
    }
    for stock in [2049, u32::MAX] {
        assert_eq!(site_start(stock), ([12, 0], zero.to_vec()));
    }
}

#[test]
fn plans_stand_in_the_order_of_admission() {
    let cycle = hall_file(2, &[(1, 2, 1), (2, 1, 1)]);
    let last_row = hall_file(2, &[(1, 2, FIXED), (1, 2, 5), (1, 2, 3)]);
    let places = history(12, &[path(4), cycle, last_row]);
    assert_eq!(places[..14], [12, 8, 3, 3, 0, 1, 0, 0, 0, 0, 0, 1, 2, 3]);
    assert_eq!(places[523], 3);
    assert_eq!((places.len(), places.iter().filter(|&&number| number != 0).count()), (SITE_PLACES, 9));
    let plans = vec![vec![1, 2, 3], vec![], vec![3]];
    assert_eq!(site_in(&places), Site { stock: 12, left: 8, plans });
}

#[test]
fn sound_sites_are_read_off_their_places() {
    let list = |rows: std::ops::RangeInclusive<u32>| rows.collect::<Vec<u32>>();
    let plans = [vec![], vec![list(1..=256); 8], vec![list(256..=256), vec![], list(7..=9)], vec![vec![]; 8]];
    for plans in plans {
        let opened = plans.iter().flatten().count() as u32;
        for left in [0, 2048 - opened] {
            let site = Site { stock: left + opened, left, plans: plans.clone() };
            assert!(site.is_sound());
            assert_eq!(site_in(&site.places()), site);
        }
    }
}

#[test]
fn what_makes_a_site_unsound() {
    let two_halls = history(12, &[path(4), path(3)]);
    let without_rows = history(0, &vec![path(1); 8]);
    let is_sound = |places: &[u32], numbers: &[(usize, u32)]| site_in(&with(places, numbers)).is_sound();
    for (place, number) in [
        (0, 11),
        (0, 13),
        (1, 6),
        (1, 8),
        (1, u32::MAX),
        (2, 1),
        (2, u32::MAX),
        (3, 2),
        (3, 4),
        (3, 257),
        (3, u32::MAX),
        (4, 0),
        (11, 0),
        (12, 1),
        (13, 1),
        (13, 257),
        (13, u32::MAX),
        (267, 2),
    ] {
        assert!(!is_sound(&two_halls, &[(place, number)]), "{number} in place {place}");
    }
    for (place, number) in [(2, 3), (2, 8), (5, 9), (13, 4), (13, 256), (14, 4), (268, 256), (269, 1), (2058, 7)] {
        assert!(is_sound(&two_halls, &[(place, number)]), "{number} in place {place}");
    }
    assert!(is_sound(&two_halls, &[(0, 2048), (1, 2043)]));
    assert!(!is_sound(&two_halls, &[(0, 2049), (1, 2044)]));
    assert!(is_sound(&two_halls, &[(3, 4), (14, 4), (1, 6)]));
    assert!(is_sound(&without_rows, &[]));
    assert!(!is_sound(&without_rows, &[(2, 9)]));
}

#[test]
fn the_order_of_refusals() {
    let full = history(24, &vec![path(4); 8]);
    let unsound = with(&full, &[(1, 1)]);
    for (file, reply) in refused_files() {
        assert_eq!(site_admit(&unsound, &file, unasked), ([12, 0], unsound.clone()));
        assert_eq!(site_admit(&full, &file, unasked), (reply, full.clone()));
    }
    assert_eq!(site_admit(&unsound, &path(4), unasked), ([12, 0], unsound.clone()));
    assert_eq!(site_admit(&full, &path(4), unasked), ([13, 0], full.clone()));
    assert_eq!(site_admit(&full, &path(1), unasked), ([13, 0], full));
    let two_left = history(5, &[path(4)]);
    assert_eq!(site_admit(&two_left, &path(4), by_trying), ([14, 0], two_left.clone()));
    assert_eq!(site_admit(&two_left, &path(3), by_trying), ([0, 0], history(5, &[path(4), path(3)])));
}

#[test]
fn other_places_do_not_matter_and_are_0_afterwards() {
    let places = history(12, &[path(4)]);
    let marks = [(4, 9), (10, u32::MAX), (14, 4), (266, 77), (267, 1), (268, 2), (269, 3), (2058, 5)];
    let marked = with(&places, &marks);
    assert_eq!(site_in(&marked), site_in(&places));
    assert_eq!(site_admit(&marked, &path(3), by_trying), site_admit(&places, &path(3), by_trying));
    assert_eq!(site_admit(&marked, &path(11), by_trying), ([14, 0], marked.clone()));
}
