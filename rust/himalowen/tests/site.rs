//! Sites for a path, whose plan opens rows 1, 2 and 3, a hall whose plan opens row 3 alone, and one without rows.

use himalowen::{site_admit_into, site_start_into, Refusal, Site, SITE_PLACES};

const PATH: &[u8] = include_bytes!("../../../samples/path.hall");
const THREE_ROWS: &[u8] = include_bytes!("../../../samples/three-rows.hall");
const ONE_JUNCTION: &[u8] = &[1, 0, 0, 0];

fn refused<T>(number: u32) -> Result<T, Refusal> {
    Err(Refusal { number, row: 0 })
}

/// The path's plan and seven others without rows.
fn full(stock: u32) -> Site {
    let mut site = Site::start(stock).expect("few kits");
    for file in [PATH].into_iter().chain([ONE_JUNCTION; 7]) {
        site.admit(file).expect("up to 8 halls");
    }
    site
}

#[test]
fn plans_stand_in_the_order_of_admission() {
    let mut site = Site::start(5).expect("few kits");
    assert_eq!(site.admit(PATH), Ok(&[1, 2, 3][..]));
    assert_eq!(site.admit(ONE_JUNCTION), Ok(&[][..]));
    assert_eq!(site.admit(THREE_ROWS), Ok(&[3][..]));
    assert_eq!((site.stock(), site.left()), (5, 1));
    assert_eq!(site.plans().collect::<Vec<_>>(), [&[1, 2, 3][..], &[], &[3]]);
    let mut places = [0; SITE_PLACES];
    places[..6].copy_from_slice(&[5, 1, 3, 3, 0, 1]);
    places[11..14].copy_from_slice(&[1, 2, 3]);
    places[523] = 3;
    assert_eq!(site.places(), &places);
}

#[test]
fn the_order_of_refusals() {
    let unsound = [[0, 4], [1, 1], [2, 9], [3, 257], [11, 2]];
    for [place, number] in unsound {
        let mut places = *full(3).places();
        places[place as usize] = number;
        let mut site = Site::from_places(places);
        assert_eq!(site.admit(&PATH[..3]), refused(12));
        assert_eq!(site.places(), &places);
    }
    let mut site = full(3);
    assert_eq!(site.admit(&PATH[..3]), refused(2));
    assert_eq!(site.admit(PATH), refused(13));
    assert_eq!(site.admit(ONE_JUNCTION), refused(13));
    assert_eq!(site, full(3));
    let mut site = Site::start(2).expect("few kits");
    assert_eq!(site.admit(PATH), refused(14));
    assert_eq!(Ok(site), Site::start(2));
}

#[test]
fn other_places_may_hold_anything_and_are_0_afterwards() {
    let mut places = *Site::start(4).expect("few kits").places();
    places[3..].fill(77);
    let marked = places;
    assert_eq!(site_admit_into(&PATH[..3], &mut places), refused(2));
    assert_eq!(places, marked);
    assert_eq!(site_admit_into(PATH, &mut places), Ok(()));
    let mut site = Site::start(4).expect("few kits");
    assert_eq!(site.admit(PATH), Ok(&[1, 2, 3][..]));
    assert_eq!(&places, site.places());
}

#[test]
fn a_start_writes_every_place() {
    let mut places = [77; SITE_PLACES];
    assert_eq!(site_start_into(2_049, &mut places), refused(12));
    assert_eq!(places, [0; SITE_PLACES]);
    let mut places = [77; SITE_PLACES];
    assert_eq!(site_start_into(2_048, &mut places), Ok(()));
    assert_eq!((places[..2].to_vec(), places[2..].iter().max()), (vec![2_048; 2], Some(&0)));
    assert_eq!(Site::start(u32::MAX), refused(12));
}

#[test]
fn any_numbers_may_be_handed_in() {
    for number in [9, 257, u32::MAX] {
        let mut site = Site::from_places([number; SITE_PLACES]);
        let rows = number.min(256) as usize;
        assert_eq!(site.plans().map(<[u32]>::len).collect::<Vec<_>>(), [rows; 8]);
        assert_eq!(site.admit(PATH), refused(12));
        assert_eq!(site.places(), &[number; SITE_PLACES]);
    }
}
