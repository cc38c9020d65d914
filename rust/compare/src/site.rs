//! What each call must leave of a site, by the oracle.

use halls::{random_hall, Random};
use oracle::{site_admit, site_in, site_start, Hall, Site, Sited, FEW, SITE_PLACES, SMALL};

use crate::expect::{same, Outcome};
use crate::{Lists, Places, Planner};

/// A history from a start, with this hall and small ones among others; then this hall on a sound site that no start has led to,
/// and on random numbers.
pub fn sites(planner: &Planner, file: &[u8], seed: u64) -> Outcome {
    let mut random = Random::new(seed);
    history(planner, file, &mut random)?;
    admissions(planner, &mut sound_site(&mut random), file, &mut random)?;
    let limit = random.pick(&[2, 9, 257, 2_049, 1 << 32]);
    admit(planner, &mut [(); SITE_PLACES].map(|_| random.below(limit) as u32), file)
}

fn history(planner: &Planner, file: &[u8], random: &mut Random) -> Outcome {
    let few = random.within(0, 24) as u32;
    let stock = random.pick(&[few, few, few, 2_048, 2_048, 2_049, u32::MAX]);
    let mut site = [0x5555_5555; SITE_PLACES];
    let reply = (planner.start)(stock, &mut site);
    left("a start", (reply, &site), site_start(stock))?;
    for _ in 0..12 {
        let drawn = random_hall(6, 10, random.word());
        let file = random.pick(&[file, &drawn, &drawn, &drawn[..3]]);
        admissions(planner, &mut site, file, random)?;
    }
    Ok(())
}

/// On a sound site, after one on a copy that is damaged.
fn admissions(planner: &Planner, site: &mut Places, file: &[u8], random: &mut Random) -> Outcome {
    if random.below(2) == 0 {
        mark_unused(site, random);
    }
    admit(planner, &mut damaged(*site, random), file)?;
    admit(planner, site, file)
}

fn admit(planner: &Planner, site: &mut Places, file: &[u8]) -> Outcome {
    let expected = site_admit(site, file, |hall| plan(planner, file, hall));
    let reply = (planner.admit)(file, site);
    left("an admission", (reply, site), expected)
}

/// By trying; of a hall that is not small, the rows' call's.
fn plan(planner: &Planner, file: &[u8], hall: &Hall) -> Vec<u32> {
    if hall.n <= SMALL && hall.rows.len() <= FEW {
        return oracle::first_choice(hall).0;
    }
    let mut lent = Lists::enough();
    let [_, _, chosen, _] = (planner.rows)(file, &mut lent);
    lent.rows[..chosen as usize].to_vec()
}

fn left(what: &str, (reply, site): (Sited, &Places), (expected, places): (Sited, Vec<u32>)) -> Outcome {
    same(what, reply, expected)?;
    match (0..SITE_PLACES).find(|&place| site[place] != places[place]) {
        Some(place) => same(&format!("place {place} after {what}"), site[place], places[place]),
        None => Ok(()),
    }
}

/// Up to 8 lists of up to 256 rows, and some kits left.
fn sound_site(random: &mut Random) -> Places {
    let shares: &[usize] = random.pick(&[&[16], &[0, 1, 8, 16]]);
    let plan = |random: &mut Random| -> Vec<u32> {
        let of_16 = random.pick(shares);
        (1..=256).filter(|_| random.below(16) < of_16).collect()
    };
    let plans: Vec<Vec<u32>> = (0..random.within(0, 8)).map(|_| plan(random)).collect();
    let opened: usize = plans.iter().map(Vec::len).sum();
    let most = random.pick(&[0, 24, 2_048]).min(2_048 - opened);
    let left = random.within(0, most);
    let site = Site { stock: (left + opened) as u32, left: left as u32, plans };
    site.places().try_into().expect("a site's places")
}

/// Some number in every place that no plan fills.
fn mark_unused(site: &mut Places, random: &mut Random) {
    let plans = site_in(site).plans;
    let mut mark = || random.within(1, 257) as u32;
    let (lengths, rows) = site[3..].split_at_mut(8);
    lengths[plans.len()..].fill_with(&mut mark);
    for (k, rows) in rows.chunks_mut(256).enumerate() {
        let filled = plans.get(k).map_or(0, Vec::len);
        rows[filled..].fill_with(&mut mark);
    }
}

/// With a telling number as its stock, kits left, number of halls, one of its lengths or a row; at times the kits left are made
/// to add up, modulo 2^32.
fn damaged(mut site: Places, random: &mut Random) -> Places {
    let (length, any) = (random.within(3, 10), random.below(256));
    let row = 11 + 256 * random.below(8) + random.pick(&[0, 1, 2, any, 255]);
    let place = random.pick(&[0, 1, 2, length, row]);
    let (own, word) = (site[place], random.word() as u32);
    let less_or_more = random.pick(&[own.wrapping_sub(1), own.wrapping_add(1)]);
    site[place] = random.pick(&[less_or_more, less_or_more, 0, 8, 9, 256, 257, 2_048, 2_049, u32::MAX, word]);
    if random.below(2) == 0 {
        let opened = site_in(&site).plans.iter().flatten().count() as u32;
        site[1] = site[0].wrapping_sub(opened);
    }
    site
}
