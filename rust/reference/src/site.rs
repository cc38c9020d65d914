//! Up to 8 halls on one stock of kits, as an array: stock, kits left, number of halls, 8 lengths, 8 times 256 rows.

use reader::Refusal;

use crate::{hall, planner, ROW_PLACES, SITE_PLACES};

const MOST_KITS: u32 = 2_048;
const MOST_HALLS: usize = 8;

const LEFT: usize = 1;
const HALLS: usize = 2;
const LENGTHS: usize = 3;
const ROWS: usize = LENGTHS + MOST_HALLS;

/// A site of so many kits and no hall; where they are too many, of none.
pub fn site_start_into(stock: u32, site: &mut [u32; SITE_PLACES]) -> Result<(), Refusal> {
    site.fill(0);
    if stock > MOST_KITS {
        return Err(Refusal::new(12));
    }
    site[..HALLS].fill(stock);
    Ok(())
}

/// Puts the first joining choice of a hall behind the plans of a site.
pub fn site_admit_into(file: &[u8], site: &mut [u32; SITE_PLACES]) -> Result<(), Refusal> {
    if !is_sound(site) {
        return Err(Refusal::new(12));
    }
    let hall = hall::read(file)?;
    if site[HALLS] as usize == MOST_HALLS {
        return Err(Refusal::new(13));
    }
    let (chosen, _) = planner::rows(&hall);
    if chosen.len() > site[LEFT] as usize {
        return Err(Refusal::new(14));
    }
    put(site, &chosen);
    clear_unused(site);
    Ok(())
}

fn is_sound(site: &[u32; SITE_PLACES]) -> bool {
    let [stock, left, halls, ..] = *site;
    if stock > MOST_KITS || halls as usize > MOST_HALLS {
        return false;
    }
    let mut kits = u64::from(left);
    for (&length, rows) in site[LENGTHS..ROWS].iter().zip(site[ROWS..].chunks(ROW_PLACES)).take(halls as usize) {
        if !rows.get(..length as usize).is_some_and(ascends) {
            return false;
        }
        kits += u64::from(length);
    }
    kits == stock.into()
}

/// Strictly, from 1 to 256.
fn ascends(rows: &[u32]) -> bool {
    let mut least = 1;
    for &row in rows {
        if row < least || row > 256 {
            return false;
        }
        least = row + 1;
    }
    true
}

/// Behind the other plans; its rows count from 0.
fn put(site: &mut [u32; SITE_PLACES], plan: &[usize]) {
    let halls = site[HALLS] as usize;
    site[LEFT] -= plan.len() as u32;
    site[HALLS] += 1;
    site[LENGTHS + halls] = plan.len() as u32;
    for (place, &row) in site[ROWS + ROW_PLACES * halls..].iter_mut().zip(plan) {
        *place = row as u32 + 1;
    }
}

/// Writes 0 where no plan has a place.
fn clear_unused(site: &mut [u32; SITE_PLACES]) {
    let halls = site[HALLS] as usize;
    let (head, rows) = site.split_at_mut(ROWS);
    head[LENGTHS + halls..].fill(0);
    for (&length, rows) in head[LENGTHS..].iter().zip(rows.chunks_mut(ROW_PLACES)) {
        rows[length as usize..].fill(0);
    }
}
