//! Several halls on one stock of kits: the site that any numbers stand for, whether it is sound, and what a start and an
//! admission leave.

use crate::{hall_in, Hall, Refusal};

/// Stock, kits left, number of halls, 8 lengths, 8 times 256 rows.
pub const SITE_PLACES: usize = 2059;

/// The stock at the start, the kits left, and the rows that each hall opens, in the order of admission.
#[derive(Clone, Debug, PartialEq, Eq)]
pub struct Site {
    pub stock: u32,
    pub left: u32,
    pub plans: Vec<Vec<u32>>,
}

/// The reply: number, row.
pub type Sited = [u64; 2];

/// The site that numbers stand for, with 0 past their end. Nine plans are too many and 257 numbers are no plan, whatever
/// follows, so no more are read.
pub fn site_in(places: &[u32]) -> Site {
    let number = |place: usize| places.get(place).copied().unwrap_or(0);
    let plan = |k: usize| (0..number(3 + k).min(257) as usize).map(|i| number(11 + 256 * k + i)).collect();
    Site { stock: number(0), left: number(1), plans: (0..number(2).min(9) as usize).map(plan).collect() }
}

impl Site {
    pub fn is_sound(&self) -> bool {
        let is_plan = |plan: &Vec<u32>| {
            plan.iter().all(|row| (1..=256).contains(row)) && plan.windows(2).all(|pair| pair[0] < pair[1])
        };
        let opened: usize = self.plans.iter().map(Vec::len).sum();
        self.stock <= 2048
            && self.plans.len() <= 8
            && self.plans.iter().all(is_plan)
            && self.left as usize + opened == self.stock as usize
    }

    /// A sound site's numbers, 0 where no plan has a place.
    pub fn places(&self) -> Vec<u32> {
        let padded = |numbers: &[u32], size: usize| [numbers, &vec![0; size - numbers.len()]].concat();
        let lengths: Vec<u32> = self.plans.iter().map(|plan| plan.len() as u32).collect();
        let rows: Vec<u32> = self.plans.iter().flat_map(|plan| padded(plan, 256)).collect();
        [vec![self.stock, self.left, lengths.len() as u32], padded(&lengths, 8), padded(&rows, 8 * 256)].concat()
    }
}

/// The reply, and all places after the call.
pub fn site_start(stock: u32) -> (Sited, Vec<u32>) {
    let (number, kits) = if stock <= 2048 { (0, stock) } else { (12, 0) };
    ([number, 0], Site { stock: kits, left: kits, plans: vec![] }.places())
}

/// The same, for the places before the call and the first joining choice of the hall, which is asked for where it counts.
pub fn site_admit(places: &[u32], file: &[u8], plan: impl FnOnce(&Hall) -> Vec<u32>) -> (Sited, Vec<u32>) {
    match admitted(site_in(places), file, plan) {
        Ok(site) => ([0, 0], site.places()),
        Err(refusal) => ([refusal.number.into(), refusal.row.into()], places.to_vec()),
    }
}

fn admitted(mut site: Site, file: &[u8], plan: impl FnOnce(&Hall) -> Vec<u32>) -> Result<Site, Refusal> {
    if !site.is_sound() {
        return Err(Refusal::new(12));
    }
    let hall = hall_in(file)?;
    if site.plans.len() == 8 {
        return Err(Refusal::new(13));
    }
    let plan = plan(&hall);
    site.left = site.left.checked_sub(plan.len() as u32).ok_or(Refusal::new(14))?;
    site.plans.push(plan);
    Ok(site)
}
