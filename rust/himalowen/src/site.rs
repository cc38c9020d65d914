//! Up to 8 halls on one stock of kits: the plan of each, in the order of admission.

use crate::{accepted, boundary, Refusal, ROW_PLACES, SITE_PLACES};

const STOCK: usize = 0;
const LEFT: usize = 1;
const HALLS: usize = 2;
const LENGTHS: usize = 3;
const ROWS: usize = 11;

/// Makes the lent places a site of so many kits and no hall. Where they are over 2,048 it is refused with 12 and leaves the
/// site of stock 0.
pub fn site_start_into(stock: u32, site: &mut [u32; SITE_PLACES]) -> Result<(), Refusal> {
    let [number, row] = boundary::site_start(stock, site);
    accepted(number, row)
}

/// Puts a hall's first joining choice behind the plans of the site, and takes as many kits as it has rows. Refused with 12 if
/// the site is not sound, then as its file may be, with 13 if there are 8 halls, and with 14 if there are too few kits. A
/// refusal leaves every place; else those that no plan fills are 0.
pub fn site_admit_into(file: &[u8], site: &mut [u32; SITE_PLACES]) -> Result<(), Refusal> {
    let [number, row] = boundary::site_admit(file, site);
    accepted(number, row)
}

/// A site in places of its own.
#[derive(Clone, Debug, PartialEq, Eq)]
pub struct Site {
    places: [u32; SITE_PLACES],
}

impl Site {
    /// With so many kits and no hall; refused with 12 over 2,048.
    pub fn start(stock: u32) -> Result<Site, Refusal> {
        let mut places = [0; SITE_PLACES];
        site_start_into(stock, &mut places)?;
        Ok(Site { places })
    }

    /// From any numbers. If they are no sound site, the next call is refused with 12.
    pub fn from_places(places: [u32; SITE_PLACES]) -> Site {
        Site { places }
    }

    /// Gives the plan that was put behind the others. A refusal leaves the site as it was.
    pub fn admit(&mut self, file: &[u8]) -> Result<&[u32], Refusal> {
        site_admit_into(file, &mut self.places)?;
        Ok(self.plans().last().expect("the library promises one more plan"))
    }

    /// How many kits it started with.
    pub fn stock(&self) -> u32 {
        self.places[STOCK]
    }

    /// How many kits are left.
    pub fn left(&self) -> u32 {
        self.places[LEFT]
    }

    /// The rows that each hall opens. Of a site that is not sound there are no more plans and rows than have places.
    pub fn plans(&self) -> impl Iterator<Item = &[u32]> {
        let lengths = self.places[LENGTHS..ROWS].iter().map(|&length| ROW_PLACES.min(length as usize));
        let plans = self.places[ROWS..].chunks(ROW_PLACES).zip(lengths).map(|(rows, length)| &rows[..length]);
        plans.take(self.places[HALLS] as usize)
    }

    /// All its numbers, as [`Site::from_places`] takes them.
    pub fn places(&self) -> &[u32; SITE_PLACES] {
        &self.places
    }
}
