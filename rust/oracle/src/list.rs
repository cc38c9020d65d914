//! The printed list of a plan: written, read and judged.

use crate::{faults, hall_in, holds, unshown, Claim, Hall};

/// A plan as a list tells it.
#[derive(Debug, Default)]
pub struct Listed {
    pub rows: Vec<u32>,
    pub shores: Vec<u64>,
    pub weights: Vec<u32>,
    pub levels: Vec<i32>,
    pub total: u64,
}

impl Listed {
    pub fn claim(&self) -> Claim<'_> {
        let Listed { rows, shores, weights, levels, total } = self;
        Claim { rows, shores, weights, levels, total: *total }
    }

    /// The numbers that tell a plan; what else is printed, and how, is left to a comparison of the text.
    fn read(text: &str) -> Option<Listed> {
        let mut listed = Listed::default();
        let mut lines = text.lines().skip(1);
        for _ in 0..last_number(lines.next()?)? {
            listed.rows.push(lines.next()?.split(' ').next()?.parse().ok()?);
        }
        listed.total = last_number(lines.next()?)?;
        for _ in 0..last_number(lines.next()?)? {
            let mut words = lines.next()?.split(' ');
            listed.weights.push(words.next()?.parse().ok()?);
            listed.shores.push(words.try_fold(0, |shore, word| with_junction(shore, word.parse().ok()?))?);
        }
        listed.levels = lines.next()?.split(' ').skip(1).map(|word| word.parse().ok()).collect::<Option<_>>()?;
        Some(listed)
    }
}

fn last_number(line: &str) -> Option<u64> {
    line.rsplit(' ').next()?.parse().ok()
}

fn with_junction(shore: u64, junction: u32) -> Option<u64> {
    Some(shore | 1u64.checked_shl(junction.checked_sub(1)?)?)
}

/// The list of a plan whose rows are the hall's.
pub fn printed(hall: &Hall, claim: &Claim) -> String {
    let mut text = format!("HALL {} {}\nOPEN {}\n", hall.n, hall.rows.len(), claim.rows.len());
    for &i in claim.rows {
        let row = &hall.rows[i as usize - 1];
        text += &format!("{i} {} {} {}\n", row.from, row.to, row.price);
    }
    text += &format!("TOTAL {}\nCUTS {}\n", claim.total, claim.shores.len());
    for (&shore, weight) in claim.shores.iter().zip(claim.weights) {
        text += &format!("{weight}{}\n", words((1..=64).filter(|&j| holds(shore, j))));
    }
    text + &format!("LEVELS{}\n", words(claim.levels))
}

/// Each after a space.
pub fn words<T: ToString>(items: impl IntoIterator<Item = T>) -> String {
    items.into_iter().map(|item| " ".to_string() + &item.to_string()).collect()
}

/// All that is wrong with a file's printed list, or not shown of it with the planner's help.
pub fn judge(file: &[u8], text: &str, planner: impl Fn(&[u64]) -> Vec<(u64, u64)>) -> Vec<String> {
    let fault = |what: &str| vec![what.to_string()];
    let hall = match hall_in(file) {
        Ok(hall) => hall,
        Err(refusal) if text == format!("REFUSED {} {}\n", refusal.number, refusal.row) => return vec![],
        Err(refusal) => return vec![format!("the hall is refused: {refusal:?}")],
    };
    let Some(listed) = Listed::read(text) else { return fault("the text is no list") };
    let found = faults(&hall, &listed.claim());
    match found {
        _ if !found.is_empty() => found.into_iter().map(str::to_string).collect(),
        _ if printed(&hall, &listed.claim()) != text => fault("the text is not the list of its numbers"),
        _ => unshown(&hall, &listed.rows, planner),
    }
}
