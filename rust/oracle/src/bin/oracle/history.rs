//! What becomes of one site, word by word.

use oracle::{site_admit, site_in, site_start, words, Sited, SITE_PLACES};

use crate::{file, number, plans};

/// A line for each word: the site that a call leaves, or why it is refused.
pub fn lines(steps: &[&str]) -> Result<String, String> {
    let mut places = vec![0; SITE_PLACES];
    let line = |word: &&str| Ok(format!("{word}: {}", answer(word, &mut places)?));
    steps.iter().map(line).collect()
}

fn answer(word: &str, places: &mut Vec<u32>) -> Result<String, String> {
    if let Some((place, held)) = word.split_once('=') {
        let (place, held) = (number(place)?, number(held)?);
        if let Some(at) = places.get_mut(place as usize) {
            *at = held;
        }
        return Ok("SET\n".to_string());
    }
    let (reply, after) = match word.parse() {
        Ok(stock) => site_start(stock),
        Err(_) => {
            let file = file(word)?;
            site_admit(places, &file, |_| plans::rows(&file))
        }
    };
    *places = after;
    Ok(told(reply, places))
}

fn told([refusal, row]: Sited, places: &[u32]) -> String {
    if refusal != 0 {
        return crate::told([refusal, row, 0, 0]);
    }
    let site = site_in(places);
    format!("STOCK {} LEFT {} PLANS{}\n", site.stock, site.left, words(site.plans.iter().map(|plan| listed(plan))))
}

fn listed(rows: &[u32]) -> String {
    match rows {
        [] => "-".to_string(),
        _ => rows.iter().map(u32::to_string).collect::<Vec<String>>().join(","),
    }
}
