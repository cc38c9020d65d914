//! One quote: the price of one row moves, and with it the plan and its total, or not.

/// The rows of a plan and its total.
pub type Plan = (Vec<u32>, u64);

/// A plan beside the price that it was made at.
pub type Quoted = (u64, Plan);

const DEAREST: u64 = 1_000_000;

/// An accepted hall's file with another price for a row.
pub fn requoted(file: &[u8], row: u32, price: u64) -> Vec<u8> {
    let number = |at: usize| u32::from_le_bytes(file[at..at + 4].try_into().expect("four bytes")) as usize;
    let block = |at: usize| (number(at)..number(at) + number(at + 4)).step_by(8);
    let mut rows = (0..usize::from(file[2])).flat_map(|k| block(4 + 8 * k));
    let at = rows.nth(row as usize - 1).expect("a row of the file") + 4;
    let mut file = file.to_vec();
    file[at..at + 4].copy_from_slice(&(price as u32).to_le_bytes());
    file
}

/// The plans with a row at price 0, at the given prices, just below, at and above what the row is worth, and at the largest
/// price. A row is worth what the total grows by from the first of these to the last: below that price the plan keeps it.
pub fn quoted(
    file: &[u8],
    row: u32,
    prices: &[u64],
    plan: impl Fn(&[u8]) -> Result<Plan, String>,
) -> Result<Vec<Quoted>, String> {
    let at = |price| Ok((price, plan(&requoted(file, row, price))?));
    let (free, dear): (Quoted, Quoted) = (at(0)?, at(DEAREST)?);
    let worth = dear.1 .1.saturating_sub(free.1 .1);
    let mut between = [prices, &[worth.saturating_sub(1), worth, worth + 1]].concat();
    between.retain(|price| (1..DEAREST).contains(price));
    between.sort();
    between.dedup();
    [Ok(free)].into_iter().chain(between.into_iter().map(at)).chain([Ok(dear)]).collect()
}

/// All that is wrong between any two of the plans at ascending prices of a row.
pub fn misquoted(row: u32, plans: &[Quoted]) -> Vec<String> {
    let pairs =
        plans.iter().enumerate().flat_map(|(k, cheaper)| plans[k + 1..].iter().map(move |dearer| (cheaper, dearer)));
    pairs.flat_map(|(cheaper, dearer)| two_misquoted(row, cheaper, dearer)).collect()
}

fn two_misquoted(row: u32, (low, cheaper): &Quoted, (high, dearer): &Quoted) -> Vec<String> {
    let more = high - low;
    let (left_out, kept) = (!cheaper.0.contains(&row), dearer.0.contains(&row));
    let tests = [
        (dearer.1 >= cheaper.1, "the total falls"),
        (dearer.1 <= cheaper.1 + more, "the total grows by more"),
        (!left_out || cheaper == dearer, "a row that was not in the plan moves it"),
        (!kept || cheaper.0 == dearer.0, "a row that stays in the plan moves it"),
        (!kept || dearer.1 == cheaper.1 + more, "a row that stays in the plan moves the total by something else"),
    ];
    let said = |fault| format!("row {row} from {low} to {high}: {fault}");
    tests.into_iter().filter(|(passed, _)| !passed).map(|(_, fault)| said(fault)).collect()
}
