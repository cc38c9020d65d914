//! Sets of junctions in one word, and what is reached over an adjacency.

/// For each junction the set of junctions its arcs lead to.
pub type Arcs = [u64; 64];

pub fn full(n: usize) -> u64 {
    u64::MAX >> (64 - n)
}

pub fn holds(set: u64, junction: usize) -> bool {
    set >> junction & 1 == 1
}

/// The members of a set, ascending.
pub fn members(mut set: u64) -> impl Iterator<Item = usize> {
    std::iter::from_fn(move || {
        if set == 0 {
            return None;
        }
        let lowest = set.trailing_zeros() as usize;
        set &= set - 1;
        Some(lowest)
    })
}

fn next_layer(arcs: &Arcs, layer: u64) -> u64 {
    members(layer).fold(0, |next, junction| next | arcs[junction])
}

/// The least set that holds `start` and that no arc leaves.
pub fn reached(arcs: &Arcs, start: u64) -> u64 {
    let (mut seen, mut layer) = (start, start);
    while layer != 0 {
        layer = next_layer(arcs, layer) & !seen;
        seen |= layer;
    }
    seen
}

/// For each junction how many arcs lead to it from `start` at the least; 64 where none do.
pub fn distances(arcs: &Arcs, start: usize) -> [u8; 64] {
    let mut distances = [64; 64];
    let (mut seen, mut layer, mut distance): (u64, u64, u8) = (1 << start, 1 << start, 0);
    while layer != 0 {
        members(layer).for_each(|junction| distances[junction] = distance);
        layer = next_layer(arcs, layer) & !seen;
        seen |= layer;
        distance += 1;
    }
    distances
}

/// The set reached from the lowest of n junctions that does not reach all; a search that meets a lower one need not go on.
pub fn missed(arcs: &Arcs, n: usize) -> Option<u64> {
    let found = |j| reached_short_of(arcs, j, (1 << j) - 1);
    (0..n).filter_map(found).find(|&set| set != full(n))
}

/// The set reached from `start`, or `None` as soon as it holds one of the targets.
pub fn reached_short_of(arcs: &Arcs, start: usize, targets: u64) -> Option<u64> {
    let (mut seen, mut layer): (u64, u64) = (1 << start, 1 << start);
    while layer != 0 && seen & targets == 0 {
        layer = next_layer(arcs, layer) & !seen;
        seen |= layer;
    }
    (seen & targets == 0).then_some(seen)
}
