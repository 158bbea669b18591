//! Positions to step from, as a caller may make them up.

use super::{Random, WRAPPING};
use crate::reader::Position;

/// Positions in a cache of this length and these chains: on a chain and behind
/// it, around the largest count, and in buckets that are not there. Half of them
/// are left out, as there are many buffers.
pub fn many(random: &mut Random, length: usize, chains: &[usize]) -> Vec<Position> {
    let Some((bucket, records)) = a_chain(random, chains) else {
        // The cache is refused before the position is.
        return vec![at(usize::MAX, usize::MAX)];
    };
    let mut positions: Vec<Position> = counts(random, length, records)
        .into_iter()
        .map(|count| at(bucket, count))
        .collect();
    // Of any bucket, be it empty.
    let bucket = random.below(chains.len());
    positions.push(at(bucket, chains[bucket]));
    positions.push(at(bucket, random.below(length)));
    positions.push(at(chains.len() - 1, random.below(length)));
    positions.push(at(chains.len(), random.below(length)));
    let beyond = [chains.len() + 1, WRAPPING[0], WRAPPING[1], usize::MAX];
    positions.push(at(beyond[random.below(beyond.len())], 0));
    positions.retain(|_| random.one_in(2));
    positions
}

/// For a cache in which each step takes its time.
pub fn few(random: &mut Random, length: usize, chains: &[usize]) -> Vec<Position> {
    match a_chain(random, chains) {
        None => vec![Position::START],
        Some((bucket, records)) => vec![
            Position::START,
            at(bucket, records.saturating_sub(1)),
            at(bucket, length - 11),
            at(chains.len(), 0),
        ],
    }
}

fn at(bucket: usize, count: usize) -> Position {
    Position { bucket, count }
}

/// A bucket and the length of its chain: one with records, if there is any.
fn a_chain(random: &mut Random, chains: &[usize]) -> Option<(usize, usize)> {
    let all = || chains.iter().copied().enumerate();
    let with_records: Vec<_> = all().filter(|&(_, records)| records > 0).collect();
    random.pick(&with_records).copied().or(all().next())
}

/// Counts on a chain of so many records.
fn counts(random: &mut Random, length: usize, records: usize) -> Vec<usize> {
    let last = records.saturating_sub(1);
    let between = random.between(0, last);
    let around = records + random.below(3 * records + 3);
    let beyond = [WRAPPING[0], WRAPPING[1], usize::MAX];
    let beyond = beyond[random.below(beyond.len())];
    vec![
        0,
        1,
        between,
        last,
        records,
        records + 1,
        around,
        length - 12,
        length - 11,
        length - 10,
        beyond,
    ]
}
