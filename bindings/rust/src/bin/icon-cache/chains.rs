//! How many chains of each length a cache has, as a chart.

use crate::show;
use std::iter;

/// With more different lengths than this they are put together.
const MOST_LENGTHS: usize = 12;

/// No line of a chart is longer.
const COLUMNS: usize = 80;

/// The heads of the two columns, and what stands before each.
const HEADS: (&str, &str) = ("length", "chains");
const INDENT: &str = "  ";

/// In a bucket field or a CHAIN_OFFSET: no further record.
const END: usize = 0xFFFF_FFFF;

/// The number of four bytes at an offset.
fn field(cache: &[u8], offset: usize) -> usize {
    let bytes = cache[offset..].first_chunk();
    u32::from_be_bytes(*bytes.expect("the field lies inside")) as usize
}

/// How many chains have each length, from 0 up to that of the longest.
///
/// The check has accepted the cache, so its tables and records lie inside, each chain
/// ends, and no record is on two of them: the fields can be followed as they stand, in
/// time linear in the cache. By the steps of a list a chain would cost its square.
pub fn by_length(cache: &[u8], longest: usize) -> Vec<usize> {
    let mut chains = vec![0; longest + 1];
    let hash = field(cache, 4);
    // A record begins with its CHAIN_OFFSET.
    let next = |offset| Some(field(cache, offset)).filter(|&record| record != END);
    for bucket in 1..=field(cache, hash) {
        let records = iter::successors(next(hash + 4 * bucket), |&record| next(record));
        chains[records.count()] += 1;
    }
    chains
}

/// A line of the chart: a length, or several, and how many chains have it.
struct Row {
    lengths: String,
    chains: usize,
}

/// The chart: a bar for each length that a chain has, and how many icons are the first
/// on their chain. A bar has one `#` for each chain; where that is too wide, all are
/// scaled down.
pub fn chart(chains: &[usize]) -> Vec<String> {
    let rows = rows(chains);
    let most = rows.iter().map(|row| row.chains).max().unwrap_or(0);
    let lengths = rows.iter().map(|row| row.lengths.len());
    let lengths_width = lengths.max().unwrap_or(0).max(HEADS.0.len());
    let chains_width = most.to_string().len().max(HEADS.1.len());
    let line = |lengths: &str, chains: &str| {
        format!("{INDENT}{lengths:>lengths_width$}{INDENT}{chains:>chains_width$}")
    };
    let room = COLUMNS - lengths_width - chains_width - 3 * INDENT.len();
    let mut lines = vec![line(HEADS.0, HEADS.1)];
    for row in &rows {
        let numbers = line(&row.lengths, &row.chains.to_string());
        let bar = "#".repeat(bar(row.chains, most, room));
        lines.push(format!("{numbers}{INDENT}{bar}"));
    }
    lines.extend(found_at_once(chains));
    lines
}

/// Only lengths that some chain has are shown.
fn rows(chains: &[usize]) -> Vec<Row> {
    let there = chains.iter().enumerate().filter(|(_, &chains)| chains > 0);
    let together = there.clone().count() > MOST_LENGTHS;
    let mut rows: Vec<Row> = Vec::new();
    for (length, &chains) in there {
        let lengths = if together {
            range(length)
        } else {
            length.to_string()
        };
        match rows.last_mut() {
            Some(row) if row.lengths == lengths => row.chains += chains,
            _ => rows.push(Row { lengths, chains }),
        }
    }
    rows
}

/// The lengths that are put together: 0, 1, 2, 3, 4-7, 8-15 and so on.
fn range(length: usize) -> String {
    if length < 4 {
        return length.to_string();
    }
    let first = 1 << length.ilog2();
    format!("{first}-{}", 2 * first - 1)
}

/// How long the bar of some chains is: as long as they are many, or the nearest share
/// of the room, and never nothing.
fn bar(chains: usize, most: usize, room: usize) -> usize {
    if most <= room {
        return chains;
    }
    let share = (chains * room + most / 2) / most;
    share.max(1)
}

/// Whatever the names, the first icon on a chain is found there, and no other icon
/// before a second record is opened.
fn found_at_once(chains: &[usize]) -> Option<String> {
    let lengths = chains.iter().enumerate();
    let icons: usize = lengths.map(|(length, chains)| length * chains).sum();
    if icons == 0 {
        return None;
    }
    let first: usize = chains[1..].iter().sum();
    let percent = (200 * first + icons) / (2 * icons);
    let icons = show::count(icons, "icon", "icons");
    Some(format!(
        "{INDENT}found with one record opened: {first} of {icons} ({percent}%)"
    ))
}

#[cfg(test)]
mod tests {
    use super::{bar, by_length, chart, range, COLUMNS};
    use icon_cache::FARM_CACHE;

    #[test]
    fn chains_of_the_farm() {
        assert_eq!(by_length(FARM_CACHE, 2), [1, 1, 1]);
    }

    #[test]
    fn lengths_put_together() {
        for (lengths, shown) in [
            (0..=0, "0"),
            (1..=1, "1"),
            (2..=2, "2"),
            (3..=3, "3"),
            (4..=7, "4-7"),
            (8..=15, "8-15"),
            (1_048_576..=2_097_151, "1048576-2097151"),
        ] {
            assert!(lengths.clone().all(|length| range(length) == shown));
        }
    }

    #[test]
    fn bars() {
        // As many as there is room for, and one more.
        assert_eq!(
            [0, 1, 30, 60].map(|chains| bar(chains, 60, 60)),
            [0, 1, 30, 60]
        );
        assert_eq!(
            [1, 30, 60, 61].map(|chains| bar(chains, 61, 60)),
            [1, 30, 59, 60]
        );
        // The smallest shows too.
        let most = 4_000_000;
        let bars = [1, 99_999, 100_000, 2_000_000, most].map(|chains| bar(chains, most, 60));
        assert_eq!(bars, [1, 1, 2, 30, 60]);
    }

    /// Twelve lengths are shown one by one, thirteen are put together.
    #[test]
    fn as_many_lengths_as_are_shown() {
        let twelve = chart(&[1; 12]);
        assert_eq!(twelve.len(), 1 + 12 + 1);
        assert_eq!(twelve[12], "      11       1  #");
        let thirteen = chart(&[1; 13]);
        assert_eq!(thirteen.len(), 1 + 6 + 1);
        assert_eq!(thirteen[5], "     4-7       4  ####");
        assert_eq!(thirteen[6], "    8-15       5  #####");
        assert_eq!(
            thirteen[7],
            "  found with one record opened: 12 of 78 icons (15%)"
        );
    }

    /// The widest numbers that a cache of 16 MiB can have: millions of buckets, and a
    /// chain of more than a million records beside chains of many lengths.
    #[test]
    fn the_widest_chart_fits() {
        let mut chains = vec![0; 1_200_001];
        chains[0] = 4_000_000;
        for length in 1..=20 {
            chains[1 << length] = 1;
        }
        chains[1_200_000] = 1;
        let chart = chart(&chains);
        assert!(chart.iter().all(|line| line.len() <= COLUMNS), "{chart:?}");
        assert_eq!(chart[1].len(), COLUMNS);
        let rows = chart.iter().filter(|line| line.ends_with('#'));
        assert_eq!(rows.count(), 21);
    }

    #[test]
    fn one_icon() {
        assert_eq!(
            chart(&[0, 1]),
            [
                "  length  chains",
                "       1       1  #",
                "  found with one record opened: 1 of 1 icon (100%)"
            ]
        );
    }
}
