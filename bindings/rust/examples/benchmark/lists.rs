//! The listing of a whole cache: a step for each record and one that says done.

use crate::caches::Cache;
use crate::measure::{in_turn, repeat, Row, Runs, Seconds, LIBRARY, READER, READERS};
use crate::reader;
use icon_cache::raw;
use std::hint::black_box;

/// The records that are handed back in one run, at least.
const RECORDS: usize = 30_000;

pub fn list(cache: &Cache) -> Runs<'_> {
    let icons = raw::check(&cache.bytes).icons;
    Runs::new(cache, "list", move |run| measure(&cache.bytes, icons, run))
}

/// The readers must hand back as many records as the check counts.
fn measure(bytes: &[u8], icons: usize, run: usize) -> Seconds {
    let calls = RECORDS.div_ceil(icons);
    let mut seconds = [None; READERS];
    for reader in in_turn(&[LIBRARY, READER], run) {
        let (taken, records) = match reader {
            LIBRARY => repeat(calls, bytes, by_library),
            _ => repeat(calls, bytes, by_reader),
        };
        assert_eq!(records, calls * icons);
        seconds[reader] = Some(taken);
    }
    seconds
}

fn by_library(cache: &[u8]) -> usize {
    walk(raw::Position::START, |from| {
        let step = black_box(raw::list(cache, from));
        (step.number, step.position)
    })
}

fn by_reader(cache: &[u8]) -> usize {
    walk(reader::Position::START, |from| {
        let step = black_box(reader::list(cache, from));
        (step.number, step.position)
    })
}

/// How many records are handed back until a step says done.
fn walk<Position>(start: Position, step: impl Fn(Position) -> (u32, Position)) -> usize {
    let mut records = 0;
    let (mut number, mut position) = step(start);
    while number == 0 {
        records += 1;
        (number, position) = step(position);
    }
    assert_eq!(number, 28);
    records
}

/// What listing costs beside the check of the same cache, and where that comes from.
pub fn print_costs(caches: &[Cache], rows: &[Row]) {
    println!(
        "\nThe check opens each record once; a step opens all before it on its chain again.\n"
    );
    println!(
        "{:<26} {:>10} {:>8} {:>13} {:>15}",
        "cache", "list/check", "records", "longest chain", "opened by steps"
    );
    for cache in caches {
        let seconds = |call| library_seconds(rows, cache, call);
        let chains = reader::chain_lengths(&cache.bytes);
        println!(
            "{:<26} {:>10.2} {:>8} {:>13} {:>15}",
            cache.name,
            seconds("list") / seconds("check"),
            chains.iter().sum::<usize>(),
            chains.iter().max().expect("there are buckets"),
            chains.iter().map(|&length| opened(length)).sum::<usize>(),
        );
    }
}

fn library_seconds(rows: &[Row], cache: &Cache, call: &str) -> f64 {
    let mut rows = rows.iter();
    let row = rows.find(|row| row.cache == cache.name && row.call == call);
    row.and_then(|row| row.seconds[LIBRARY])
        .expect("it was measured")
}

/// How many records of a chain all steps open: one, then two and so on, and all of
/// them once more to go on at the next bucket.
fn opened(length: usize) -> usize {
    length * (length + 1) / 2 + length
}
