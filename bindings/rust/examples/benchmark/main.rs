//! Measures the lookup, the check and the listing, beside a reader without
//! checks, the independent reader of the tests, and memcpy:
//!
//! `cargo run --offline --release --example benchmark`

// Both are written for the tests, which use more of them.
#[path = "../../tests/generator/mod.rs"]
#[allow(dead_code)]
mod generator;
#[path = "../../tests/reader/mod.rs"]
#[allow(dead_code)]
mod reader;

mod caches;
mod checks;
mod hostile;
mod lists;
mod lookups;
mod measure;
mod table;
mod unchecked;

use caches::Cache;
use measure::{Row, Runs};
use std::time::Instant;

const RUNS: usize = 25;

fn main() {
    let start = Instant::now();
    let caches = caches::all();
    table::print_head();
    let rows = measure_side_by_side(&caches);
    hostile::measure_all(table::print);
    lists::print_costs(&caches, &rows);
    println!("\nin {:.0} seconds", start.elapsed().as_secs_f64());
}

/// The runs of all rows take turns, so that a slow time of the machine doesn't
/// meet all runs of one row.
fn measure_side_by_side(caches: &[Cache]) -> Vec<Row> {
    let mut rows: Vec<Runs> = Vec::new();
    for cache in caches {
        rows.push(lookups::hits(cache));
        rows.push(lookups::misses(cache));
        rows.push(checks::check(cache));
        rows.push(checks::check_long(cache));
        rows.push(lists::list(cache));
    }
    for run in 0..RUNS {
        for row in &mut rows {
            row.measure(run);
        }
    }
    let rows: Vec<Row> = rows.iter().map(Runs::row).collect();
    for row in &rows {
        table::print(row);
    }
    rows
}
