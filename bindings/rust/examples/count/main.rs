//! Counts the machine instructions of both checks, the lookup, the listing and the
//! pick, by valgrind's tool callgrind:
//!
//! `cargo run --offline --release --example count`
//!
//! Only what the library executes counts, from the entry of a C function until it
//! returns. The counts are the same from run to run, so that they tell apart what
//! times can't. To compare two builds of the library, count with each, naming its
//! folder by an absolute path:
//!
//! ```sh
//! count='cargo run --offline --quiet --release --example count'
//! ICON_CACHE_LIB_DIR=/before/crates/icon_cache_c/out $count > before.txt
//! ICON_CACHE_LIB_DIR=/after/crates/icon_cache_c/out $count > after.txt
//! diff before.txt after.txt
//! ```

// It is written for the tests, which use more of it.
#[path = "../../tests/reader/mod.rs"]
#[allow(dead_code)]
mod reader;

mod valgrind;
mod workloads;

use std::env;
use std::process::ExitCode;
use workloads::{Workload, CACHES, WORKLOADS};

fn main() -> ExitCode {
    let arguments: Vec<String> = env::args().skip(1).collect();
    let done = match arguments.as_slice() {
        [] => print_table(),
        [cache, call] => run(cache, call),
        _ => Err("usage: count, or count CACHE CALL as it is run by valgrind".into()),
    };
    match done {
        Ok(()) => ExitCode::SUCCESS,
        Err(reason) => {
            eprintln!("error: {reason}");
            ExitCode::FAILURE
        }
    }
}

/// Counts everything first: half a table would only mislead.
fn print_table() -> Result<(), String> {
    let mut rows = Vec::new();
    for (cache, _) in CACHES {
        for Workload { call, function, .. } in WORKLOADS {
            let (calls, instructions) = valgrind::count(function, [cache, call])?;
            let each = instructions as f64 / calls as f64;
            let row = format!("{cache:<14} {call:<6} {calls:>6} {instructions:>13} {each:>12.1}");
            rows.push(row);
        }
    }
    println!(
        "{:<14} {:<6} {:>6} {:>13} {:>12}",
        "cache", "call", "calls", "instructions", "per call"
    );
    println!("{}", rows.join("\n"));
    Ok(())
}

/// Makes the calls that are counted, and prints how many they are.
fn run(cache: &str, call: &str) -> Result<(), String> {
    let cache = CACHES.iter().find(|(name, _)| *name == cache);
    let (_, bytes) = cache.ok_or("there is no such cache")?;
    let workload = WORKLOADS.iter().find(|workload| workload.call == call);
    let workload = workload.ok_or("there is no such call")?;
    println!("{}", (workload.run)(bytes));
    Ok(())
}
