//! The table that is printed.

use crate::measure::{Row, LIBRARY, MEMCPY, READER, UNCHECKED};
use std::io::{self, Write};
use std::{fs, thread};

pub fn print_head() {
    let processors = thread::available_parallelism().map_or(1, usize::from);
    println!("Processors: {processors}, {}", processor_model());
    println!(
        "Times are the best of some runs; the rows of long and endless chains are measured once."
    );
    println!("A ratio says how many times as long the library takes.\n");
    println!(
        "{:<26} {:<7} {:>10} {:>10} {:>10} {:>6} {:>10} {:>6} {:>10} {:>6}",
        "cache",
        "call",
        "library",
        "bytes/s",
        "no checks",
        "ratio",
        "reader",
        "ratio",
        "memcpy",
        "ratio",
    );
}

/// As Linux gives it.
fn processor_model() -> String {
    let information = fs::read_to_string("/proc/cpuinfo").unwrap_or_default();
    let mut lines = information.lines();
    let line = lines.find(|line| line.starts_with("model name"));
    let model = line.and_then(|line| line.split_once(": "));
    model.map_or("unknown model", |(_, model)| model).to_owned()
}

pub fn print(row: &Row) {
    let mut line = format!("{:<26} {:<7}", row.cache, row.call);
    line += &format!(" {:>10}", time(row.seconds[LIBRARY]));
    line += &format!(" {:>10}", speed(row));
    for reader in [UNCHECKED, READER, MEMCPY] {
        let ratio = match row.ratios[reader] {
            Some(ratio) => format!("{ratio:.2}"),
            None => String::new(),
        };
        line += &format!(" {:>10} {ratio:>6}", time(row.seconds[reader]));
    }
    println!("{}", line.trim_end());
    // The next rows may take their time.
    io::stdout().flush().expect("the table can be written");
}

/// Three digits and the unit that suits them.
fn time(seconds: Option<f64>) -> String {
    match seconds {
        None => String::new(),
        Some(s) if s < 1e-6 => format!("{:.1} ns", s * 1e9),
        Some(s) if s < 1e-3 => format!("{:.2} us", s * 1e6),
        Some(s) if s < 1.0 => format!("{:.2} ms", s * 1e3),
        Some(s) => format!("{s:.2} s"),
    }
}

/// Only the check reads the whole cache.
fn speed(row: &Row) -> String {
    match row.seconds[LIBRARY] {
        Some(seconds) if row.call == "check" => match row.bytes as f64 / seconds {
            speed if speed < 1e7 => format!("{:.0} kB/s", speed / 1e3),
            speed => format!("{:.0} MB/s", speed / 1e6),
        },
        _ => String::new(),
    }
}
