//! The check of a whole cache, and the long one.

use crate::caches::Cache;
use crate::measure::{in_turn, repeat, Runs, Seconds, LIBRARY, MEMCPY, READER, READERS};
use crate::reader;
use icon_cache::raw;
use std::hint::black_box;

/// The bytes that are checked in one run, at least.
const BYTES: usize = 20_000_000;

pub fn check(cache: &Cache) -> Runs<'_> {
    let icons = reader::names(&cache.bytes).len();
    Runs::new(cache, "check", move |run| measure(&cache.bytes, icons, run))
}

pub fn check_long(cache: &Cache) -> Runs<'_> {
    let icons = reader::names(&cache.bytes).len();
    Runs::new(cache, "long", move |run| {
        measure_long(&cache.bytes, icons, run)
    })
}

/// The readers must find all icons.
fn measure(bytes: &[u8], icons: usize, run: usize) -> Seconds {
    let mut copy = vec![1; bytes.len()];
    let calls = BYTES.div_ceil(bytes.len());
    let mut seconds = [None; READERS];
    for reader in in_turn(&[LIBRARY, READER, MEMCPY], run) {
        let (taken, found) = match reader {
            LIBRARY => repeat(calls, bytes, |bytes| raw::check(bytes).icons),
            READER => repeat(calls, bytes, |bytes| reader::check(bytes).icons),
            _ => repeat(calls, bytes, |bytes| {
                black_box(&mut copy).copy_from_slice(bytes);
                icons
            }),
        };
        assert_eq!(found, calls * icons);
        seconds[reader] = Some(taken);
    }
    seconds
}

fn measure_long(bytes: &[u8], icons: usize, run: usize) -> Seconds {
    let calls = BYTES.div_ceil(bytes.len());
    let mut seconds = [None; READERS];
    for reader in in_turn(&[LIBRARY, READER], run) {
        let (taken, found) = match reader {
            LIBRARY => repeat(calls, bytes, |bytes| raw::check_long(bytes).icons),
            _ => repeat(calls, bytes, |bytes| reader::check_long(bytes).icons),
        };
        assert_eq!(found, calls * icons);
        seconds[reader] = Some(taken);
    }
    seconds
}
