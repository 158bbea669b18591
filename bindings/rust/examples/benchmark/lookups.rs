//! Lookups of names that are there and of others.

use crate::caches::Cache;
use crate::generator::Random;
use crate::measure::{in_turn, time, Runs, Seconds, LIBRARY, READER, READERS, UNCHECKED};
use crate::{reader, unchecked};
use icon_cache::raw;
use std::ffi::{CStr, CString};
use std::hint::black_box;

/// The names of one run: each of a large cache once at most, and those of a
/// small cache many times.
const NAMES: usize = 90_000;
/// Room for the images of any icon.
pub const WORDS: usize = 2 * 1_024;

pub fn hits(cache: &Cache) -> Runs<'_> {
    let there = reader::names(&cache.bytes);
    lookups(
        cache,
        "hit",
        there.into_iter().map(<[u8]>::to_vec).collect(),
    )
}

/// Names of the same lengths that are not there.
pub fn misses(cache: &Cache) -> Runs<'_> {
    let there = reader::names(&cache.bytes);
    let absent: Vec<Vec<u8>> = there.into_iter().map(other_name).collect();
    for name in &absent {
        assert_eq!(raw::lookup(&cache.bytes, name, &mut []).number, 30);
    }
    lookups(cache, "miss", absent)
}

/// No measured cache has a name that ends like this.
fn other_name(name: &[u8]) -> Vec<u8> {
    let mut name = name.to_vec();
    *name.last_mut().expect("a name is not empty") = b'~';
    name
}

fn lookups<'a>(cache: &'a Cache, call: &'static str, names: Vec<Vec<u8>>) -> Runs<'a> {
    // The reader without checks relies on it.
    assert_eq!(raw::check(&cache.bytes).number, 0);
    Runs::new(cache, call, move |run| {
        measure(&cache.bytes, &Tape::new(&names, run as u64), run)
    })
}

/// The readers must answer the same.
fn measure(cache: &[u8], tape: &Tape, run: usize) -> Seconds {
    let mut seconds = [None; READERS];
    let mut answers = Vec::new();
    for reader in in_turn(&[LIBRARY, UNCHECKED, READER], run) {
        let lookup = match reader {
            LIBRARY => by_library,
            UNCHECKED => by_unchecked,
            _ => by_reader,
        };
        let (taken, answer) = time(NAMES, || tape.sum(cache, lookup));
        seconds[reader] = Some(taken);
        answers.push(answer);
    }
    assert!(answers.iter().all(|answer| *answer == answers[0]));
    seconds
}

/// One reader's lookup: where the record is and how many images it has.
type Lookup = fn(&[u8], &CStr, &mut [u32]) -> Option<(usize, usize)>;

fn by_library(cache: &[u8], name: &CStr, words: &mut [u32]) -> Option<(usize, usize)> {
    let answer = raw::lookup(cache, name.to_bytes(), words);
    (answer.number == 0).then_some((answer.place, answer.images))
}

fn by_unchecked(cache: &[u8], name: &CStr, words: &mut [u32]) -> Option<(usize, usize)> {
    // SAFETY: the library accepts the caches that are measured, and the words
    // have room for any icon.
    unsafe { unchecked::lookup(cache, name, words) }
}

fn by_reader(cache: &[u8], name: &CStr, words: &mut [u32]) -> Option<(usize, usize)> {
    let answer = reader::lookup(cache, name.to_bytes(), words);
    (answer.number == 0).then_some((answer.place, answer.images))
}

/// The names of one run in a new random order, one behind the other.
struct Tape {
    names: Vec<u8>,
    /// Where the names end, each behind its zero byte.
    ends: Vec<usize>,
}

impl Tape {
    fn new(names: &[Vec<u8>], run: u64) -> Tape {
        let mut random = Random::new(2, run);
        let mut order: Vec<usize> = (0..names.len()).collect();
        while order.len() < NAMES {
            order.extend(0..names.len());
        }
        let mut tape = Tape {
            names: Vec::new(),
            ends: Vec::new(),
        };
        for i in 0..NAMES {
            let chosen = random.between(i, order.len() - 1);
            order.swap(i, chosen);
            let name = CString::new(names[order[i]].as_slice()).expect("a name has no zero byte");
            tape.names.extend(name.as_bytes_with_nul());
            tape.ends.push(tape.names.len());
        }
        tape
    }

    /// Looks up all names. What is answered goes into the sum, so that no call
    /// can be left out or moved.
    #[inline(never)]
    fn sum(&self, cache: &[u8], lookup: Lookup) -> u64 {
        let mut words = [0; WORDS];
        let mut sum = 0u64;
        let mut start = 0;
        for &end in &self.ends {
            // SAFETY: the only zero byte is the last one.
            let name = unsafe { CStr::from_bytes_with_nul_unchecked(&self.names[start..end]) };
            let answer = lookup(black_box(cache), black_box(name), &mut words);
            if let Some((record, images)) = black_box(answer) {
                let last = words[(2 * images).saturating_sub(1)];
                sum = sum.wrapping_add((record + images) as u64 + u64::from(words[0] ^ last));
            }
            start = end;
        }
        sum
    }
}
