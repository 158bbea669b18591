//! How long it takes to write and to list as many icons as a catalogue can have,
//! whatever order their names come in, and how much stack.

#[allow(dead_code)]
mod catalogues;
#[allow(dead_code)]
mod generator;
#[allow(dead_code)]
mod reader;

use catalogues::made::Made;
use generator::Random;
use icon_cache::{raw, Refusal};
use std::fs;
use std::thread;
use std::time::{Duration, Instant};

const MOST: usize = 65_535;

/// The most that a call may take. It takes less than half a second where nothing else
/// runs.
const LIMIT: Duration = Duration::from_secs(2);

fn catalogue(names: &[Vec<u8>]) -> Vec<u8> {
    let mut made = Made::new();
    made.paths(&[b"16".to_vec()]);
    made.icon_count(names.len());
    for name in names {
        made.icon(name, &[[0, 0, 0, 1, 0, 0, 0, 0]]);
    }
    made.bytes
}

/// How long this thread has run on a processor, where the system tells: other programs
/// make a call take longer.
fn on_processor() -> Option<Duration> {
    let told = fs::read_to_string("/proc/thread-self/schedstat").ok()?;
    let nanoseconds = told.split_whitespace().next()?.parse().ok()?;
    Some(Duration::from_nanos(nanoseconds))
}

/// What the call gives.
fn within_limit<T>(what: &str, call: impl Fn() -> T) -> T {
    let (start, before) = (Instant::now(), on_processor());
    let result = call();
    let run = on_processor().zip(before).map(|(now, before)| now - before);
    let taken = run.unwrap_or(start.elapsed());
    println!("{what} in {taken:.0?}");
    assert!(taken < LIMIT, "{what}");
    result
}

/// Writes, checks the cache and has it listed.
fn write(what: &str, names: &[Vec<u8>], buckets: usize) {
    assert_eq!(names.len(), MOST);
    let what = format!("{what}, {buckets} buckets");
    let catalogue = catalogue(names);
    let write = || icon_cache::write(&catalogue, buckets).unwrap();
    let cache = within_limit(&format!("{what}: written"), write);
    let list = || icon_cache::catalogue_of(&cache).unwrap();
    let listed = within_limit(&format!("{what}: listed"), list);
    assert!(listed == catalogue);
    assert_eq!(icon_cache::check(&cache).unwrap().icons, MOST);
    assert!(catalogues::listed(&cache).unwrap() == catalogue);

    // The last name used before: that of the first icon.
    let mut repeated = catalogue.clone();
    let length = names[MOST - 1].len();
    let place = repeated.len() - 10 - length;
    assert_eq!(names[0].len(), length);
    repeated[place..][..length].copy_from_slice(&names[0]);
    let write = || icon_cache::write(&repeated, buckets).unwrap_err();
    let refusal = within_limit(&format!("{what}: refused"), write);
    assert_eq!(
        (refusal.number, refusal.place),
        (Refusal::REPEATED_NAME, place)
    );
}

/// Different names of eight bytes, in order.
fn sorted() -> Vec<Vec<u8>> {
    let names = (0..MOST).map(|i| format!("n{i:07}").into_bytes());
    names.collect()
}

#[test]
fn sorted_names() {
    for buckets in [1, 4_093] {
        write("sorted", &sorted(), buckets);
    }
}

#[test]
fn reversed_names() {
    let mut names = sorted();
    names.reverse();
    for buckets in [1, 4_093] {
        write("reversed", &names, buckets);
    }
}

#[test]
fn random_names() {
    let mut random = Random::new(20_260_101, 10);
    let mut names = sorted();
    for last in (1..names.len()).rev() {
        names.swap(last, random.below(last + 1));
    }
    for buckets in [1, 4_093] {
        write("random", &names, buckets);
    }
}

/// "Aa" and "BB" have one hash, and so have all names that are made of 16 of them.
#[test]
fn names_of_one_hash() {
    let name = |i: usize| (0..16).flat_map(move |bit| [b"Aa", b"BB"][i >> bit & 1].iter().copied());
    let names: Vec<Vec<u8>> = (0..MOST).map(|i| name(i).collect()).collect();
    let hash = reader::hash(&names[0]);
    assert!(names.iter().all(|name| reader::hash(name) == hash));
    write("of one hash", &names, 4_093);
}

/// No more than the C header says.
#[test]
fn three_hundred_kib_of_stack() {
    let catalogue = catalogue(&sorted());
    let call = move || {
        let mut cache = vec![0; 4 << 20];
        let answer = raw::write(&catalogue, 4_096, &mut cache);
        let mut listed = vec![0; catalogue.len()];
        let way_back = raw::catalogue_of(&cache[..answer.length], &mut listed);
        (answer.number, way_back.number)
    };
    let thread = thread::Builder::new().stack_size(300 << 10);
    assert_eq!(thread.spawn(call).unwrap().join().unwrap(), (0, 0));
}
