//! How long it takes to squeeze large caches. The limits are for the proved library.

#[allow(dead_code)]
mod generator;
#[allow(dead_code)]
mod reader;

use generator::{numbers, put_u32, END, VERSION};
use icon_cache::{check, raw};
use std::thread;
use std::time::{Duration, Instant};

/// A cache with icons of these names, each of which has one of so many lists. A list says its
/// own number by the flags and indexes of two images.
fn cache(names: &[String], buckets: usize, lists: usize) -> Vec<u8> {
    let directories = 256;
    let hash = 12;
    let directory_list = hash + 4 + 4 * buckets;
    let path = directory_list + 4 + 4 * directories;
    let mut bytes = numbers(&[VERSION, hash as u32, directory_list as u32, buckets as u32]);
    bytes.extend(numbers(&vec![END; buckets]));
    bytes.extend(numbers(&[directories as u32]));
    bytes.extend(numbers(&vec![path as u32; directories]));
    bytes.extend(b"p\0");
    let first_list = bytes.len();
    for list in 0..lists as u32 {
        let image = |n: u32| (n & 0xFF) << 16 | (n >> 8 & 0xF);
        bytes.extend(numbers(&[2, image(list), 0, image(list >> 12), 0]));
    }
    let mut ends: Vec<usize> = (0..buckets).map(|bucket| hash + 4 + 4 * bucket).collect();
    for (icon, name) in names.iter().enumerate() {
        let place = bytes.len();
        bytes.extend(name.as_bytes());
        bytes.push(0);
        let bucket = reader::hash(name.as_bytes()) as usize % buckets;
        let record = bytes.len();
        let list = first_list + 20 * (icon % lists);
        bytes.extend(numbers(&[END, place as u32, list as u32]));
        put_u32(&mut bytes, ends[bucket], record as u32);
        ends[bucket] = record;
    }
    bytes
}

/// So many different names, about as long as those of a theme.
fn long_names(n: usize) -> Vec<String> {
    (0..n).map(|icon| format!("preferences-{icon:x}")).collect()
}

/// So many different names, as short as can be written in hexadecimal.
fn short_names(n: usize) -> Vec<String> {
    (0..n).map(|icon| format!("{icon:x}")).collect()
}

/// The shortest of some runs: other programs make one take longer.
fn shortest(run: impl Fn()) -> Duration {
    let runs = (0..10).map(|_| {
        let start = Instant::now();
        run();
        start.elapsed()
    });
    runs.min().expect("there are some")
}

fn squeezed_after(cache: &[u8]) -> Duration {
    shortest(|| {
        let mut lent = vec![0; cache.len()];
        let answer = raw::squeeze(cache, &mut lent);
        assert_eq!((answer.number, answer.length), (0, cache.len()));
    })
}

/// As many icons as a large theme has: squeezed in less than so many times the check.
fn theme(names: &[String], times: u32) {
    let cache = cache(names, 4_093, 4_000);
    let checked = shortest(|| assert!(check(&cache).is_ok()));
    let squeezed = squeezed_after(&cache);
    println!("checked in {checked:.1?}, squeezed in {squeezed:.1?}");
    assert!(squeezed < times * checked);
}

#[test]
fn many_lists() {
    theme(&long_names(17_666), 50);
}

/// Of such names the check has so little to read that the times are short and differ: 45
/// times the check on a quiet machine.
#[test]
fn many_lists_with_short_names() {
    theme(&short_names(17_666), 75);
}

#[test]
fn many_icons() {
    let squeezed = squeezed_after(&cache(&long_names(455_000), 4_096, 600));
    println!("squeezed in {squeezed:.1?}");
    assert!(squeezed < Duration::from_secs(2));
}

/// On one chain names are told apart block by block, here in the order that costs the most.
#[test]
fn one_chain() {
    let mut names = short_names(300_000);
    names.sort();
    names.reverse();
    let squeezed = squeezed_after(&cache(&names, 1, 600));
    println!("squeezed in {squeezed:.1?}");
    assert!(squeezed < Duration::from_secs(10));
}

/// There is a mark for each of 983,040 records. Behind these a name is looked for along its
/// chain: the last chain ends with its first name, which goes.
#[test]
fn more_records_than_marks() {
    const DIGITS: &[u8; 62] = b"0123456789ABCDEFGHIJKLMNOPQRSTUVWXYZabcdefghijklmnopqrstuvwxyz";
    let digit = |n: usize| DIGITS[n % 62] as char;
    let name = |n: usize| {
        [n / 238_328, n / 3844, n / 62, n]
            .map(digit)
            .iter()
            .collect()
    };
    let mut names: Vec<String> = (0..985_000).map(name).collect();
    let bucket = |name: &String| reader::hash(name.as_bytes()) as usize % 4_096;
    names.sort_by_key(bucket);
    let first = names
        .iter()
        .position(|name| bucket(name) == 4_095)
        .expect("one is there");
    assert!(983_040 < names.len() && first < names.len());
    let last = names.len() - 1;
    names[last] = names[first].clone();
    let cache = cache(&names, 4_096, 1);
    let mut lent = vec![0; cache.len()];
    let answer = raw::squeeze(&cache, &mut lent);
    assert_eq!((answer.number, answer.length), (0, cache.len() - 12 - 5));
    let listed = |cache: &[u8]| check(cache).expect("accepted").icons;
    assert_eq!(listed(&cache), listed(&lent[..answer.length]) + 1);
}

#[test]
fn little_stack() {
    let cache = cache(&short_names(100_000), 1, 70_000);
    let call = move || {
        let mut lent = vec![0; cache.len()];
        raw::squeeze(&cache, &mut lent).number
    };
    let thread = thread::Builder::new().stack_size(640 << 10);
    assert_eq!(thread.spawn(call).unwrap().join().unwrap(), 0);
}
