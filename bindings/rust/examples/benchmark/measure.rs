//! Times of the readers, side by side.

use crate::caches::Cache;
use std::ffi::{c_int, c_long};
use std::hint::black_box;
use std::time::Duration;

/// The readers of a row, in the order of its columns.
pub const LIBRARY: usize = 0;
pub const UNCHECKED: usize = 1;
pub const READER: usize = 2;
pub const MEMCPY: usize = 3;
pub const READERS: usize = 4;

/// Seconds for each call, by reader; none where there is nothing to measure.
pub type Seconds = [Option<f64>; READERS];

/// One row of the table.
pub struct Row {
    pub cache: &'static str,
    pub call: &'static str,
    pub bytes: usize,
    pub seconds: Seconds,
    /// How many times the library takes as long as each reader.
    pub ratios: [Option<f64>; READERS],
}

/// What gives a row: runs in which the readers are measured one after another.
/// The best time of each reader counts, since other programs can only make a
/// run slower.
pub struct Runs<'a> {
    cache: &'a Cache,
    call: &'static str,
    run: Box<dyn Fn(usize) -> Seconds + 'a>,
    best: Seconds,
}

impl<'a> Runs<'a> {
    pub fn new(
        cache: &'a Cache,
        call: &'static str,
        run: impl Fn(usize) -> Seconds + 'a,
    ) -> Runs<'a> {
        Runs {
            cache,
            call,
            run: Box::new(run),
            best: [None; READERS],
        }
    }

    pub fn measure(&mut self, run: usize) {
        let seconds = (self.run)(run);
        for (best, now) in self.best.iter_mut().zip(seconds) {
            *best = [*best, now].into_iter().flatten().min_by(f64::total_cmp);
        }
    }

    pub fn row(&self) -> Row {
        let seconds = self.best;
        Row {
            cache: self.cache.name,
            call: self.call,
            bytes: self.cache.bytes.len(),
            seconds,
            ratios: seconds.map(|other| Some(seconds[LIBRARY]? / other?)),
        }
    }
}

/// The readers, in each run with another one first: for that one the bytes are
/// further away.
pub fn in_turn(readers: &[usize], run: usize) -> impl Iterator<Item = usize> + '_ {
    let from_another = readers.iter().cycle().skip(run % readers.len());
    from_another.take(readers.len()).copied()
}

/// Seconds for each of the `calls` that the work makes, and what the work
/// answers, so that it can't be left out.
pub fn time<T>(calls: usize, work: impl FnOnce() -> T) -> (f64, T) {
    let start = processor_time();
    let answer = work();
    let taken = processor_time() - start;
    (taken.as_secs_f64() / calls as f64, answer)
}

/// Seconds for each call, and the sum of what the calls answer. For all that the
/// compiler knows, each call is given another buffer.
#[inline(never)]
pub fn repeat(calls: usize, bytes: &[u8], mut call: impl FnMut(&[u8]) -> usize) -> (f64, usize) {
    time(calls, || {
        (0..calls)
            .map(|_| black_box(call(black_box(bytes))))
            .sum::<usize>()
    })
}

/// The time that this thread has had a processor. Where other programs run
/// beside, the time of day would count them too.
fn processor_time() -> Duration {
    let mut time = Timespec::default();
    // SAFETY: the call writes the time and no more.
    let done = unsafe { clock_gettime(CLOCK_THREAD_CPUTIME_ID, &mut time) };
    assert_eq!(done, 0, "the system counts the time of threads");
    Duration::new(time.seconds as u64, time.nanoseconds as u32)
}

#[repr(C)]
#[derive(Default)]
struct Timespec {
    seconds: c_long,
    nanoseconds: c_long,
}

/// Of Linux.
const CLOCK_THREAD_CPUTIME_ID: c_int = 3;

extern "C" {
    fn clock_gettime(clock: c_int, time: *mut Timespec) -> c_int;
}
