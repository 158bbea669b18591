//! Compares the library with the reader on many sound and damaged buffers.
//!
//! `cargo test --test compare -- --nocapture` prints the seed and how often
//! each answer was met. Other seeds and more buffers are chosen by the
//! environment variables ICON_CACHE_SEED and ICON_CACHE_BUFFERS. Fewer buffers
//! cannot be chosen, or the test would pass with less than it promises.

mod counts;
mod generator;
mod reader;
mod side_by_side;

use counts::{Counts, Met, OnPurpose, AHEAD};
use generator::wanted::Wanted;
use generator::{damage, name_in_bucket, name_of_hash, notes, positions, rounds, series};
use generator::{Random, Sound, WRAPPING};
use reader::{Position, Step};
use side_by_side::{Difference, Pair};
use std::collections::HashSet;
use std::env;
use std::iter;
use std::sync::atomic::{AtomicBool, AtomicU64, Ordering};
use std::thread;
use std::time::Instant;

const SEED: u64 = 20_260_101;

/// How many different buffers there are at least.
const BUFFERS: u64 = 1_000_000;

/// One sound cache in so many is damaged on purpose. That makes more buffers
/// than all others do; with more such caches fewer others would be met.
const ON_PURPOSE: u64 = 20;

/// The work is cut into lanes and not by the number of processors, so that a
/// seed gives the same buffers everywhere.
const LANES: u64 = 16;

/// Above this length only a few questions are asked.
const LARGE: usize = 100_000;

/// One name in so many is asked of the pick too, after the first.
const PICKS: usize = 24;

/// Where only image data is damaged, the calls that don't read it are asked in one
/// buffer of so many.
const OTHERS: usize = 8;

/// The most records of a walk over an accepted cache. Each step passes those before
/// it on its chain again, so the cost grows with their square. Only the longest of
/// the chains on purpose have more.
const WALK: usize = 300;

/// The most records of a walk over a refused cache, where it may never end. Most
/// endless chains are gone round twice by then.
const WALK_REFUSED: usize = 40;

#[test]
fn the_library_agrees_with_the_reader() {
    let seed = from_environment("ICON_CACHE_SEED", SEED);
    let buffers = from_environment("ICON_CACHE_BUFFERS", BUFFERS).max(BUFFERS);
    println!("seed {seed}");
    let start = Instant::now();
    let counts = match run(seed, buffers) {
        Ok(counts) => counts,
        Err(report) => panic!("seed {seed}, after {:.1?}\n{report}", start.elapsed()),
    };
    counts.print();
    println!("in {:.1?}", start.elapsed());
    counts.demand_every_answer();
    counts.meetings.demand_all();
    counts.on_purpose.demand_large_ones();
    assert!(counts.different() >= buffers, "too few different buffers");
}

fn from_environment(variable: &str, otherwise: u64) -> u64 {
    match env::var(variable) {
        Ok(value) => value.parse().expect("the variable holds a number"),
        Err(_) => otherwise,
    }
}

/// Runs all lanes on all processors. The error tells of the first difference.
fn run(seed: u64, buffers: u64) -> Result<Counts, String> {
    let next_lane = AtomicU64::new(0);
    let stop = AtomicBool::new(false);
    let work = || {
        let mut counts = Counts::default();
        loop {
            let lane = next_lane.fetch_add(1, Ordering::Relaxed);
            if lane > LANES {
                return Ok(counts);
            }
            let mut comparison = Comparison::new(seed, lane, &stop);
            // The buffers on purpose come first, as a lane of their own.
            match lane {
                0 => comparison.run_series(),
                _ => comparison.run_at_random(buffers.div_ceil(LANES)),
            }
            counts.add(&comparison.counts);
            if let Some(report) = comparison.report {
                stop.store(true, Ordering::Relaxed);
                return Err(report);
            }
        }
    };
    let workers = thread::available_parallelism().map_or(1, usize::from);
    thread::scope(|scope| {
        let workers: Vec<_> = (0..workers).map(|_| scope.spawn(work)).collect();
        let mut counts = Counts::default();
        for worker in workers {
            counts.add(&worker.join().expect("no worker panics")?);
        }
        Ok(counts)
    })
}

/// The buffers of one lane.
struct Comparison<'a> {
    seed: u64,
    lane: u64,
    stop: &'a AtomicBool,
    random: Random,
    /// Names that are asked for in each buffer, there or not.
    names: Vec<Vec<u8>>,
    /// Positions to step from, if a case brings its own.
    positions: Vec<Position>,
    /// Whether only image data is damaged, which few calls read.
    of_notes: bool,
    /// How many names were asked of the plain lookup.
    tried: usize,
    counts: Counts,
    /// The first difference.
    report: Option<String>,
}

impl<'a> Comparison<'a> {
    fn new(seed: u64, lane: u64, stop: &'a AtomicBool) -> Self {
        Comparison {
            seed,
            lane,
            stop,
            random: Random::new(seed, lane),
            names: Vec::new(),
            positions: Vec::new(),
            of_notes: false,
            tried: 0,
            counts: Counts::default(),
            report: None,
        }
    }

    fn stopped(&self) -> bool {
        self.report.is_some() || self.stop.load(Ordering::Relaxed)
    }

    fn run_series(&mut self) {
        let farm = Sound::farm();
        self.names.clone_from(&farm.names);
        self.run_on_purpose(&farm);
        series::chains(|case| self.compare_case(case));
        series::many_directories(|case| self.compare_case(case));
        series::many_buckets(|case| self.compare_case(case));
        series::largest(|case| self.compare_case(case));
        rounds::all(|case| self.compare_case(case));
    }

    fn compare_case(&mut self, case: &series::Case) {
        self.names.clone_from(&case.names);
        self.positions.clone_from(&case.positions);
        self.compare(&case.what, &case.bytes);
    }

    fn run_at_random(&mut self, buffers: u64) {
        let mut stream = self.lane;
        while self.counts.different() < buffers && !self.stopped() {
            self.random = Random::new(self.seed, stream);
            self.run_sound((stream / LANES) % ON_PURPOSE == ON_PURPOSE / 2);
            stream += LANES;
        }
    }

    /// One sound cache, some damages at random, and now and then those on
    /// purpose.
    fn run_sound(&mut self, on_purpose: bool) {
        let sound = Sound::make(&mut self.random);
        demand_sound(&sound);
        self.counts.sound += 1;
        self.names.clone_from(&sound.names);
        self.compare("sound", &sound.bytes);
        for _ in 0..6 {
            let kind = self.random.below(damage::AT_RANDOM.len());
            let (what, damage) = damage::AT_RANDOM[kind];
            if let Some(bytes) = damage(&mut self.random, &sound) {
                self.compare(what, &bytes);
            }
        }
        self.of_notes = true;
        for _ in 0..4 {
            let (what, damage) = notes::AT_RANDOM[self.random.below(notes::AT_RANDOM.len())];
            if let Some(bytes) = damage(&mut self.random, &sound) {
                self.compare(what, &bytes);
            }
        }
        self.of_notes = false;
        // A cut cache is lent with its other bytes still behind it, where a
        // call that reads too far finds what it expects.
        let length = self.random.below(sound.bytes.len());
        self.compare_lent("cut", &sound.bytes[..length]);
        if on_purpose {
            self.run_on_purpose(&sound);
        }
    }

    fn run_on_purpose(&mut self, sound: &Sound) {
        self.counts.on_purpose.add(&OnPurpose::of(sound));
        let mut damages = Thinned::new(&mut self.random, sound);
        damage::every_field(sound, &damage::fields(sound), |bytes| {
            if damages.take_next() {
                self.compare("every field", bytes);
            }
        });
        self.of_notes = true;
        damage::every_field(sound, &notes::fields(sound), |bytes| {
            if damages.take_next() {
                self.compare("every field of image data", bytes);
            }
        });
        self.of_notes = false;
        damage::every_chain_end(sound, |bytes| {
            if damages.take_next() {
                self.compare("every chain end", bytes);
            }
        });
        for length in 0..sound.bytes.len() {
            if damages.take_next() {
                self.compare_lent("every length", &sound.bytes[..length]);
            }
        }
    }

    /// Lends the buffer with zero bytes behind it, which would end a string.
    fn compare(&mut self, what: &str, bytes: &[u8]) {
        if bytes.len() > LARGE {
            return self.compare_lent(what, bytes);
        }
        let lent = [bytes, &[0; 16]].concat();
        self.compare_lent(what, &lent[..bytes.len()]);
    }

    fn compare_lent(&mut self, what: &str, lent: &[u8]) {
        if self.stopped() {
            return;
        }
        self.counts.meet(lent);
        if let Err(difference) = self.ask_all(lent) {
            self.report = Some(report(what, lent, &difference));
        }
    }

    fn ask_all(&mut self, lent: &[u8]) -> Result<(), Difference> {
        let pair = Pair::new(lent);
        let cache = Asked {
            lent,
            check: pair.check()?,
            check_long: pair.check_long()?,
            chains: reader::chain_lengths(lent),
            pair,
        };
        self.counts.check.note(cache.check.number);
        self.note_check(&cache);
        self.counts.check_long.note(cache.check_long.number);
        self.note_check_long(&cache);
        cache.demand_longest()?;
        self.ask_notes(&cache)?;
        if self.of_notes && !self.random.one_in(OTHERS) {
            return Ok(());
        }
        let names = self.queries(lent);
        self.ask_plain_lookup(&cache, &names)?;
        for (i, name) in names.iter().enumerate() {
            self.ask_lookup(&cache, name, i == 0)?;
            // The first name is mostly there. A case with its own positions has few names.
            let of_case = !self.positions.is_empty() && self.names.contains(name);
            if i == 0 || of_case || self.random.one_in(PICKS) {
                self.ask_pick(&cache, name)?;
            }
        }
        for index in self.indexes(lent) {
            let answer = cache.pair.directory(index)?;
            self.counts.directory.note(answer.number);
            let answer = cache.pair.directory_path(index)?;
            self.counts.path.note(answer.number);
        }
        self.ask_steps(&cache)
    }

    fn note_check(&mut self, cache: &Asked) {
        let reader::Check { number, opened, .. } = cache.check;
        let meetings = &mut self.counts.meetings;
        meetings.note(Met::NameCutOff, number == 17 && opened > 0);
        if number == 12 {
            let (before, records) = cache.before_round();
            let left = opened - before.iter().sum::<usize>();
            let behind_long = before.iter().any(|&records| records > AHEAD);
            meetings.note(Met::LongRound, records > AHEAD);
            meetings.note(Met::RoundBehindLong, behind_long);
            meetings.note(Met::NoneLeftAhead, left == AHEAD);
            meetings.note(Met::OneLeftAhead, left == AHEAD + 1);
        } else if matches!(number, 8..=11 | 17) && opened > AHEAD {
            meetings.note(Met::FaultOnLongRound, cache.fault_on_long_round());
        }
    }

    fn note_check_long(&mut self, cache: &Asked) {
        let (short, long) = (&cache.check, &cache.check_long);
        let meetings = &mut self.counts.meetings;
        let at_fault = matches!(long.number, 22..=24);
        meetings.note(Met::DataAtFault, at_fault && short.number == 0);
        let before = at_fault && matches!(short.number, 7..=11 | 17);
        meetings.note(Met::DataBeforeFault, before);
        let on_round = at_fault && short.number == 12;
        meetings.note(Met::DataOnRound, on_round);
        meetings.note(Met::DataOnLongRound, on_round && long.opened > AHEAD);
    }

    /// Asks for the notes on some images, and on others that are not there.
    fn ask_notes(&mut self, cache: &Asked) -> Result<(), Difference> {
        let there = reader::notes::data_offsets(cache.lent);
        let with_data = cache.check_long.number == 12 && there.last() > Some(&0);
        self.counts.meetings.note(Met::RoundWithData, with_data);
        for data in notes::data_offsets(&mut self.random, cache.lent.len(), &there) {
            let answer = cache.pair.rectangle(data)?;
            self.counts.rectangle.note(answer.number);
            let counts = reader::notes::counts(cache.lent, data);
            for entry in notes::entries(&mut self.random, counts) {
                self.ask_entry(cache, data, entry)?;
            }
            if counts.iter().sum::<usize>() > 0 {
                cache.pair.all_entries(data)?;
            }
        }
        Ok(())
    }

    fn ask_entry(&mut self, cache: &Asked, data: usize, entry: usize) -> Result<(), Difference> {
        let point = cache.pair.attach_point(data, entry)?;
        let language = cache.pair.display_language(data, entry)?;
        let text = cache.pair.display_name(data, entry)?;
        self.counts.point.note(point.number);
        self.counts.language.note(language.number);
        self.counts.text.note(text.number);
        let meetings = &mut self.counts.meetings;
        meetings.note(Met::LastPoint, point.number == 0 && entry == 1_023);
        meetings.note(Met::LastName, text.number == 0 && entry == 1_023);
        meetings.note(Met::LongestText, text.length == 255);
        meetings.note(Met::TextAtZero, text.number == 0 && text.start == 0);
        let behind_fault = language.number == 24 && text.number == 0;
        meetings.note(Met::TextBehindFault, behind_fault);
        let behind_header = matches!(cache.check.number, 3..=5) && point.number == 0;
        meetings.note(Met::NoteBehindHeader, behind_header);
        Ok(())
    }

    /// Steps twice from each of some positions, mostly after a walk from the start on.
    fn ask_steps(&mut self, cache: &Asked) -> Result<(), Difference> {
        let (length, chains) = (cache.lent.len(), &cache.chains);
        let positions = if !self.positions.is_empty() {
            self.positions.clone()
        } else if length > LARGE {
            positions::few(&mut self.random, length, chains)
        } else {
            self.walk(cache)?;
            positions::many(&mut self.random, length, chains)
        };
        for position in positions {
            let step = self.step(cache, position)?;
            if step.number == 0 {
                let next = self.step(cache, step.position)?;
                let largest = step.position.count == length - 10 && next.number == 26;
                self.counts.meetings.note(Met::LargestCount, largest);
            }
        }
        Ok(())
    }

    /// Steps from the start on.
    fn walk(&mut self, cache: &Asked) -> Result<(), Difference> {
        let reader::Check { number, icons, .. } = cache.check;
        let most = match number {
            0 => WALK,
            _ => WALK_REFUSED.min(2 * cache.chains.iter().sum::<usize>()),
        };
        let mut records = Vec::new();
        let mut step = self.step(cache, Position::START)?;
        while step.number == 0 && records.len() < most {
            records.push(step.record);
            step = self.step(cache, step.position)?;
        }
        let whole = number == 0 && icons <= most;
        self.counts.meetings.note(Met::WholeWalk, whole);
        if whole {
            demand_each_once(&records, step.number, icons)?;
        }
        let shared = step.number == 9 && records.contains(&(step.place - 4));
        self.counts.meetings.note(Met::SharedRecord, shared);
        if matches!(step.number, 7..=11 | 17) {
            self.step_behind_fault(cache, &step)?;
        }
        Ok(())
    }

    /// From behind a record at fault a step meets it as well.
    fn step_behind_fault(&mut self, cache: &Asked, fault: &Step) -> Result<(), Difference> {
        let mut behind = fault.position;
        behind.count += 1;
        let step = self.step(cache, behind)?;
        let same = (step.number, step.place) == (fault.number, fault.place);
        let between = (2..cache.chains[behind.bucket]).contains(&behind.count);
        self.counts
            .meetings
            .note(Met::FaultBetween, same && between);
        Ok(())
    }

    fn step(&mut self, cache: &Asked, from: Position) -> Result<Step, Difference> {
        let step = cache.pair.list(from)?;
        self.counts.list.note(step.number);
        let meetings = &mut self.counts.meetings;
        if step.number == 0 {
            let bucket = step.position.bucket;
            meetings.note(Met::EmptyBuckets, bucket > from.bucket + 1);
            let records = cache.chains[from.bucket];
            let again = bucket == from.bucket && from.count >= records;
            meetings.note(Met::RecordAgain, again);
            meetings.note(Met::LongRoundAgain, again && records > AHEAD);
        }
        let at_fault = matches!(step.number, 7..=11 | 17);
        meetings.note(Met::FaultBehindRound, at_fault && cache.check.number == 12);
        if step.number == 28 {
            // With a path at fault the check has opened nothing.
            let reader::Check { number, opened, .. } = cache.check;
            meetings.note(Met::PathAtFault, number == 6);
            meetings.note(Met::SegmentAtFault, number == 16);
            meetings.note(Met::PathCutOff, number == 17 && opened == 0);
            let of_record = (7..=12).contains(&number) || number == 17 && opened > 0;
            meetings.note(Met::FaultBefore, of_record);
        }
        Ok(step)
    }

    /// Asks with no room, too little, just enough and more.
    fn ask_lookup(&mut self, cache: &Asked, name: &[u8], thorough: bool) -> Result<(), Difference> {
        let (answer, _) = cache.pair.lookup(name, 0)?;
        self.counts.lookup.note(answer.number);
        cache.demand_within(&answer)?;
        self.note_longest(cache, &answer);
        if matches!(answer.number, 0 | 14) && answer.opened > AHEAD {
            let on_last = cache.ends_round(name, answer.opened);
            self.counts.meetings.note(Met::FoundOnLongRound, on_last);
        }
        let need = 2 * answer.images;
        let rooms = [need.saturating_sub(1), need, need + 3];
        let chosen = self.random.below(rooms.len());
        for (i, &room) in rooms.iter().enumerate() {
            if thorough || i == chosen {
                let (answer, _) = cache.pair.lookup(name, room)?;
                self.counts.lookup.note(answer.number);
                cache.demand_within(&answer)?;
            }
        }
        Ok(())
    }

    /// Asks one of the names without its hash, each time another one. Each call checks the
    /// whole cache, so of a large one that costs too much.
    fn ask_plain_lookup(&mut self, cache: &Asked, names: &[Vec<u8>]) -> Result<(), Difference> {
        if cache.lent.len() > LARGE && cache.check.opened > 0 {
            return Ok(());
        }
        self.tried += 1;
        let name = &names[self.tried % names.len()];
        let (answer, _) = cache.pair.plain_lookup(name, 0)?;
        self.counts.plain.note(answer.number);
        cache.demand_alike(name, 0, &answer)?;
        if answer.number == 14 {
            let room = 2 * answer.images;
            let (answer, _) = cache.pair.plain_lookup(name, room)?;
            self.counts.plain.note(answer.number);
            cache.demand_alike(name, room, &answer)?;
        }
        Ok(())
    }

    /// Only a chain of several records tells the longest from any other.
    fn note_longest(&mut self, cache: &Asked, answer: &reader::Lookup) {
        let longest = cache.check.longest;
        let met = longest > 1 && answer.opened == longest;
        let meetings = &mut self.counts.meetings;
        meetings.note(Met::LongestMissed, met && answer.number == 30);
        meetings.note(Met::LongestFound, met && matches!(answer.number, 0 | 14));
    }

    fn ask_pick(&mut self, cache: &Asked, name: &[u8]) -> Result<(), Difference> {
        let directories = reader::sizes(cache.lent).map_or(1, |(directories, _)| directories);
        let wanted = Wanted::make(&mut self.random, directories);
        let answer = cache
            .pair
            .pick(name, wanted.size, wanted.scale, &wanted.directories)?;
        self.counts.pick.note(answer.number);
        let meetings = &mut self.counts.meetings;
        let bad_type = wanted.directories.chunks(6).any(|words| words[0] > 2);
        meetings.note(Met::CountBeforeType, answer.number == 31 && bad_type);
        if answer.number != 0 {
            return Ok(());
        }
        if answer.place == 0 {
            meetings.note(Met::NoneFits, answer.passed > 0);
            meetings.note(Met::NoDirectories, answer.passed > 0 && directories == 0);
            return Ok(());
        }
        meetings.note(Met::PickedFirst, answer.passed == 0);
        meetings.note(Met::PickedLater, answer.passed > 0);
        let (directory, ..) = reader::image(cache.lent, answer.place);
        let words = &wanted.directories[6 * usize::from(directory)..][..6];
        let by_type = [Met::PickedFixed, Met::PickedScalable, Met::PickedThreshold];
        meetings.note(by_type[words[0] as usize], true);
        let far_apart = words[0] == 2 && wanted.size.abs_diff(words[1]) > i32::MAX as u32;
        meetings.note(Met::PickedFarApart, far_apart);
        Ok(())
    }

    /// Names to ask for: some that are there, others of the same buckets,
    /// others altogether, and names that are not allowed.
    fn queries(&mut self, cache: &[u8]) -> Vec<Vec<u8>> {
        let random = &mut self.random;
        let there = reader::names(cache);
        let mut queries = Vec::new();
        queries.extend(random.pick(&there).map(|name| name.to_vec()));
        if let (Some((_, buckets)), Some(name)) = (reader::sizes(cache), random.pick(&there)) {
            queries.extend(neighbours(random, name, buckets));
        }
        if cache.len() > LARGE {
            queries.truncate(2);
            queries.push(random.text(3));
            queries.extend(some_of(random, &self.names));
            return queries;
        }
        queries.extend(there.last().map(|name| name.to_vec()));
        queries.extend(random.pick(&there).map(|name| name.to_vec()));
        queries.extend(some_of(random, &self.names));
        let length = random.between(1, 5);
        queries.push(random.text(length));
        let length = *random.pick(&[1, 2, 254, 255]).expect("there are some");
        queries.push(random.text(length));
        queries.push(Vec::new());
        let length = *random.pick(&[256, 257, 512]).expect("there are some");
        queries.push(random.text(length));
        queries.push(with_zero_byte(random, &there));
        queries
    }

    /// Each directory of a small cache, some of a large one, and others that
    /// are not there.
    fn indexes(&mut self, cache: &[u8]) -> Vec<usize> {
        let count = reader::sizes(cache).map_or(1, |(directories, _)| directories);
        let mut indexes: Vec<usize> = (0..count.min(4)).collect();
        if count > 4 {
            indexes.extend([self.random.below(count), count - 1]);
        }
        indexes.extend([count, count + 1, 0xFFFF, usize::MAX]);
        indexes.extend(WRAPPING);
        indexes
    }
}

/// A cache, and what the reader tells of it.
struct Asked<'a> {
    lent: &'a [u8],
    pair: Pair<'a>,
    check: reader::Check,
    check_long: reader::Check,
    /// How many records each chain has.
    chains: Vec<usize>,
}

impl Asked<'_> {
    /// The check says how long the longest chain is, and 0 with a refusal.
    fn demand_longest(&self) -> Result<(), Difference> {
        let reader::Check {
            number, longest, ..
        } = self.check;
        let wanted = match number {
            0 => self.chains.iter().max().copied(),
            _ => Some(0),
        };
        let of_long = match self.check_long.number {
            0 => wanted,
            _ => Some(0),
        };
        if wanted == Some(longest) && of_long == Some(self.check_long.longest) {
            return Ok(());
        }
        Err(Difference {
            call: "the longest chain".into(),
            library: format!("{longest}"),
            reader: format!("{wanted:?} by all chains"),
        })
    }

    /// No lookup in an accepted cache opens more records than the longest chain has.
    fn demand_within(&self, answer: &reader::Lookup) -> Result<(), Difference> {
        if self.check.number != 0 || answer.opened <= self.check.longest {
            return Ok(());
        }
        Err(Difference {
            call: "lookup in an accepted cache".into(),
            library: format!("{answer:?}"),
            reader: format!("the longest chain has {} records", self.check.longest),
        })
    }

    /// In an accepted cache both lookups answer alike, but for the records opened.
    fn demand_alike(
        &self,
        name: &[u8],
        room: usize,
        plain: &reader::Lookup,
    ) -> Result<(), Difference> {
        if self.check.number != 0 {
            return Ok(());
        }
        let (ordinary, _) = self.pair.lookup(name, room)?;
        let opened = plain.opened;
        if *plain == (reader::Lookup { opened, ..ordinary }) {
            return Ok(());
        }
        Err(Difference {
            call: format!("plain lookup {name:02x?} in an accepted cache"),
            library: format!("{plain:?}"),
            reader: format!("{ordinary:?} by the hash"),
        })
    }

    /// Of a cache refused with 12: the lengths of the chains before the one that
    /// never ends, and its own.
    fn before_round(&self) -> (&[usize], usize) {
        let mut buckets = 0..self.chains.len();
        let bucket = buckets.find(|&bucket| reader::round_start(self.lent, bucket).is_some());
        let bucket = bucket.expect("12 is said of a chain that never ends");
        (&self.chains[..bucket], self.chains[bucket])
    }

    /// Of a cache with a record at fault: it is on the round of its chain, behind
    /// [`AHEAD`] records or more.
    fn fault_on_long_round(&self) -> bool {
        let (mut bucket, mut opened) = (0, self.check.opened);
        while opened > self.chains[bucket] {
            opened -= self.chains[bucket];
            bucket += 1;
        }
        let start = reader::round_start(self.lent, bucket);
        start.is_some_and(|start| opened > start.max(AHEAD))
    }

    /// The name's chain has so many records and never ends.
    fn ends_round(&self, name: &[u8], opened: usize) -> bool {
        let bucket = reader::hash(name) as usize % self.chains.len();
        opened == self.chains[bucket] && reader::round_start(self.lent, bucket).is_some()
    }
}

/// Takes all damages of a cache with few records, and every so many of one with
/// many: both the number of damages and the work on each grow with the records.
struct Thinned {
    step: usize,
    turn: usize,
}

impl Thinned {
    fn new(random: &mut Random, sound: &Sound) -> Self {
        let records = sound.names.len();
        let step = 1 + records * records / 400;
        let turn = random.below(step);
        Thinned { step, turn }
    }

    fn take_next(&mut self) -> bool {
        self.turn = (self.turn + 1) % self.step;
        self.turn == 0
    }
}

/// Names of the same bucket: shorter, longer and another one.
fn neighbours(random: &mut Random, name: &[u8], buckets: usize) -> Vec<Vec<u8>> {
    let bucket = reader::hash(name) as usize % buckets;
    let mut names = Vec::new();
    let mut shorter = (1..name.len()).map(|length| &name[..length]);
    let shorter = shorter.find(|start| reader::hash(start) as usize % buckets == bucket);
    names.extend(shorter.map(|start| start.to_vec()));
    if buckets <= 200 {
        names.push(name_in_bucket(random, name, bucket, buckets));
        let start = &name[..name.len() - 1];
        names.push(name_in_bucket(random, start, bucket, buckets));
    }
    let hash = bucket + buckets * random.between(1, 3);
    names.extend(u32::try_from(hash).ok().map(name_of_hash));
    names
}

/// All of a few names, and two of many.
fn some_of(random: &mut Random, names: &[Vec<u8>]) -> Vec<Vec<u8>> {
    if names.len() <= 3 {
        return names.to_vec();
    }
    let two = [random.pick(names), random.pick(names)];
    two.into_iter().flatten().cloned().collect()
}

fn with_zero_byte(random: &mut Random, there: &[&[u8]]) -> Vec<u8> {
    let mut name = match random.pick(there) {
        Some(name) => name.to_vec(),
        None => random.text(3),
    };
    let place = random.between(0, name.len());
    name.insert(place, 0);
    name
}

/// The walk over an accepted cache hands back each record that the check counts.
fn demand_each_once(records: &[usize], number: u32, icons: usize) -> Result<(), Difference> {
    let different: HashSet<_> = records.iter().collect();
    let walk = (records.len(), different.len(), number);
    let expected = (icons, icons, 28);
    if walk == expected {
        return Ok(());
    }
    Err(Difference {
        call: "walk: records, different ones, the last number".into(),
        library: format!("{walk:?}"),
        reader: format!("{expected:?} by the check"),
    })
}

/// The maker keeps its word: the reader finds all that was put in.
fn demand_sound(sound: &Sound) {
    let icons = sound.names.len();
    let lengths = sound.chains.iter().map(Vec::len);
    let expected = reader::Check {
        number: 0,
        place: 0,
        directories: sound.directories,
        icons,
        opened: icons,
        longest: lengths.max().expect("there is a bucket"),
    };
    assert_eq!(
        reader::check(&sound.bytes),
        expected,
        "{}",
        hex(&sound.bytes)
    );
    if sound.long {
        assert_eq!(
            reader::check_long(&sound.bytes),
            expected,
            "{}",
            hex(&sound.bytes)
        );
    }
    assert_eq!(
        walked(&sound.bytes),
        sound.records(),
        "{}",
        hex(&sound.bytes)
    );
}

/// The buckets and records of the reader's steps from the start on.
fn walked(cache: &[u8]) -> Vec<(usize, usize)> {
    let step = |from| Some(reader::list(cache, from)).filter(|step| step.number == 0);
    let steps = iter::successors(step(Position::START), |before| step(before.position));
    let records = steps.map(|step| (step.position.bucket, step.record));
    records.collect()
}

fn report(what: &str, lent: &[u8], difference: &Difference) -> String {
    let length = lent.len();
    // The large buffers are of the fixed series, whose descriptions tell how
    // to make them again.
    let (shown, note) = if length > LARGE {
        (&lent[..1_000], ", the first 1,000")
    } else {
        (lent, "")
    };
    let hex = hex(shown);
    format!("{what}, {length} bytes{note}:\n{hex}\n{difference:?}")
}

fn hex(bytes: &[u8]) -> String {
    bytes.iter().map(|byte| format!("{byte:02X}")).collect()
}
