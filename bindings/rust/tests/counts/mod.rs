//! What the comparison has met, so that a run that misses something fails.

use crate::generator::Sound;
use std::collections::HashSet;
use std::hash::{DefaultHasher, Hash, Hasher};

/// The caches damaged on purpose, and the most directories and buckets of one.
#[derive(Default)]
pub struct OnPurpose {
    caches: u64,
    directories: usize,
    buckets: usize,
}

impl OnPurpose {
    pub fn of(sound: &Sound) -> Self {
        OnPurpose {
            caches: 1,
            directories: sound.directories,
            buckets: sound.buckets(),
        }
    }

    pub fn add(&mut self, other: &OnPurpose) {
        self.caches += other.caches;
        self.directories = self.directories.max(other.directories);
        self.buckets = self.buckets.max(other.buckets);
    }

    /// The small caches alone would leave the far ends of the tables alone.
    pub fn demand_large_ones(&self) {
        assert!(self.directories >= 20, "no cache of many directories");
        assert!(self.buckets >= 50, "no cache of many buckets");
    }
}

/// Where a chain has more records, the library looks ahead along it.
pub const AHEAD: usize = 255;

/// What the calls meet and their answer numbers do not tell.
#[derive(Clone, Copy, Debug)]
pub enum Met {
    /// A walk over all records of an accepted cache.
    WholeWalk,
    /// Empty buckets before the record.
    EmptyBuckets,
    /// A record of an endless chain, handed back once more.
    RecordAgain,
    /// The largest count, answered and then refused.
    LargestCount,
    /// A record at fault, from a position before it and one behind it, with
    /// records of its chain on either side.
    FaultBetween,
    /// A record at fault that another chain has handed back.
    SharedRecord,
    /// The end, in a cache with a path at fault by rule 6.
    PathAtFault,
    /// The end, in a cache with a path at fault by rule 16.
    SegmentAtFault,
    /// The end, in a cache with a path at fault by rule 17.
    PathCutOff,
    /// A name at fault by rule 17, in the check.
    NameCutOff,
    /// The end, in a cache with a lower bucket at fault.
    FaultBefore,
    /// An endless chain of more than [`AHEAD`] records, in the check.
    LongRound,
    /// An endless chain behind one of more than [`AHEAD`] records, in the check.
    RoundBehindLong,
    /// A record of a long endless chain, handed back once more.
    LongRoundAgain,
    /// A fault on the round of a long endless chain, in the check.
    FaultOnLongRound,
    /// The last record of a long endless chain, found by its name.
    FoundOnLongRound,
    /// An endless chain of which just [`AHEAD`] records may be opened, and one of
    /// which one more may.
    NoneLeftAhead,
    OneLeftAhead,
    /// A fault in a bucket behind an endless chain.
    FaultBehindRound,
    /// The first image of a list, picked.
    PickedFirst,
    /// An image picked, with others before it that don't fit.
    PickedLater,
    /// An image picked by each type of its directory.
    PickedFixed,
    PickedScalable,
    PickedThreshold,
    /// A size picked that is further from Size than a signed number reaches.
    PickedFarApart,
    /// None that fits, of one image or more.
    NoneFits,
    /// None that fits in a cache without directories, of one image or more.
    NoDirectories,
    /// A type above 2, in words of a wrong number.
    CountBeforeType,
    /// All records of the longest chain opened, of two or more, in an accepted cache:
    /// for an absent name, and for one that its last record bears.
    LongestMissed,
    LongestFound,
    /// A fault in image data, by the long check alone: in a cache that the short one
    /// accepts, before a fault that it finds, on a chain that never ends, and on a long
    /// one.
    DataAtFault,
    DataBeforeFault,
    DataOnRound,
    DataOnLongRound,
    /// A chain that never ends, with image data.
    RoundWithData,
    /// The last entry of the longest list, of attach points and of display names.
    LastPoint,
    LastName,
    /// A language or a text of the greatest length, one at offset 0, and one behind a
    /// language at fault.
    LongestText,
    TextAtZero,
    TextBehindFault,
    /// A note in a cache whose header is refused.
    NoteBehindHeader,
}

impl Met {
    const ALL: [Met; 41] = [
        Met::WholeWalk,
        Met::EmptyBuckets,
        Met::RecordAgain,
        Met::LargestCount,
        Met::FaultBetween,
        Met::SharedRecord,
        Met::PathAtFault,
        Met::SegmentAtFault,
        Met::PathCutOff,
        Met::NameCutOff,
        Met::FaultBefore,
        Met::LongRound,
        Met::RoundBehindLong,
        Met::LongRoundAgain,
        Met::FaultOnLongRound,
        Met::FoundOnLongRound,
        Met::NoneLeftAhead,
        Met::OneLeftAhead,
        Met::FaultBehindRound,
        Met::PickedFirst,
        Met::PickedLater,
        Met::PickedFixed,
        Met::PickedScalable,
        Met::PickedThreshold,
        Met::PickedFarApart,
        Met::NoneFits,
        Met::NoDirectories,
        Met::CountBeforeType,
        Met::LongestMissed,
        Met::LongestFound,
        Met::DataAtFault,
        Met::DataBeforeFault,
        Met::DataOnRound,
        Met::DataOnLongRound,
        Met::RoundWithData,
        Met::LastPoint,
        Met::LastName,
        Met::LongestText,
        Met::TextAtZero,
        Met::TextBehindFault,
        Met::NoteBehindHeader,
    ];
}

/// How often each was met.
pub struct Meetings([u64; Met::ALL.len()]);

impl Meetings {
    pub fn note(&mut self, what: Met, met: bool) {
        self.0[what as usize] += u64::from(met);
    }

    fn add(&mut self, other: &Meetings) {
        for (sum, more) in self.0.iter_mut().zip(other.0) {
            *sum += more;
        }
    }

    fn print(&self) {
        for what in Met::ALL {
            println!("met {what:?} {} times", self.0[what as usize]);
        }
    }

    pub fn demand_all(&self) {
        for what in Met::ALL {
            assert!(self.0[what as usize] > 0, "never met {what:?}");
        }
    }
}

/// How often a call gave each answer number; the largest is 33.
pub struct Answers([u64; 34]);

impl Answers {
    pub fn note(&mut self, number: u32) {
        self.0[number as usize] += 1;
    }

    fn add(&mut self, other: &Answers) {
        for (sum, more) in self.0.iter_mut().zip(other.0) {
            *sum += more;
        }
    }
}

/// Arrays of these lengths have no default.
impl Default for Meetings {
    fn default() -> Self {
        Meetings([0; Met::ALL.len()])
    }
}

impl Default for Answers {
    fn default() -> Self {
        Answers([0; 34])
    }
}

/// How often each answer number was met, by call.
#[derive(Default)]
pub struct Counts {
    buffers: u64,
    /// The hashes of the buffers: damages at random may make the same twice.
    met: HashSet<u64>,
    /// Buffers made sound; damaged ones may be sound too.
    pub sound: u64,
    pub on_purpose: OnPurpose,
    pub check: Answers,
    pub lookup: Answers,
    pub plain: Answers,
    pub directory: Answers,
    pub path: Answers,
    pub list: Answers,
    pub pick: Answers,
    pub check_long: Answers,
    pub rectangle: Answers,
    pub point: Answers,
    pub language: Answers,
    pub text: Answers,
    pub meetings: Meetings,
}

impl Counts {
    pub fn meet(&mut self, buffer: &[u8]) {
        let mut hasher = DefaultHasher::new();
        buffer.hash(&mut hasher);
        self.buffers += 1;
        self.met.insert(hasher.finish());
    }

    pub fn different(&self) -> u64 {
        self.met.len() as u64
    }

    pub fn add(&mut self, other: &Counts) {
        self.buffers += other.buffers;
        self.met.extend(&other.met);
        self.sound += other.sound;
        self.on_purpose.add(&other.on_purpose);
        self.meetings.add(&other.meetings);
        self.check.add(&other.check);
        self.lookup.add(&other.lookup);
        self.plain.add(&other.plain);
        self.directory.add(&other.directory);
        self.path.add(&other.path);
        self.list.add(&other.list);
        self.pick.add(&other.pick);
        self.check_long.add(&other.check_long);
        self.rectangle.add(&other.rectangle);
        self.point.add(&other.point);
        self.language.add(&other.language);
        self.text.add(&other.text);
    }

    /// The counts of each call, and the numbers it can answer.
    fn calls(&self) -> [(&str, &Answers, Vec<usize>); 12] {
        let lookup = [0, 1, 2, 3, 4, 5, 7, 8, 9, 10, 11, 12, 13, 14, 17, 30];
        let directory = [0, 1, 2, 3, 4, 5, 6, 15, 16, 17];
        let list = [0, 1, 2, 3, 4, 5, 7, 8, 9, 10, 11, 17, 26, 28];
        let pick = [0, 1, 2, 3, 4, 5, 7, 8, 9, 10, 11, 12, 13, 17, 30, 31, 32];
        let check = (0..=12).chain([16, 17]);
        let check_long = check.clone().chain(22..=24);
        let plain = check.clone().chain([13, 14, 30]);
        let note = [0, 1, 2, 22, 33];
        let text = [0, 1, 2, 22, 24, 33];
        [
            ("check", &self.check, check.collect()),
            ("long check", &self.check_long, check_long.collect()),
            ("lookup", &self.lookup, lookup.into()),
            ("plain lookup", &self.plain, plain.collect()),
            ("directory", &self.directory, directory.into()),
            ("path", &self.path, directory.into()),
            ("list", &self.list, list.into()),
            ("pick", &self.pick, pick.into()),
            ("rectangle", &self.rectangle, note.into()),
            ("point", &self.point, note.into()),
            ("language", &self.language, text.into()),
            ("text", &self.text, text.into()),
        ]
    }

    pub fn print(&self) {
        let different = self.different();
        println!("{} buffers, {different} different", self.buffers);
        let OnPurpose {
            caches,
            directories,
            buckets,
        } = self.on_purpose;
        println!("{} made sound, {caches} damaged on purpose", self.sound);
        println!("with up to {directories} directories and {buckets} buckets");
        let calls = self.calls();
        let heads = calls.each_ref().map(|(call, ..)| format!("{call:>13}"));
        println!("answer{}", heads.concat());
        for number in (0..=17).chain([22, 23, 24, 26, 28]).chain(30..=33) {
            let counts = calls.each_ref().map(|(_, answers, _)| answers.0[number]);
            let columns = counts.map(|count| format!("{count:>13}"));
            println!("{number:>6}{}", columns.concat());
        }
        self.meetings.print();
    }

    pub fn demand_every_answer(&self) {
        for (call, answers, numbers) in self.calls() {
            for number in numbers {
                assert!(answers.0[number] > 0, "{call} never answered {number}");
            }
        }
    }
}
