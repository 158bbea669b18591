use crate::raw::{self, Position, Step};
use crate::Refusal;
use std::ffi::CStr;
use std::iter::FusedIterator;

/// An icon record.
///
/// ```
/// use icon_cache::{lookup, records, FARM_CACHE};
///
/// for record in records(FARM_CACHE) {
///     let record = record.unwrap();
///     assert_eq!(lookup(FARM_CACHE, record.name).unwrap().record, record.offset);
/// }
/// ```
#[derive(Clone, Copy, Debug, PartialEq, Eq)]
pub struct Record<'a> {
    /// Where it stands in the cache.
    pub offset: usize,
    /// The name that it bears, a part of the cache. It may hold any bytes but
    /// zero.
    pub name: &'a [u8],
}

/// All icon records, in the order in which [`check`](crate::check) meets them.
/// If the check accepts the cache, each comes once.
///
/// Only the records on the way are judged. After a refusal none follows. See
/// [`Records`] for what hostile caches cost.
///
/// ```
/// use icon_cache::{records, FARM_CACHE};
///
/// let names: Vec<&[u8]> = records(FARM_CACHE).map(|r| r.unwrap().name).collect();
/// assert_eq!(names, [b"hen", b"oat", b"cow"]);
///
/// // "cow" is the last string; without its zero byte it runs off the end.
/// let mut records = records(&FARM_CACHE[..125]).skip(2);
/// let refusal = records.next().unwrap().unwrap_err();
/// assert_eq!((refusal.number, refusal.place), (17, 56));
/// assert_eq!(records.next(), None);
/// ```
pub fn records(cache: &[u8]) -> Records<'_> {
    records_from(cache, Position::START)
}

/// The icon records from a position on, which may be made up. A count of its
/// chain's length or more leads on to the next bucket that has a record. If the
/// header is right and the cache has no such bucket, or the count is more than the
/// cache's length less 11, the only item is the refusal
/// [`BAD_POSITION`](Refusal::BAD_POSITION). Lower buckets are not judged.
///
/// ```
/// use icon_cache::{records_from, Position, Refusal, FARM_CACHE};
///
/// // The chain of bucket 0 has two records, and bucket 1 has none.
/// let position = Position { bucket: 0, count: 99 };
/// let cow = records_from(FARM_CACHE, position).next().unwrap().unwrap();
/// assert_eq!((cow.offset, cow.name), (52, b"cow".as_slice()));
///
/// // There are three buckets.
/// let position = Position { bucket: 3, count: 0 };
/// let refusal = records_from(FARM_CACHE, position).next().unwrap().unwrap_err();
/// assert_eq!(refusal.number, Refusal::BAD_POSITION);
/// ```
pub fn records_from(cache: &[u8], position: Position) -> Records<'_> {
    Records {
        cache,
        position,
        finished: false,
    }
}

/// An iterator over icon records, see [`records`].
///
/// Nothing but its [`position`](Records::position) is needed to go on later:
///
/// ```
/// use icon_cache::{records, records_from, Record, Refusal, FARM_CACHE};
///
/// let mut records = records(FARM_CACHE);
/// let page: Result<Vec<Record>, Refusal> = records.by_ref().take(2).collect();
/// assert_eq!(page?.len(), 2);
/// let kept = records.position();
///
/// let mut next_page = records_from(FARM_CACHE, kept);
/// assert_eq!(next_page.next().unwrap()?.name, b"cow");
/// assert_eq!(next_page.next(), None);
/// # Ok::<(), Refusal>(())
/// ```
///
/// Since a position holds no offset, each step passes the records of its chain
/// anew, and a chain costs the square of its length. On a chain that
/// never ends the records come round and round, until the count is the cache's
/// length less 10; then comes [`BAD_POSITION`](Refusal::BAD_POSITION). So take a
/// page at a time where nothing has judged the cache, or ask
/// [`check`](crate::check) first.
#[derive(Clone, Debug)]
#[must_use = "iterators are lazy"]
pub struct Records<'a> {
    cache: &'a [u8],
    position: Position,
    finished: bool,
}

impl Records<'_> {
    /// The position after the last record handed back. A refusal and the end
    /// leave it as it was.
    ///
    /// ```
    /// use icon_cache::{records, Position, FARM_CACHE};
    ///
    /// let mut records = records(FARM_CACHE);
    /// assert_eq!(records.position(), Position::START);
    /// assert_eq!(records.by_ref().count(), 3);
    /// assert_eq!(records.position(), Position { bucket: 2, count: 1 });
    /// ```
    pub fn position(&self) -> Position {
        self.position
    }
}

impl<'a> Iterator for Records<'a> {
    type Item = Result<Record<'a>, Refusal>;

    fn next(&mut self) -> Option<Self::Item> {
        if self.finished {
            return None;
        }
        let step = raw::list(self.cache, self.position);
        self.position = step.position;
        self.finished = step.number != 0;
        match step.number {
            0 => Some(Ok(Record {
                offset: step.record,
                name: name(self.cache, step.record),
            })),
            Step::DONE => None,
            number => Some(Err(Refusal {
                number,
                place: step.place,
                opened: 0,
            })),
        }
    }
}

impl FusedIterator for Records<'_> {}

/// The name of a record that the library has handed back, and so has judged.
fn name(cache: &[u8], record: usize) -> &[u8] {
    let field = cache[record + 4..].first_chunk();
    let start = u32::from_be_bytes(*field.expect("the record lies inside"));
    let name = CStr::from_bytes_until_nul(&cache[start as usize..]);
    name.expect("a zero byte ends the name").to_bytes()
}
