//! What can be saved of a cache, asked of the library and of the second reader: number,
//! place, length, rows, and every lent byte and word are compared.

use crate::reader::salvage::{self, Answer, Of, Saved};
use icon_cache::{raw, About};

/// Bytes and words beyond the room on either side, which no call may touch.
const GUARD: usize = 16;

/// Bytes that differ from their neighbours and from zero.
fn marked(count: usize) -> Vec<u8> {
    (0..count).map(|i| 0xA0 + (i % 61) as u8).collect()
}

fn marked_words(count: usize) -> Vec<u32> {
    (0..count).map(|i| 0xA5A5_0000 + i as u32).collect()
}

/// A cache, and what the second reader saves of it.
pub struct Both<'a> {
    cache: &'a [u8],
    pub saved: Result<Saved, (u32, usize)>,
}

/// The answer, the catalogue, and the rows.
pub type Outcome = (Answer, Vec<u8>, Vec<(u32, usize)>);

impl<'a> Both<'a> {
    pub fn of(cache: &'a [u8]) -> Both<'a> {
        Both {
            cache,
            saved: salvage::saved(cache),
        }
    }

    /// Asks both, with so many bytes and words lent.
    pub fn ask(&self, bytes: usize, words: usize) -> Outcome {
        let read = self.cache.to_vec();
        let mut catalogue = marked(bytes + 2 * GUARD);
        let mut report = marked_words(words + 2 * GUARD);
        let answer = raw::salvage(
            &read,
            &mut catalogue[GUARD..][..bytes],
            &mut report[GUARD..][..words],
        );
        let answer = Answer {
            number: answer.number,
            place: answer.place,
            length: answer.length,
            rows: answer.rows,
        };
        assert!(read == self.cache, "the cache was changed");
        let (wanted, right_catalogue, right_report) = self.expected(bytes, words);
        assert_eq!(answer, wanted, "{bytes} bytes and {words} words of room");
        assert!(catalogue == right_catalogue, "other bytes of {bytes}");
        assert!(report == right_report, "other words of {words}");
        let rows = report[GUARD..][..2 * answer.rows].chunks_exact(2);
        let rows = rows.map(|row| (row[0], row[1] as usize)).collect();
        let catalogue = catalogue[GUARD..][..answer.length].to_vec();
        (answer, catalogue, rows)
    }

    fn expected(&self, bytes: usize, words: usize) -> (Answer, Vec<u8>, Vec<u32>) {
        let mut catalogue = marked(bytes + 2 * GUARD);
        let mut report = marked_words(words + 2 * GUARD);
        let lent = (
            &mut catalogue[GUARD..][..bytes],
            &mut report[GUARD..][..words],
        );
        let answer = match &self.saved {
            Ok(saved) => salvage::answer(saved, lent.0, lent.1),
            Err((number, place)) => Answer {
                number: *number,
                place: *place,
                length: 0,
                rows: 0,
            },
        };
        (answer, catalogue, report)
    }

    /// What the call with its own buffers gives, which says what each row is about.
    pub fn demand_typed(&self) {
        let salvaged = icon_cache::salvage(self.cache);
        let saved = match &self.saved {
            Ok(saved) => saved,
            Err(refused) => {
                let refusal = salvaged.unwrap_err();
                assert_eq!((refusal.number, refusal.place), *refused);
                return;
            }
        };
        let Some(catalogue) = saved.catalogue() else {
            assert_eq!(salvaged.unwrap_err().number, 21);
            return;
        };
        let salvaged = salvaged.unwrap();
        assert!(salvaged.catalogue == catalogue);
        let rows: Vec<_> = salvaged.rows().collect();
        assert_eq!(rows.len(), saved.rows.len());
        assert_eq!(salvaged.rows().len(), rows.len());
        for (row, right) in rows.iter().zip(&saved.rows) {
            assert_eq!((row.number, row.place), (right.number, right.place));
            self.demand_about(&row.about, right);
        }
    }

    fn demand_about(&self, about: &About, right: &salvage::Row) {
        let text = |field, longest| salvage::text(self.cache, field, longest);
        match (*about, right.of) {
            (About::Directory { index, path }, Of::Directory(wanted)) => {
                assert_eq!((index, path), (wanted, text(right.place, 1_023)));
            }
            (
                About::Icon {
                    bucket,
                    record,
                    name,
                },
                of,
            ) => {
                assert_eq!(of, Of::Record { bucket, record });
                assert_eq!(name, text(record + 4, 255));
            }
            (About::Image { icon, image }, of) => {
                let record = icon.offset;
                assert_eq!(of, Of::Image { record, image });
                assert_eq!(Some(icon.name), text(record + 4, 255));
            }
            (About::Chain { bucket, behind }, Of::Chain { last, .. }) => {
                assert_eq!(right.of, Of::Chain { bucket, last });
                let last = last.filter(|_| right.number == 7);
                assert_eq!(behind.map(|record| record.offset), last);
                let name = last.and_then(|record| text(record + 4, 255));
                assert_eq!(behind.map(|record| record.name), name);
            }
            (about, of) => panic!("{about:?} is not {of:?}"),
        }
    }
}
