//! The calls by a data offset.

use super::{refused, Difference, Pair};
use crate::reader::notes as reader;
use icon_cache::notes::{self, Point, Rectangle};
use icon_cache::{raw, Refusal};

/// A call for a string: its name, the raw one, the safe one and the reader's.
type TextCall = (
    &'static str,
    fn(&[u8], usize, usize) -> raw::Text,
    for<'a> fn(&'a [u8], usize, usize) -> Result<&'a [u8], Refusal>,
    fn(&[u8], usize, usize) -> reader::Text,
);

const LANGUAGE: TextCall = (
    "language",
    raw::display_language,
    notes::display_language,
    reader::display_language,
);
const NAME: TextCall = (
    "name",
    raw::display_name,
    notes::display_name,
    reader::display_name,
);

impl Pair<'_> {
    pub fn rectangle(&self, data: usize) -> Result<reader::Rectangle, Difference> {
        let answer = raw::rectangle(self.lent, data);
        let library = reader::Rectangle {
            number: answer.number,
            place: answer.place,
            corners: [answer.x0, answer.y0, answer.x1, answer.y1],
        };
        let reader = reader::rectangle(&self.copy, data);
        let call = || format!("rectangle behind {data}");
        self.agree(call, library, reader)?;
        let [x0, y0, x1, y1] = reader.corners;
        let safe = notes::rectangle(self.lent, data);
        let expected =
            refused(reader.number, reader.place, 0).map(|()| Rectangle { x0, y0, x1, y1 });
        self.agree(|| format!("safe {}", call()), safe, expected)?;
        Ok(reader)
    }

    pub fn attach_point(
        &self,
        data: usize,
        entry: usize,
    ) -> Result<reader::AttachPoint, Difference> {
        let answer = raw::attach_point(self.lent, data, entry);
        let library = reader::AttachPoint {
            number: answer.number,
            place: answer.place,
            point: [answer.x, answer.y],
        };
        let reader = reader::attach_point(&self.copy, data, entry);
        let call = || format!("attach point {entry} behind {data}");
        self.agree(call, library, reader)?;
        let [x, y] = reader.point;
        let safe = notes::attach_point(self.lent, data, entry);
        let expected = refused(reader.number, reader.place, 0).map(|()| Point { x, y });
        self.agree(|| format!("safe {}", call()), safe, expected)?;
        Ok(reader)
    }

    pub fn display_language(&self, data: usize, entry: usize) -> Result<reader::Text, Difference> {
        self.text(LANGUAGE, data, entry)
    }

    pub fn display_name(&self, data: usize, entry: usize) -> Result<reader::Text, Difference> {
        self.text(NAME, data, entry)
    }

    fn text(
        &self,
        (what, raw, safe, reader): TextCall,
        data: usize,
        entry: usize,
    ) -> Result<reader::Text, Difference> {
        let answer = raw(self.lent, data, entry);
        let library = reader::Text {
            number: answer.number,
            place: answer.place,
            start: answer.start,
            length: answer.length,
        };
        let reader = reader(&self.copy, data, entry);
        let call = || format!("display {what} {entry} behind {data}");
        self.agree(call, library, reader)?;
        let safe = safe(self.lent, data, entry).map(|text| self.place_of(text));
        let expected = refused(reader.number, reader.place, 0);
        let expected = expected.map(|()| (reader.start, reader.length));
        self.agree(|| format!("safe {}", call()), safe, expected)?;
        Ok(reader)
    }

    /// All entries, one by one and by the iterators, which end at the first refusal.
    pub fn all_entries(&self, data: usize) -> Result<(), Difference> {
        let points = notes::attach_points(self.lent, data).collect();
        let expected = entries(|entry| {
            let answer = reader::attach_point(&self.copy, data, entry);
            let [x, y] = answer.point;
            (answer.number, answer.place, Point { x, y })
        });
        self.agree(|| format!("attach points behind {data}"), points, expected)?;
        let names = notes::display_names(self.lent, data);
        let names =
            names.map(|name| name.map(|n| (self.place_of(n.language), self.place_of(n.text))));
        let expected = entries(|entry| {
            let language = reader::display_language(&self.copy, data, entry);
            let text = reader::display_name(&self.copy, data, entry);
            let refused = [&language, &text].into_iter().find(|text| text.number != 0);
            let (number, place) = refused.map_or((0, 0), |text| (text.number, text.place));
            let parts = [&language, &text].map(|text| (text.start, text.length));
            (number, place, parts.into())
        });
        let call = || format!("display names behind {data}");
        self.agree(call, names.collect(), expected)
    }
}

/// What an iterator over the entries has to give.
fn entries<T>(answer: impl Fn(usize) -> (u32, usize, T)) -> Vec<Result<T, Refusal>> {
    let mut entries = Vec::new();
    loop {
        let (number, place, entry) = answer(entries.len());
        if number == 33 {
            return entries;
        }
        entries.push(refused(number, place, 0).map(|()| entry));
        if number != 0 {
            return entries;
        }
    }
}
