//! What stands behind an image's data offset: rules 22 to 24 and the notes.
//!
//! A part is cut out of the cache by `part`, which adds no lengths. What is demanded of
//! an image is written down in its order; the first demand that is not kept counts.

use super::{count, fault, number, part, string, Fault, Icon};

#[derive(Clone, Copy, Debug, PartialEq, Eq)]
pub struct Rectangle {
    pub number: u32,
    pub place: usize,
    /// Left, top, right and bottom.
    pub corners: [u16; 4],
}

#[derive(Clone, Copy, Debug, PartialEq, Eq)]
pub struct AttachPoint {
    pub number: u32,
    pub place: usize,
    pub point: [u16; 2],
}

/// A string as a part of the cache; 0 and 0 with a refusal.
#[derive(Clone, Copy, Debug, PartialEq, Eq)]
pub struct Text {
    pub number: u32,
    pub place: usize,
    pub start: usize,
    pub length: usize,
}

/// The largest number of entries in a list.
const MOST: usize = 1_024;

const POINT: usize = 4;
const NAME: usize = 8;

/// What a field that is read as an offset names, if there is such a part.
fn named(cache: &[u8], field: usize) -> Option<usize> {
    Some(number(cache, field, 4)).filter(|&offset| offset != 0)
}

fn is_inside(cache: &[u8], offset: usize, length: usize) -> bool {
    part(cache, offset, length).is_some()
}

/// The number of entries, if the list is allowed.
fn entries(cache: &[u8], list: usize, width: usize) -> Option<usize> {
    count(cache, list, width).filter(|&count| count <= MOST)
}

/// The length of the string that a field names, if it is allowed.
fn length(cache: &[u8], field: usize) -> Option<usize> {
    let text = string(cache, number(cache, field, 4), 255, 24);
    text.ok().map(<[u8]>::len)
}

// The long check.

/// Refusals 22 to 24 on all images of a record.
pub(super) fn judge(cache: &[u8], icon: &Icon) -> Result<(), Fault> {
    (0..icon.images).try_for_each(|i| judge_image(cache, icon.image(i)))
}

fn judge_image(cache: &[u8], image: usize) -> Result<(), Fault> {
    let Some(data) = named(cache, image + 4) else {
        return Ok(());
    };
    demand(is_inside(cache, data, 8), 22, image + 4)?;
    if let Some(pixels) = named(cache, data) {
        demand(pixels_inside(cache, pixels), 22, data)?;
        demand(number(cache, pixels, 4) == 0, 23, data)?;
    }
    let Some(meta) = named(cache, data + 4) else {
        return Ok(());
    };
    demand(is_inside(cache, meta, 12), 22, data + 4)?;
    if let Some(rectangle) = named(cache, meta) {
        demand(is_inside(cache, rectangle, 8), 22, meta)?;
    }
    if let Some(points) = named(cache, meta + 4) {
        demand(entries(cache, points, POINT).is_some(), 22, meta + 4)?;
    }
    if let Some(names) = named(cache, meta + 8) {
        let count = entries(cache, names, NAME).ok_or(fault(22, meta + 8))?;
        // Language, text, language, text and so on.
        let mut fields = (0..2 * count).map(|field| names + 4 + 4 * field);
        fields.try_for_each(|field| demand(length(cache, field).is_some(), 24, field))?;
    }
    Ok(())
}

fn pixels_inside(cache: &[u8], pixels: usize) -> bool {
    let Some(head) = part(cache, pixels, 8) else {
        return false;
    };
    let length = number(head, 4, 4);
    is_inside(&cache[pixels..], 8, length)
}

fn demand(kept: bool, number: u32, place: usize) -> Result<(), Fault> {
    match kept {
        true => Ok(()),
        false => Err(fault(number, place)),
    }
}

// The calls by a data offset.

pub fn rectangle(cache: &[u8], data: usize) -> Rectangle {
    let found = meta_data(cache, data).and_then(|meta| {
        let rectangle = named(cache, meta).ok_or(fault(33, 0))?;
        let bytes = part(cache, rectangle, 8).ok_or(fault(22, meta))?;
        Ok([0, 2, 4, 6].map(|at| number(bytes, at, 2) as u16))
    });
    let (number, place, corners) = answer(found);
    Rectangle {
        number,
        place,
        corners,
    }
}

pub fn attach_point(cache: &[u8], data: usize, entry: usize) -> AttachPoint {
    let found = entry_at(cache, data, 4, POINT, entry);
    let found = found.map(|at| [at, at + 2].map(|field| number(cache, field, 2) as u16));
    let (number, place, point) = answer(found);
    AttachPoint {
        number,
        place,
        point,
    }
}

pub fn display_language(cache: &[u8], data: usize, entry: usize) -> Text {
    text(cache, entry_at(cache, data, 8, NAME, entry))
}

pub fn display_name(cache: &[u8], data: usize, entry: usize) -> Text {
    let entry = entry_at(cache, data, 8, NAME, entry);
    text(cache, entry.map(|entry| entry + 4))
}

/// The string that a field names, if there is one.
fn text(cache: &[u8], field: Result<usize, Fault>) -> Text {
    let found = field.and_then(|field| {
        let length = length(cache, field).ok_or(fault(24, field))?;
        Ok((number(cache, field, 4), length))
    });
    let (number, place, (start, length)) = answer(found);
    Text {
        number,
        place,
        start,
        length,
    }
}

/// Where the meta data of an image stands.
fn meta_data(cache: &[u8], data: usize) -> Result<usize, Fault> {
    match cache.len() {
        0..=11 => return Err(fault(1, 0)),
        12..=16_777_216 => {}
        _ => return Err(fault(2, 0)),
    }
    if data == 0 {
        return Err(fault(33, 0));
    }
    demand(is_inside(cache, data, 8), 22, 0)?;
    let meta = named(cache, data + 4).ok_or(fault(33, 0))?;
    demand(is_inside(cache, meta, 12), 22, data + 4)?;
    Ok(meta)
}

/// Where an entry stands, of the list that this field of the meta data names.
fn entry_at(
    cache: &[u8],
    data: usize,
    field: usize,
    width: usize,
    entry: usize,
) -> Result<usize, Fault> {
    let field = meta_data(cache, data)? + field;
    let list = named(cache, field).ok_or(fault(33, 0))?;
    let count = entries(cache, list, width).ok_or(fault(22, field))?;
    let mut places = (0..count).map(|entry| list + 4 + width * entry);
    places.nth(entry).ok_or(fault(33, 0))
}

fn answer<T: Default>(found: Result<T, Fault>) -> (u32, usize, T) {
    match found {
        Ok(found) => (0, 0, found),
        Err(fault) => (fault.number, fault.place, T::default()),
    }
}

// What there is to ask for.

/// The data offsets of the images of all records that keep the other rules.
pub fn data_offsets(cache: &[u8]) -> Vec<usize> {
    let offsets = super::icons(cache).into_iter().flat_map(|icon| {
        let images: Vec<usize> = (0..icon.images).map(|i| icon.image(i) + 4).collect();
        images
    });
    let mut offsets: Vec<usize> = offsets.map(|field| number(cache, field, 4)).collect();
    offsets.sort_unstable();
    offsets.dedup();
    offsets
}

/// How many attach points and display names an image has, 0 where there is no list.
pub fn counts(cache: &[u8], data: usize) -> [usize; 2] {
    let meta = meta_data(cache, data).ok();
    [(4, POINT), (8, NAME)].map(|(field, width)| {
        let list = meta.and_then(|meta| named(cache, meta + field));
        let count = list.and_then(|list| entries(cache, list, width));
        count.unwrap_or(0)
    })
}
