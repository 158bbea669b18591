//! What is noted on an image, behind its [data offset](crate::Image::data_offset): a
//! rectangle for text, points to attach emblems to, and names to display, each with its
//! language. Generators take them from `.icon` files.
//!
//! All are asked for by the data offset, which may be any number. What is not there is
//! answered by [`NO_NOTE`](Refusal::NO_NOTE). Only what is read on the way is judged:
//! [`check_long`](crate::check_long) judges all notes, and pixel data too.
//!
//! ```
//! use icon_cache::{lookup, notes, FARM_CACHE};
//!
//! // The farm cache, and behind it the data of the image of "oat", with one display
//! // name.
//! let mut cache = FARM_CACHE.to_vec();
//! cache[72..76].copy_from_slice(&126u32.to_be_bytes());
//! for field in [0, 134, 0, 0, 146, 1, 158, 161u32] {
//!     cache.extend(field.to_be_bytes());
//! }
//! cache.extend(b"de\0Hafer\0");
//!
//! let oat = lookup(&cache, b"oat")?.images[0];
//! let data = oat.data_offset as usize;
//! let names: Result<Vec<_>, _> = notes::display_names(&cache, data).collect();
//! let names = names?;
//! assert_eq!((names[0].language, names[0].text), (&b"de"[..], &b"Hafer"[..]));
//! assert_eq!(notes::attach_points(&cache, data).count(), 0);
//! # Ok::<(), icon_cache::Refusal>(())
//! ```

use crate::{raw, Refusal};
use std::iter;

/// A rectangle for text, as it stands in the cache: nothing says that it is upright or
/// inside the picture.
#[derive(Clone, Copy, Debug, PartialEq, Eq)]
pub struct Rectangle {
    /// Its left edge.
    pub x0: u16,
    /// Its upper edge.
    pub y0: u16,
    /// Its right edge.
    pub x1: u16,
    /// Its lower edge.
    pub y1: u16,
}

/// A point to attach an emblem to, as it stands in the cache.
#[derive(Clone, Copy, Debug, PartialEq, Eq)]
pub struct Point {
    /// How far it is from the left edge.
    pub x: u16,
    /// How far it is from the upper edge.
    pub y: u16,
}

/// A name to display, of 1 to 255 bytes, as its language is. Both are parts of the
/// cache, and may hold any bytes but zero.
#[derive(Clone, Copy, Debug, PartialEq, Eq)]
pub struct DisplayName<'a> {
    /// The language, such as "de". GTK's generator writes "C" for the name of none.
    pub language: &'a [u8],
    /// The name in this language.
    pub text: &'a [u8],
}

/// Gives the rectangle for text in an image.
///
/// ```
/// use icon_cache::{notes, Refusal, FARM_CACHE};
///
/// let refusal = notes::rectangle(FARM_CACHE, 0).unwrap_err();
/// assert_eq!(refusal.number, Refusal::NO_NOTE);
/// let refusal = notes::rectangle(FARM_CACHE, 126).unwrap_err();
/// assert_eq!(refusal.number, Refusal::BAD_IMAGE_DATA);
/// ```
pub fn rectangle(cache: &[u8], data: usize) -> Result<Rectangle, Refusal> {
    let answer = raw::rectangle(cache, data);
    allowed(answer.number, answer.place)?;
    Ok(Rectangle {
        x0: answer.x0,
        y0: answer.y0,
        x1: answer.x1,
        y1: answer.y1,
    })
}

/// Gives one attach point of an image.
pub fn attach_point(cache: &[u8], data: usize, entry: usize) -> Result<Point, Refusal> {
    let answer = raw::attach_point(cache, data, entry);
    allowed(answer.number, answer.place)?;
    Ok(Point {
        x: answer.x,
        y: answer.y,
    })
}

/// Gives the language of one display name of an image, a part of the cache. The text is
/// not judged.
pub fn display_language(cache: &[u8], data: usize, entry: usize) -> Result<&[u8], Refusal> {
    part(cache, raw::display_language(cache, data, entry))
}

/// Gives the text of one display name of an image, a part of the cache. The language is
/// not judged.
pub fn display_name(cache: &[u8], data: usize, entry: usize) -> Result<&[u8], Refusal> {
    part(cache, raw::display_name(cache, data, entry))
}

/// All attach points of an image, in their order. After a refusal none follows.
pub fn attach_points(
    cache: &[u8],
    data: usize,
) -> impl Iterator<Item = Result<Point, Refusal>> + '_ {
    entries(move |entry| attach_point(cache, data, entry))
}

/// All display names of an image, in their order. After a refusal none follows.
pub fn display_names(
    cache: &[u8],
    data: usize,
) -> impl Iterator<Item = Result<DisplayName<'_>, Refusal>> {
    entries(move |entry| {
        Ok(DisplayName {
            language: display_language(cache, data, entry)?,
            text: display_name(cache, data, entry)?,
        })
    })
}

/// Asks for entries from 0 on, up to the first that is not there.
fn entries<T>(
    ask: impl Fn(usize) -> Result<T, Refusal>,
) -> impl Iterator<Item = Result<T, Refusal>> {
    let mut next = Some(0);
    iter::from_fn(move || {
        let entry = next.take()?;
        match ask(entry) {
            Err(refusal) if refusal.number == Refusal::NO_NOTE => None,
            Err(refusal) => Some(Err(refusal)),
            Ok(item) => {
                next = Some(entry + 1);
                Some(Ok(item))
            }
        }
    })
}

fn part(cache: &[u8], text: raw::Text) -> Result<&[u8], Refusal> {
    allowed(text.number, text.place)?;
    Ok(&cache[text.start..][..text.length])
}

fn allowed(number: u32, place: usize) -> Result<(), Refusal> {
    match number {
        0 => Ok(()),
        number => Err(Refusal {
            number,
            place,
            opened: 0,
        }),
    }
}
