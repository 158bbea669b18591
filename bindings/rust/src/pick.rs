use crate::{raw, Image, Refusal};

/// How many words [`pick`] takes for each directory.
pub const WORDS_PER_DIRECTORY: usize = 6;

/// An image picked.
#[derive(Clone, Copy, Debug, PartialEq, Eq)]
pub struct Picked {
    /// Where the image stands in the cache.
    pub place: usize,
    /// The image there.
    pub image: Image,
}

/// Picks the first image of an icon, in the order of its image list, whose directory
/// fits the size and the scale; `None` says that none fits.
///
/// A cache doesn't say what its directories are made for. So the caller lends
/// [six words](WORDS_PER_DIRECTORY) for each directory of the cache, in its order:
/// type, Size, Scale, MinSize, MaxSize and Threshold. [`Theme::words`] makes them of
/// the theme's `index.theme`. A directory fits if its Scale is the scale and, by its
/// type,
///
/// | Type | |
/// |---|---|
/// | 0, Fixed | Size is the size |
/// | 1, Scalable | the size is MinSize at least and MaxSize at most |
/// | 2, Threshold | the size and Size are at most Threshold apart |
///
/// An image without a directory never fits. What [`lookup`](crate::lookup) refuses
/// is refused alike, at the same places. After it comes
/// [`WRONG_WORD_COUNT`](Refusal::WRONG_WORD_COUNT), and then
/// [`BAD_TYPE`](Refusal::BAD_TYPE), also of a directory that no image names. Paths
/// are not judged. A pick costs little more time than a lookup.
///
/// ```
/// use icon_cache::{pick, Refusal, FARM_CACHE};
///
/// // "16" is Fixed, "64" is Scalable from 32 to 256.
/// let words = [0, 16, 1, 16, 16, 2, 1, 64, 1, 32, 256, 2];
/// let picked = pick(FARM_CACHE, b"cow", 48, 1, &words)?.unwrap();
/// assert_eq!((picked.place, picked.image.directory), (88, 1));
/// assert_eq!(pick(FARM_CACHE, b"cow", 17, 1, &words)?, None);
/// assert_eq!(pick(FARM_CACHE, b"oat", 48, 1, &words)?, None);
///
/// let refusal = pick(FARM_CACHE, b"cow", 48, 1, &words[..6]).unwrap_err();
/// assert_eq!(refusal.number, Refusal::WRONG_WORD_COUNT);
/// # Ok::<(), Refusal>(())
/// ```
///
/// [`Theme::words`]: crate::Theme::words
pub fn pick(
    cache: &[u8],
    name: &[u8],
    size: u32,
    scale: u32,
    directories: &[u32],
) -> Result<Option<Picked>, Refusal> {
    let answer = raw::pick(cache, name, size, scale, directories);
    match (answer.number, answer.place) {
        // No image stands there: the header does.
        (0, 0) => Ok(None),
        (0, place) => Ok(Some(Picked {
            place,
            image: image(cache, place),
        })),
        (number, place) => Err(Refusal {
            number,
            place,
            opened: 0,
        }),
    }
}

/// An image that the library has picked, and so has judged.
fn image(cache: &[u8], place: usize) -> Image {
    let image: &[u8; 8] = cache[place..].first_chunk().expect("the image lies inside");
    let [d0, d1, f0, f1, data @ ..] = *image;
    Image {
        directory: u16::from_be_bytes([d0, d1]),
        flags: u16::from_be_bytes([f0, f1]),
        data_offset: u32::from_be_bytes(data),
    }
}
