use crate::catalogue::kept;
use crate::{raw, Refusal, LARGEST};

/// Rewrites a cache without dead bytes: gaps, icons whose name an icon before them has, and
/// strings and image lists that are there already. The buckets stay as many as they were.
///
/// [`check`](crate::check()) accepts what it gives, each [`lookup`](crate::lookup()) gives the
/// same images, and squeezing that again gives the same bytes.
///
/// Refused are, in this order, what [`check`](crate::check()) refuses; more than
/// [`MOST_BUCKETS`](crate::MOST_BUCKETS) buckets, at 4, and an image with data, at the image
/// ([`NOT_WRITTEN`](Refusal::NOT_WRITTEN)), since data is not written; and a cache that would
/// be longer than [`LARGEST`] ([`DOES_NOT_FIT`](Refusal::DOES_NOT_FIT)), as may be where parts
/// overlap.
///
/// It needs 640 KiB of stack. A cache that was made to cost time, with more than 983,040
/// records on one chain, can take days.
///
/// ```
/// use icon_cache::{squeeze, FARM_CACHE};
///
/// assert_eq!(squeeze(FARM_CACHE)?, FARM_CACHE);
///
/// // Bytes behind the last string.
/// let longer = [&FARM_CACHE[..], &[7; 1_000]].concat();
/// assert_eq!(squeeze(&longer)?, FARM_CACHE);
/// # Ok::<(), icon_cache::Refusal>(())
/// ```
pub fn squeeze(cache: &[u8]) -> Result<Vec<u8>, Refusal> {
    let mut squeezed = vec![0; cache.len()];
    let mut answer = raw::squeeze(cache, &mut squeezed);
    // Where parts overlap, it may be longer than the cache.
    if answer.number == Refusal::DOES_NOT_FIT {
        squeezed = vec![0; LARGEST];
        answer = raw::squeeze(cache, &mut squeezed);
    }
    kept(answer)?;
    squeezed.truncate(answer.length);
    squeezed.shrink_to_fit();
    Ok(squeezed)
}
