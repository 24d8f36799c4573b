//! How much is kept.

use crate::sys;

/// How much [`Maps`](crate::Maps) keep, and what was asked of them.
///
/// ```
/// let mut maps = smap::Maps::with_loader(1 << 20, |_| Ok(None::<Vec<u8>>))?;
/// maps.lookup("a.js", 0, 0)?;
/// maps.lookup("a.js", 0, 0)?;
/// let counts = maps.counts();
/// assert_eq!((counts.maps, counts.nones, counts.asked, counts.hits), (0, 1, 2, 1));
/// # Ok::<(), smap::Error>(())
/// ```
#[derive(Clone, Copy, Debug, Default, PartialEq, Eq)]
#[non_exhaustive]
pub struct MapsCounts {
    /// For how many bytes the maps count.
    pub bytes: u64,
    /// How many maps there are.
    pub maps: u64,
    /// How many URLs are known to have none.
    pub nones: u64,
    /// How often a map was asked for.
    pub asked: u64,
    /// How often that was known.
    pub hits: u64,
    /// How many were dropped because there was no room.
    pub dropped: u64,
}

impl MapsCounts {
    pub(super) fn of(counts: &sys::smap_store_counts) -> MapsCounts {
        MapsCounts {
            bytes: counts.bytes,
            maps: counts.count,
            nones: counts.none_count,
            asked: counts.asked,
            hits: counts.hits,
            dropped: counts.dropped,
        }
    }
}
