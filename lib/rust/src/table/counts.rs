//! What traces have.

use crate::sys;

/// What a trace had.
///
/// ```
/// let counts = smap::Table::new()?.rewrite("Error\n    at f (a.js:1:7)\n".as_bytes(), std::io::sink())?;
/// assert_eq!((counts.lines, counts.frames, counts.mapped, counts.hidden), (2, 1, 0, 0));
/// # Ok::<(), smap::Error>(())
/// ```
#[derive(Clone, Copy, Debug, Default, PartialEq, Eq)]
#[non_exhaustive]
pub struct TraceCounts {
    /// Its lines.
    pub lines: u64,
    /// Lines that are frames, or places anywhere.
    pub frames: u64,
    /// Of these the ones that were replaced.
    pub mapped: u64,
    /// Of these the ones that were left out.
    pub hidden: u64,
}

impl TraceCounts {
    pub(crate) fn of(counts: &sys::smap_trace_count) -> TraceCounts {
        TraceCounts {
            lines: counts.lines,
            frames: counts.frames,
            mapped: counts.mapped,
            hidden: counts.hidden,
        }
    }
}
