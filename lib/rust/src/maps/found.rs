//! What a look-up by URL answers.

use crate::library;
use crate::token::{MAPPED, NONE};

/// The mapping that answers a look-up by URL, with copies of its texts. Lines and columns count from
/// 0, columns in UTF-16 code units.
///
/// ```
/// let mut maps = smap::Maps::with_folder(64 << 20, "https://example.test/", "../../examples")?;
/// let found = maps.lookup("https://example.test/receipt.min.js", 1, 4471)?.unwrap();
/// assert_eq!((found.get_dst(), found.get_src()), ((1, 4471), Some((10, 46))));
/// # Ok::<(), smap::Error>(())
/// ```
#[derive(Clone, Debug, PartialEq, Eq)]
pub struct Found {
    generated: (u32, u32),
    original: Option<(u32, u32)>,
    source: Option<String>,
    name: Option<String>,
}

impl Found {
    /// What a look-up on this line answers.
    pub(crate) fn of(line: u32, found: library::Found) -> Option<Found> {
        let answer = &found.found;
        (answer.kind != NONE).then(|| Found {
            generated: (line, answer.generated_column),
            original: (answer.kind == MAPPED).then_some((answer.line, answer.column)),
            source: found.source,
            name: found.name,
        })
    }

    /// The generated line and column.
    ///
    /// ```
    /// # let mut maps = smap::Maps::with_folder(64 << 20, "https://example.test/", "../../examples")?;
    /// # let found = maps.lookup("https://example.test/receipt.min.js", 1, 4471)?.unwrap();
    /// assert_eq!(found.get_dst(), (1, 4471));
    /// # Ok::<(), smap::Error>(())
    /// ```
    pub fn get_dst(&self) -> (u32, u32) {
        self.generated
    }

    /// The original line and column, where the mapping has an original.
    ///
    /// ```
    /// # let mut maps = smap::Maps::with_folder(64 << 20, "https://example.test/", "../../examples")?;
    /// # let found = maps.lookup("https://example.test/receipt.min.js", 1, 4471)?.unwrap();
    /// assert_eq!(found.get_src(), Some((10, 46)));
    /// # Ok::<(), smap::Error>(())
    /// ```
    pub fn get_src(&self) -> Option<(u32, u32)> {
        self.original
    }

    /// The name of the source, where there is one that has one.
    ///
    /// ```
    /// # let mut maps = smap::Maps::with_folder(64 << 20, "https://example.test/", "../../examples")?;
    /// # let found = maps.lookup("https://example.test/receipt.min.js", 1, 4471)?.unwrap();
    /// assert_eq!(found.get_source(), Some("https://example.test/src/receipt.ts"));
    /// # Ok::<(), smap::Error>(())
    /// ```
    pub fn get_source(&self) -> Option<&str> {
        self.source.as_deref()
    }

    /// The name of the mapping, where it has one.
    ///
    /// ```
    /// # let mut maps = smap::Maps::with_folder(64 << 20, "https://example.test/", "../../examples")?;
    /// # let found = maps.lookup("https://example.test/receipt.min.js", 1, 4471)?.unwrap();
    /// assert_eq!(found.get_name(), None);
    /// # Ok::<(), smap::Error>(())
    /// ```
    pub fn get_name(&self) -> Option<&str> {
        self.name.as_deref()
    }
}
