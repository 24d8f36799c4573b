//! From originals to the places of the generated file.

use crate::library;

/// Where the originals of a map stand in its generated file. It is made by
/// [`originals`](crate::SourceMap::originals), and stays when the map goes.
///
/// ```
/// use smap::SourceMap;
///
/// let map = SourceMap::from_slice(br#"{"version":3,"sources":["a.ts"],"mappings":"AAAA,EAAE,EAAF"}"#)?;
/// let originals = map.originals()?;
/// drop(map);
/// let places: Vec<_> = originals.generated(0, 0, 1).map(|place| (place.line, place.column)).collect();
/// assert_eq!(places, [(0, 0), (0, 4)]);
/// # Ok::<(), smap::Error>(())
/// ```
pub struct Originals {
    originals: library::Originals,
}

/// A place of the generated file and its original one, all from 0, columns in UTF-16 code units.
///
/// ```
/// # let map = smap::SourceMap::from_slice(br#"{"version":3,"sources":["a.ts"],"mappings":"EAAA,IAEC"}"#)?;
/// let place = map.originals()?.generated(0, 2, 1).next().unwrap();
/// assert_eq!((place.line, place.column), (0, 6));
/// assert_eq!((place.original_line, place.original_column), (2, 1));
/// # Ok::<(), smap::Error>(())
/// ```
#[derive(Clone, Copy, Debug, PartialEq, Eq)]
#[non_exhaustive]
pub struct Generated {
    /// The generated line.
    pub line: u32,
    /// The generated column.
    pub column: u32,
    /// The original line.
    pub original_line: u32,
    /// The original column.
    pub original_column: u32,
}

impl Originals {
    /// The generated places whose originals stand on a line of a source, from 0: those at the greatest
    /// original column that is not after `column`, in their order.
    ///
    /// ```
    /// # let map = smap::SourceMap::from_slice(br#"{"version":3,"sources":["a.ts"],"mappings":"EAAA,IAEC"}"#)?;
    /// let originals = map.originals()?;
    /// assert_eq!(originals.generated(0, 2, 7).len(), 1);
    /// assert_eq!(originals.generated(0, 2, 0).len(), 0);
    /// # Ok::<(), smap::Error>(())
    /// ```
    pub fn generated(
        &self,
        source: u32,
        line: u32,
        column: u32,
    ) -> impl ExactSizeIterator<Item = Generated> + '_ {
        self.originals.at_or_before(source, line, column)
    }

    /// The same in the other direction: those at the least original column that is not before `column`.
    ///
    /// ```
    /// # let map = smap::SourceMap::from_slice(br#"{"version":3,"sources":["a.ts"],"mappings":"EAAA,IAEC"}"#)?;
    /// let originals = map.originals()?;
    /// assert_eq!(originals.generated_after(0, 2, 0).len(), 1);
    /// assert_eq!(originals.generated_after(0, 2, 2).len(), 0);
    /// # Ok::<(), smap::Error>(())
    /// ```
    pub fn generated_after(
        &self,
        source: u32,
        line: u32,
        column: u32,
    ) -> impl ExactSizeIterator<Item = Generated> + '_ {
        self.originals.at_or_after(source, line, column)
    }

    /// All generated places whose originals stand on a line of a source, from 0: by original columns, and
    /// those of one in their order. A breakpoint on the line stops there.
    ///
    /// ```
    /// # let map = smap::SourceMap::from_slice(br#"{"version":3,"sources":["a.ts"],"mappings":"AAAE,EAAF,EAEA"}"#)?;
    /// let originals = map.originals()?;
    /// let columns: Vec<_> = originals.on_line(0, 0).map(|place| place.column).collect();
    /// assert_eq!(columns, [2, 0]);
    /// # Ok::<(), smap::Error>(())
    /// ```
    pub fn on_line(&self, source: u32, line: u32) -> impl ExactSizeIterator<Item = Generated> + '_ {
        self.originals.on_line(source, line)
    }

    pub(crate) fn of(originals: library::Originals) -> Originals {
        Originals { originals }
    }
}
