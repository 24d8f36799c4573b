//! Mappings, and what they lead to.

use crate::encoding::Original;
use crate::library::Bytes;
use crate::map::SourceMap;
use crate::sys;
use std::fmt;
use std::iter::FusedIterator;

/// The kind of an answer that leads to an original, of one that leads to none, and of no answer.
pub(crate) const MAPPED: u32 = 2;
pub(crate) const UNMAPPED: u32 = 1;
pub(crate) const NONE: u32 = 0;

/// A mapping: a generated position, and the original one where it has one. All lines, columns and
/// indices count from 0, columns in UTF-16 code units.
///
/// ```
/// # let map = smap::SourceMap::from_slice(br#"{"version":3,"sources":["a.ts"],"names":["f"],"mappings":"C,EAECA"}"#)?;
/// let token = map.lookup(0, 3).unwrap();
/// assert_eq!((token.get_dst(), token.get_source(), token.get_src()), ((0, 3), Some("a.ts"), Some((2, 1))));
///
/// let unmapped = map.lookup(0, 1).unwrap();
/// assert_eq!((unmapped.get_dst(), unmapped.get_source(), unmapped.get_src()), ((0, 1), None, None));
/// # Ok::<(), smap::Error>(())
/// ```
#[derive(Clone, Copy)]
pub struct Token<'a> {
    map: &'a SourceMap,
    line: u32,
    column: u32,
    original: Option<Original>,
}

impl<'a> Token<'a> {
    /// What a look-up on this line answers.
    pub(crate) fn found(
        map: &'a SourceMap,
        line: u32,
        found: &sys::smap_found,
    ) -> Option<Token<'a>> {
        (found.kind != NONE).then(|| Token {
            map,
            line,
            column: found.generated_column,
            original: (found.kind == MAPPED).then(|| Original {
                source: found.source,
                line: found.line,
                column: found.column,
                name: (found.named != 0).then_some(found.name),
            }),
        })
    }

    pub(crate) fn original(&self) -> Option<Original> {
        self.original
    }

    /// The generated line.
    ///
    /// ```
    /// # let map = smap::SourceMap::from_slice(br#"{"version":3,"sources":["a.ts"],"names":["f"],"mappings":";EAECA"}"#)?;
    /// assert_eq!(map.lookup(1, 3).unwrap().get_dst_line(), 1);
    /// # Ok::<(), smap::Error>(())
    /// ```
    pub fn get_dst_line(&self) -> u32 {
        self.line
    }

    /// The generated column.
    ///
    /// ```
    /// # let map = smap::SourceMap::from_slice(br#"{"version":3,"sources":["a.ts"],"names":["f"],"mappings":";EAECA"}"#)?;
    /// assert_eq!(map.lookup(1, 3).unwrap().get_dst_col(), 2);
    /// # Ok::<(), smap::Error>(())
    /// ```
    pub fn get_dst_col(&self) -> u32 {
        self.column
    }

    /// The generated line and column.
    ///
    /// ```
    /// # let map = smap::SourceMap::from_slice(br#"{"version":3,"sources":["a.ts"],"names":["f"],"mappings":";EAECA"}"#)?;
    /// assert_eq!(map.lookup(1, 3).unwrap().get_dst(), (1, 2));
    /// # Ok::<(), smap::Error>(())
    /// ```
    pub fn get_dst(&self) -> (u32, u32) {
        (self.line, self.column)
    }

    /// The number of the source.
    ///
    /// ```
    /// # let map = smap::SourceMap::from_slice(br#"{"version":3,"sources":["a.ts"],"names":["f"],"mappings":";EAECA"}"#)?;
    /// assert_eq!(map.lookup(1, 3).unwrap().get_src_id(), Some(0));
    /// # Ok::<(), smap::Error>(())
    /// ```
    pub fn get_src_id(&self) -> Option<u32> {
        self.original.map(|original| original.source)
    }

    /// The name of the source, where it has one.
    ///
    /// ```
    /// # let map = smap::SourceMap::from_slice(br#"{"version":3,"sources":["a.ts"],"names":["f"],"mappings":";EAECA"}"#)?;
    /// assert_eq!(map.lookup(1, 3).unwrap().get_source(), Some("a.ts"));
    /// # Ok::<(), smap::Error>(())
    /// ```
    pub fn get_source(&self) -> Option<&'a str> {
        self.map.get_source(self.get_src_id()?)
    }

    /// The original line.
    ///
    /// ```
    /// # let map = smap::SourceMap::from_slice(br#"{"version":3,"sources":["a.ts"],"names":["f"],"mappings":";EAECA"}"#)?;
    /// assert_eq!(map.lookup(1, 3).unwrap().get_src_line(), Some(2));
    /// # Ok::<(), smap::Error>(())
    /// ```
    pub fn get_src_line(&self) -> Option<u32> {
        self.original.map(|original| original.line)
    }

    /// The original column.
    ///
    /// ```
    /// # let map = smap::SourceMap::from_slice(br#"{"version":3,"sources":["a.ts"],"names":["f"],"mappings":";EAECA"}"#)?;
    /// assert_eq!(map.lookup(1, 3).unwrap().get_src_col(), Some(1));
    /// # Ok::<(), smap::Error>(())
    /// ```
    pub fn get_src_col(&self) -> Option<u32> {
        self.original.map(|original| original.column)
    }

    /// The original line and column.
    ///
    /// ```
    /// # let map = smap::SourceMap::from_slice(br#"{"version":3,"sources":["a.ts"],"names":["f"],"mappings":";EAECA"}"#)?;
    /// assert_eq!(map.lookup(1, 3).unwrap().get_src(), Some((2, 1)));
    /// # Ok::<(), smap::Error>(())
    /// ```
    pub fn get_src(&self) -> Option<(u32, u32)> {
        self.original
            .map(|original| (original.line, original.column))
    }

    /// The number of the name.
    ///
    /// ```
    /// # let map = smap::SourceMap::from_slice(br#"{"version":3,"sources":["a.ts"],"names":["f"],"mappings":";EAECA"}"#)?;
    /// assert_eq!(map.lookup(1, 3).unwrap().get_name_id(), Some(0));
    /// # Ok::<(), smap::Error>(())
    /// ```
    pub fn get_name_id(&self) -> Option<u32> {
        self.original?.name
    }

    /// The name that stands at the original position, where the map says it.
    ///
    /// ```
    /// # let map = smap::SourceMap::from_slice(br#"{"version":3,"sources":["a.ts"],"names":["f"],"mappings":";EAECA"}"#)?;
    /// assert_eq!(map.lookup(1, 3).unwrap().get_name(), Some("f"));
    /// # Ok::<(), smap::Error>(())
    /// ```
    pub fn get_name(&self) -> Option<&'a str> {
        self.map.get_name(self.get_name_id()?)
    }
}

impl fmt::Debug for Token<'_> {
    fn fmt(&self, to: &mut fmt::Formatter<'_>) -> fmt::Result {
        write!(to, "Token {}:{}", self.line, self.column)?;
        if let Some(Original { line, column, .. }) = self.original {
            write!(to, " from {:?}:{}:{}", self.get_source(), line, column)?;
        }
        self.get_name()
            .map_or(Ok(()), |name| write!(to, " name {:?}", name))
    }
}

/// The mappings of a map, which [`SourceMap::mappings`] gives.
///
/// ```
/// # let map = smap::SourceMap::from_slice(br#"{"version":3,"sources":["a.ts"],"mappings":"C,EAEC"}"#)?;
/// let mut mappings = map.mappings()?;
/// assert_eq!(mappings.len(), 2);
/// assert_eq!(mappings.next().unwrap().get_src_id(), None);
/// assert_eq!(mappings.next().unwrap().get_src_id(), Some(0));
/// # Ok::<(), smap::Error>(())
/// ```
pub struct Mappings<'a> {
    map: &'a SourceMap,
    bytes: Bytes,
    at: usize,
}

impl<'a> Mappings<'a> {
    pub(crate) fn new(map: &'a SourceMap, bytes: Bytes) -> Mappings<'a> {
        Mappings { map, bytes, at: 0 }
    }
}

impl<'a> Iterator for Mappings<'a> {
    type Item = Token<'a>;

    fn next(&mut self) -> Option<Token<'a>> {
        let mapping = self.bytes.as_mappings().get(self.at)?;
        self.at += 1;
        let found = sys::smap_found {
            kind: mapping.kind,
            generated_column: mapping.column,
            source: mapping.source,
            line: mapping.original_line,
            column: mapping.original_column,
            named: mapping.named,
            name: mapping.name,
        };
        Token::found(self.map, mapping.line, &found)
    }

    fn size_hint(&self) -> (usize, Option<usize>) {
        let left = self.bytes.as_mappings().len() - self.at;
        (left, Some(left))
    }
}

impl ExactSizeIterator for Mappings<'_> {}

impl FusedIterator for Mappings<'_> {}

impl fmt::Debug for Mappings<'_> {
    fn fmt(&self, to: &mut fmt::Formatter<'_>) -> fmt::Result {
        write!(to, "Mappings, of which {} are left", self.len())
    }
}
