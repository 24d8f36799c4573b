//! Lines around one of a source.

use crate::map::SourceMap;

/// A line of a source, with lines before and after it.
///
/// ```
/// # let map = smap::SourceMap::from_slice(
/// #     br#"{"version":3,"sources":["a.ts"],"sourcesContent":["one\ntwo\nthree"],"mappings":""}"#,
/// # )?;
/// let context = map.context(0, 1, 5, 1).unwrap();
/// assert_eq!((context.before, context.line, context.after), (vec!["one".to_string()], "two".to_string(), vec!["three".to_string()]));
/// # Ok::<(), smap::Error>(())
/// ```
#[derive(Clone, Debug, PartialEq, Eq)]
#[non_exhaustive]
pub struct Context {
    /// Those before it, in their order.
    pub before: Vec<String>,
    /// The line.
    pub line: String,
    /// Those after it.
    pub after: Vec<String>,
}

impl SourceMap {
    /// A line of a source, both from 0, with up to so many lines before and after it, or `None` where
    /// the map has no such line. Of a line those characters are given that stand in its first 65,536
    /// bytes.
    ///
    /// ```
    /// # let map = smap::SourceMap::from_slice(
    /// #     br#"{"version":3,"sources":["a.ts"],"sourcesContent":["one\ntwo\nthree"],"mappings":""}"#,
    /// # )?;
    /// assert_eq!(map.context(0, 2, 0, 0).unwrap().line, "three");
    /// assert!(map.context(0, 3, 0, 0).is_none() && map.context(1, 0, 0, 0).is_none());
    /// # Ok::<(), smap::Error>(())
    /// ```
    pub fn context(&self, source: u32, line: u32, before: u16, after: u16) -> Option<Context> {
        let (first, mut lines) = self.library_map().lines(source, line, before, after)?;
        let mut rest = lines.split_off((line - first) as usize).into_iter();
        Some(Context {
            before: lines,
            line: rest.next()?,
            after: rest.collect(),
        })
    }
}
