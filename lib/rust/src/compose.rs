//! A map composed with those of its sources.

use crate::error::Error;
use crate::library::{is_path, Inners, Map, Reading};
use crate::map::SourceMap;
use std::collections::HashMap;
use std::io;

/// What [`SourceMap::compose_all`] leaves out of the map that it writes, and what it keeps.
///
/// ```
/// use smap::ComposeOptions;
///
/// let options = ComposeOptions { prune: true, ..ComposeOptions::default() };
/// assert!(!options.no_content);
/// ```
#[derive(Clone, Copy, Debug, Default, PartialEq, Eq)]
pub struct ComposeOptions {
    /// Sources and names that no mapping has, and of those that are equal all but the first that a
    /// mapping has.
    pub prune: bool,
    /// The contents of the sources.
    pub no_content: bool,
    /// Not left out but kept: the debug id of the outer map.
    pub debug_id: bool,
}

impl SourceMap {
    /// The text of the map that this one comes to with the maps of its sources.
    ///
    /// `load` is asked by name for the map of each source, and then for those of the sources of the
    /// maps that it gave, and so on. It gives the bytes of the map file, or `None` where there
    /// is none. It is asked once for each name. A source is not followed where it is one of
    /// those that lead to it. A map stands at the name of its source where that is a URL.
    ///
    /// ```
    /// use smap::{ComposeOptions, SourceMap};
    ///
    /// let outer = SourceMap::from_slice(br#"{"version":3,"sources":["a.js","b.js"],"mappings":"AAAA,CCAA"}"#)?;
    /// let whole = outer.compose_all(ComposeOptions::default(), |name| match name {
    ///     "a.js" => Ok(Some(r#"{"version":3,"sources":["a.ts"],"mappings":"AAEE"}"#)),
    ///     _ => Ok(None),
    /// })?;
    /// let whole = SourceMap::from_slice(&whole)?;
    /// assert_eq!(whole.lookup(0, 0).unwrap().get_source(), Some("a.ts"));
    /// assert_eq!(whole.lookup(0, 1).unwrap().get_source(), Some("b.js"));
    /// # Ok::<(), smap::Error>(())
    /// ```
    pub fn compose_all<L, B>(&self, options: ComposeOptions, mut load: L) -> Result<Vec<u8>, Error>
    where
        L: FnMut(&str) -> io::Result<Option<B>>,
        B: AsRef<[u8]>,
    {
        let mut inners = Inners::new(self.library_map())?;
        let mut loaded = HashMap::new();
        while let Some(source) = inners.next()? {
            let name = inners.name(source).unwrap_or_default();
            if !loaded.contains_key(&name) {
                loaded.insert(name.clone(), load(&name)?);
            }
            if let Some(Some(bytes)) = loaded.get(&name) {
                inners.put(source, standing_at(&name, bytes.as_ref(), Reading::USUAL)?)?;
            }
        }
        let composed = inners.composed(options.prune, options.no_content)?;
        if options.debug_id {
            return Ok(self.with_debug_id(composed)?.to_vec());
        }
        Ok(composed.to_vec())
    }
}

/// The map of these bytes, which stands at a name where that is a URL, or has its sources named by it.
pub(crate) fn standing_at(name: &str, bytes: &[u8], how: Reading) -> Result<Map, Error> {
    if how.by_paths && is_path(name) {
        let mut map = Map::read(bytes, None, how).map_err(|error| error.of(name))?;
        map.use_paths(name)?;
        return Ok(map);
    }
    let at_name = Map::read(bytes, Some(name), how);
    let map = match at_name {
        Err(Error::Refused(refused)) if refused.is_no_url() => Map::read(bytes, None, how),
        other => other,
    };
    map.map_err(|error| error.of(name))
}
