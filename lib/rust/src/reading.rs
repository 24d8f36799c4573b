//! How maps are read.

use crate::error::Error;
use crate::library::{Map, Reading};
use crate::map::SourceMap;

/// How a map is read.
///
/// ```
/// use smap::ReadOptions;
///
/// let options = ReadOptions::new().with_base("https://example.test/js/app.js");
/// let map = options.read(br#"{"version":3,"sources":["../src/a.ts"],"mappings":""}"#)?;
/// assert_eq!(map.get_source(0), Some("https://example.test/src/a.ts"));
/// # Ok::<(), smap::Error>(())
/// ```
#[derive(Clone, Debug)]
pub struct ReadOptions {
    base: Option<String>,
    path: Option<String>,
    map_path: Option<String>,
    how: Reading,
}

impl ReadOptions {
    /// A map without a URL, with a checkpoint at every 64th segment of a line.
    ///
    /// ```
    /// let map = smap::ReadOptions::new().read(br#"{"version":3,"sources":[],"mappings":""}"#)?;
    /// # Ok::<(), smap::Error>(())
    /// ```
    pub fn new() -> ReadOptions {
        ReadOptions {
            base: None,
            path: None,
            map_path: None,
            how: Reading::USUAL,
        }
    }

    /// The URL at which the map stands. Its sources are resolved against it. What is no URL is
    /// refused when the map is read.
    ///
    /// ```
    /// let refused = smap::ReadOptions::new().with_base("/srv/app.js").read(b"{}").unwrap_err();
    /// assert_eq!(refused.to_string(), "/srv/app.js: the base is no URL");
    /// ```
    pub fn with_base(mut self, url: impl Into<String>) -> ReadOptions {
        self.base = Some(url.into());
        self
    }

    /// The absolute path of the generated file, as its frames name it. Sources that the map names by
    /// relative paths go on from its folder, as node prints them; with a base none do.
    ///
    /// ```
    /// let options = smap::ReadOptions::new().with_path("/srv/app/dist/util/x.js");
    /// let map = options.read(br#"{"version":3,"sources":["../../src/x.ts"],"mappings":""}"#)?;
    /// assert_eq!(map.get_source(0), Some("/srv/app/src/x.ts"));
    /// # Ok::<(), smap::Error>(())
    /// ```
    pub fn with_path(mut self, path: impl Into<String>) -> ReadOptions {
        self.path = Some(path.into());
        self
    }

    /// The path of the map file, which need not be absolute: sources that the map names by paths go on
    /// from its folder; with a base none do.
    ///
    /// ```
    /// let options = smap::ReadOptions::new().with_map_path("dist/app.js.map");
    /// let map = options.read(br#"{"version":3,"sources":["../src/x.ts"],"mappings":""}"#)?;
    /// assert_eq!(map.get_source(0), Some("src/x.ts"));
    /// # Ok::<(), smap::Error>(())
    /// ```
    pub fn with_map_path(mut self, path: impl Into<String>) -> ReadOptions {
        self.map_path = Some(path.into());
        self
    }

    /// At which segments of a line the index has a checkpoint: each 1st to 4096th. Fewer take less
    /// memory, and a look-up longer.
    ///
    /// ```
    /// let options = smap::ReadOptions::new().with_interval(0);
    /// let refused = options.read(br#"{"version":3,"sources":[],"mappings":""}"#).unwrap_err();
    /// assert_eq!(refused.to_string(), "M15 Build B1 Interval");
    /// ```
    pub fn with_interval(mut self, segments: u32) -> ReadOptions {
        self.how.interval = segments;
        self
    }

    /// Of how many bytes the names of all sources may be made together, 268,435,456 if this is not said:
    /// each of those of the base, of what `sourceRoot` puts before it, and of its own text. They may
    /// be many more than the file has.
    ///
    /// ```
    /// let map = br#"{"version":3,"sources":["a.ts","b.ts"],"sourceRoot":"src","mappings":""}"#;
    /// assert!(smap::ReadOptions::new().with_max_names(16).read(map).is_ok());
    /// let refused = smap::ReadOptions::new().with_max_names(15).read(map).unwrap_err();
    /// assert_eq!(refused.to_string(), "M18 LongNames");
    /// ```
    pub fn with_max_names(mut self, bytes: u64) -> ReadOptions {
        self.how.most_names = bytes;
        self
    }

    /// Reads the bytes of a map file.
    ///
    /// ```
    /// let map = smap::ReadOptions::new().read(br#"{"version":3,"sources":["a.ts"],"mappings":""}"#)?;
    /// assert_eq!(map.sources().len(), 1);
    /// # Ok::<(), smap::Error>(())
    /// ```
    pub fn read(&self, map: &[u8]) -> Result<SourceMap, Error> {
        let mut map = Map::read(map, self.base.as_deref(), self.how)?;
        if let Some(path) = &self.path {
            map.use_paths(path)?;
        }
        if let Some(path) = &self.map_path {
            map.stand_at(path, self.how.most_names)?;
        }
        Ok(SourceMap::of(map, None))
    }
}

impl Default for ReadOptions {
    fn default() -> ReadOptions {
        ReadOptions::new()
    }
}
