//! Maps of many URLs, within a bound, and look-ups and traces over them.

mod counts;
mod found;

pub use counts::MapsCounts;
pub use found::Found;

use crate::engine::{folder_of, reading, Engine, Loader};
use crate::error::Error;
use crate::map::SourceMap;
use crate::rewriting::RewriteOptions;
use crate::table::TraceCounts;
use std::fmt;
use std::io::{self, Read, Write};
use std::path::PathBuf;
use std::time::Duration;

/// So long a first failure holds, if nothing else is said.
const RETRY_AFTER: Duration = Duration::from_secs(30);

/// The maps of a process: each is asked for when its URL is first named, and kept within a bound of
/// bytes, past which the map that was longest not asked for is dropped.
///
/// ```
/// use smap::Maps;
///
/// let mut maps = Maps::with_loader(64 << 20, |url| match url {
///     "https://ex.test/a.js" => Ok(Some(r#"{"version":3,"sources":["a.ts"],"mappings":"AAEA"}"#)),
///     _ => Ok(None),
/// })?;
/// let found = maps.lookup("https://ex.test/a.js?v=2", 0, 7)?.unwrap();
/// assert_eq!((found.get_source(), found.get_src()), (Some("https://ex.test/a.ts"), Some((2, 0))));
/// assert!(maps.lookup("https://ex.test/b.js", 0, 7)?.is_none());
/// # Ok::<(), smap::Error>(())
/// ```
pub struct Maps {
    engine: Engine,
}

impl Maps {
    /// Maps that are put alone, which count for at most so many bytes together, or are one.
    ///
    /// ```
    /// use smap::{Maps, SourceMap};
    ///
    /// let mut maps = Maps::new(64 << 20)?;
    /// let map = SourceMap::from_slice(br#"{"version":3,"sources":["a.ts"],"mappings":"AAEA"}"#)?;
    /// maps.insert("a.js", &map)?;
    /// assert_eq!(maps.lookup("a.js", 0, 7)?.unwrap().get_source(), Some("a.ts"));
    /// # Ok::<(), smap::Error>(())
    /// ```
    pub fn new(most_bytes: u64) -> Result<Maps, Error> {
        Maps::asking(most_bytes, None)
    }

    fn asking(most_bytes: u64, load: Option<Loader>) -> Result<Maps, Error> {
        let mut engine = Engine::new(most_bytes, load)?;
        engine.retry_after = Some(RETRY_AFTER);
        Ok(Maps { engine })
    }

    /// Maps that are asked for, too, as [`Table::with_loader`](crate::Table::with_loader) asks: once
    /// for each URL or path that is named, without its query and its fragment, and again where the
    /// map was dropped. `load` gives the bytes of the map file, or `None` where there is none.
    ///
    /// ```
    /// let mut maps = smap::Maps::with_loader(1 << 20, |_| Ok(None::<Vec<u8>>))?;
    /// assert!(maps.lookup("a.js", 0, 0)?.is_none());
    /// # Ok::<(), smap::Error>(())
    /// ```
    pub fn with_loader<L, B>(most_bytes: u64, load: L) -> Result<Maps, Error>
    where
        L: FnMut(&str) -> io::Result<Option<B>> + Send + 'static,
        B: AsRef<[u8]>,
    {
        Maps::asking(most_bytes, Some(reading(load)))
    }

    /// The maps of the URLs that begin with this prefix, in a folder, as
    /// [`Table::with_folder`](crate::Table::with_folder) has them.
    ///
    /// ```
    /// let mut maps = smap::Maps::with_folder(64 << 20, "https://example.test/", "../../examples")?;
    /// let found = maps.lookup("https://example.test/receipt.min.js", 1, 4471)?.unwrap();
    /// assert_eq!(found.get_src(), Some((10, 46)));
    /// # Ok::<(), smap::Error>(())
    /// ```
    pub fn with_folder(
        most_bytes: u64,
        prefix: impl Into<String>,
        folder: impl Into<PathBuf>,
    ) -> Result<Maps, Error> {
        Maps::asking(most_bytes, Some(folder_of(prefix.into(), folder.into())?))
    }

    /// After how long a map is asked for again whose loader failed, or that was refused: 30 seconds
    /// if this is not said. Each failure in a row doubles it, up to ten minutes.
    ///
    /// ```
    /// let mut maps = smap::Maps::with_loader(1 << 20, |_| Ok(Some("no JSON")))?;
    /// maps.set_retry_after(std::time::Duration::ZERO);
    /// for _ in 0..2 {
    ///     assert!(maps.lookup("a.js", 0, 0)?.is_none());
    /// }
    /// assert_eq!(maps.refusals().len(), 2);
    /// # Ok::<(), smap::Error>(())
    /// ```
    pub fn set_retry_after(&mut self, time: Duration) {
        self.engine.retry_after = Some(time);
    }

    /// For how long a URL has no map after the loader said so: for ever if this is not said, or
    /// until one is put, or [`forget_none`](Maps::forget_none).
    ///
    /// ```
    /// # let mut maps = smap::Maps::new(1 << 20)?;
    /// maps.set_none_for(std::time::Duration::from_secs(30));
    /// # Ok::<(), smap::Error>(())
    /// ```
    pub fn set_none_for(&mut self, time: Duration) {
        self.engine.none_for = Some(time);
    }

    /// Of how many bytes the names in each map that the loader gives may be made together, as
    /// [`ReadOptions::with_max_names`](crate::ReadOptions::with_max_names) has it.
    ///
    /// ```
    /// let mut maps = smap::Maps::with_loader(1 << 20, |_| Ok(Some(r#"{"version":3,"sources":["a.ts"],"mappings":""}"#)))?;
    /// maps.set_max_names(3);
    /// maps.lookup("a.js", 0, 0)?;
    /// assert_eq!(maps.refusals()[0].1.to_string(), "a.js: M18 LongNames");
    /// # Ok::<(), smap::Error>(())
    /// ```
    pub fn set_max_names(&mut self, bytes: u64) {
        self.engine.how.most_names = bytes;
    }

    /// Whether the sources of a map that the loader gives for a path with a folder are named by that, as
    /// [`Table::set_paths`](crate::Table::set_paths) has it.
    ///
    /// ```
    /// let mut maps = smap::Maps::with_loader(1 << 20, |_| Ok(Some(r#"{"version":3,"sources":["../a.ts"],"mappings":"AAEA"}"#)))?;
    /// maps.set_paths(true);
    /// assert_eq!(maps.lookup("/srv/dist/a.js", 0, 6)?.unwrap().get_source(), Some("/srv/a.ts"));
    /// # Ok::<(), smap::Error>(())
    /// ```
    pub fn set_paths(&mut self, is_so: bool) {
        self.engine.how.by_paths = is_so;
    }

    /// Puts the map of this very URL, in the place of what was known under it. Both share it. One that
    /// begins with `*` is a pattern, as [`Table::insert`](crate::Table::insert) has it: its map counts
    /// for nothing, stays, and is put once. A map that has read its generated file names the functions of
    /// its frames, too, and counts for what that declares.
    ///
    /// ```
    /// # use smap::{Maps, SourceMap};
    /// let mut maps = Maps::new(1 << 20)?;
    /// for source in ["a.ts", "b.ts"] {
    ///     let file = format!(r#"{{"version":3,"sources":["{}"],"mappings":"AAEA"}}"#, source);
    ///     maps.insert("a.js", &SourceMap::from_slice(file.as_bytes())?)?;
    ///     assert_eq!(maps.lookup("a.js", 0, 7)?.unwrap().get_source(), Some(source));
    /// }
    /// # Ok::<(), smap::Error>(())
    /// ```
    pub fn insert(&mut self, url: impl AsRef<str>, map: &SourceMap) -> Result<(), Error> {
        let url = url.as_ref();
        if url.starts_with('*') {
            self.engine.table.add_shared(url, map.library_map())?;
            return match map.library_names() {
                Some(names) => self.engine.table.add_names(url, names),
                None => Ok(()),
            };
        }
        self.engine.forgive(Some(url.as_bytes()));
        self.engine
            .store
            .put(url.as_bytes(), map.library_map(), map.library_names())
    }

    /// Forgets what is known under this very URL, so that it is asked for when it is next named.
    ///
    /// ```
    /// # let mut maps = smap::Maps::with_loader(1 << 20, |_| Ok(None::<Vec<u8>>))?;
    /// maps.forget("a.js")?;
    /// # Ok::<(), smap::Error>(())
    /// ```
    pub fn forget(&mut self, url: impl AsRef<str>) -> Result<(), Error> {
        let url = url.as_ref().as_bytes();
        self.engine.forgive(Some(url));
        self.engine.store.forget(url)
    }

    /// Forgets which URLs have no map, also those whose loader failed.
    ///
    /// ```
    /// use std::sync::atomic::{AtomicBool, Ordering::Relaxed};
    ///
    /// static IS_THERE: AtomicBool = AtomicBool::new(false);
    /// let mut maps = smap::Maps::with_loader(1 << 20, |_| {
    ///     Ok(IS_THERE.load(Relaxed).then_some(r#"{"version":3,"sources":["a.ts"],"mappings":"AAEA"}"#))
    /// })?;
    /// assert!(maps.lookup("a.js", 0, 7)?.is_none());
    /// IS_THERE.store(true, Relaxed);
    /// assert!(maps.lookup("a.js", 0, 7)?.is_none());
    /// maps.forget_none()?;
    /// assert!(maps.lookup("a.js", 0, 7)?.is_some());
    /// # Ok::<(), smap::Error>(())
    /// ```
    pub fn forget_none(&mut self) -> Result<(), Error> {
        self.engine.forgive(None);
        self.engine.store.forget_none()
    }

    /// How much is kept, and what was asked.
    ///
    /// ```
    /// # let mut maps = smap::Maps::new(1 << 20)?;
    /// assert_eq!((maps.counts().maps, maps.counts().asked), (0, 0));
    /// # Ok::<(), smap::Error>(())
    /// ```
    pub fn counts(&mut self) -> MapsCounts {
        MapsCounts::of(&self.engine.store.counts())
    }

    /// The URLs whose maps the loader could not give, or whose maps were refused, and why: the first
    /// 100 of them.
    ///
    /// ```
    /// let mut maps = smap::Maps::with_loader(1 << 20, |_| Ok(Some("{}")))?;
    /// assert!(maps.lookup("a.js", 0, 0)?.is_none());
    /// let (url, why) = &maps.refusals()[0];
    /// assert_eq!((url.as_str(), why.to_string()), ("a.js", "a.js: M4 Version".to_string()));
    /// # Ok::<(), smap::Error>(())
    /// ```
    pub fn refusals(&self) -> &[(String, Error)] {
        self.engine.refusals()
    }

    /// The original of a generated position in the map of a URL, all from 0, columns in UTF-16 code
    /// units, as [`SourceMap::lookup`] has it. `None` where the URL has no map, or no mapping of it
    /// answers.
    ///
    /// ```
    /// # let mut maps = smap::Maps::with_folder(64 << 20, "https://example.test/", "../../examples")?;
    /// let found = maps.lookup("https://example.test/receipt.min.js", 1, 4471)?.unwrap();
    /// assert_eq!(found.get_source(), Some("https://example.test/src/receipt.ts"));
    /// # Ok::<(), smap::Error>(())
    /// ```
    pub fn lookup(
        &mut self,
        url: impl AsRef<str>,
        line: u32,
        column: u32,
    ) -> Result<Option<Found>, Error> {
        self.engine.found(url.as_ref(), (line, column), false)
    }

    /// The same in the other direction, as [`SourceMap::lookup_after`] has it.
    ///
    /// ```
    /// # let mut maps = smap::Maps::with_folder(64 << 20, "https://example.test/", "../../examples")?;
    /// assert!(maps.lookup_after("https://example.test/receipt.min.js", 1, 4470)?.is_some());
    /// # Ok::<(), smap::Error>(())
    /// ```
    pub fn lookup_after(
        &mut self,
        url: impl AsRef<str>,
        line: u32,
        column: u32,
    ) -> Result<Option<Found>, Error> {
        self.engine.found(url.as_ref(), (line, column), true)
    }

    /// The map of a URL, where it has one, with what was put with it. It stays when this one drops it.
    ///
    /// ```
    /// # let mut maps = smap::Maps::with_folder(64 << 20, "https://example.test/", "../../examples")?;
    /// let map = maps.get("https://example.test/receipt.min.js")?.unwrap();
    /// assert_eq!(map.sources().len(), 4);
    /// # Ok::<(), smap::Error>(())
    /// ```
    pub fn get(&mut self, url: impl AsRef<str>) -> Result<Option<SourceMap>, Error> {
        Ok(self
            .engine
            .map(url.as_ref().as_bytes())?
            .map(|(map, names)| SourceMap::of(map, names)))
    }

    /// Rewrites a trace, as [`Table::rewrite`](crate::Table::rewrite) does, over the maps that the
    /// loader gives. It is passed over once: a map is asked for when a frame first names its URL, and
    /// once more where it was dropped. A URL without a map, or with a refused one, leaves its frames.
    ///
    /// ```
    /// let mut maps = smap::Maps::with_folder(64 << 20, "https://example.test/", "../../examples")?;
    /// let trace = "at Object.total (https://example.test/receipt.min.js:2:4472)";
    /// let mut rewritten = Vec::new();
    /// let counts = maps.rewrite(trace.as_bytes(), &mut rewritten)?;
    /// assert_eq!(rewritten, b"at Object.total (https://example.test/src/receipt.ts:11:47)");
    /// assert_eq!((counts.frames, counts.mapped), (1, 1));
    /// # Ok::<(), smap::Error>(())
    /// ```
    pub fn rewrite<R: Read, W: Write>(
        &mut self,
        reader: R,
        writer: W,
    ) -> Result<TraceCounts, Error> {
        self.rewrite_with(RewriteOptions::new(), reader, writer)
    }

    /// The same, and lines of frames from sources that the map ignores are left out.
    ///
    /// ```
    /// let mut maps = smap::Maps::with_loader(1 << 20, |_| {
    ///     Ok(Some(r#"{"version":3,"sources":["a.ts"],"ignoreList":[0],"mappings":"AAEA"}"#))
    /// })?;
    /// let mut rewritten = Vec::new();
    /// maps.rewrite_visible("f@a.js:1:7\nend\n".as_bytes(), &mut rewritten)?;
    /// assert_eq!(rewritten, b"end\n");
    /// # Ok::<(), smap::Error>(())
    /// ```
    pub fn rewrite_visible<R: Read, W: Write>(
        &mut self,
        reader: R,
        writer: W,
    ) -> Result<TraceCounts, Error> {
        self.rewrite_with(
            RewriteOptions::new().with_hide_ignored(true),
            reader,
            writer,
        )
    }

    /// Rewrites each place URL:line:column, wherever it stands in a line, as
    /// [`Table::rewrite_anywhere`](crate::Table::rewrite_anywhere) does.
    ///
    /// ```
    /// let mut maps = smap::Maps::with_loader(1 << 20, |_| {
    ///     Ok(Some(r#"{"version":3,"sources":["a.ts"],"mappings":"AAEA"}"#))
    /// })?;
    /// let mut rewritten = Vec::new();
    /// maps.rewrite_anywhere("12:00 {\"at\":\"a.js:1:7\"}\n".as_bytes(), &mut rewritten)?;
    /// assert_eq!(rewritten, b"12:00 {\"at\":\"a.ts:3:1\"}\n");
    /// # Ok::<(), smap::Error>(())
    /// ```
    pub fn rewrite_anywhere<R: Read, W: Write>(
        &mut self,
        reader: R,
        writer: W,
    ) -> Result<TraceCounts, Error> {
        self.rewrite_with(RewriteOptions::new().with_anywhere(true), reader, writer)
    }

    /// Rewrites a text as these options say, as [`Table::rewrite_with`](crate::Table::rewrite_with) does.
    ///
    /// ```
    /// let mut maps = smap::Maps::with_loader(1 << 20, |_| {
    ///     Ok(Some(r#"{"version":3,"sources":["a.ts"],"mappings":"AAEA"}"#))
    /// })?;
    /// let options = smap::RewriteOptions::new().with_strip_ansi(true);
    /// let counts = maps.rewrite_with(options, "f@\x1b[36ma.js\x1b[39m:1:7\n".as_bytes(), std::io::sink())?;
    /// assert_eq!(counts.mapped, 1);
    /// # Ok::<(), smap::Error>(())
    /// ```
    pub fn rewrite_with<R: Read, W: Write>(
        &mut self,
        options: RewriteOptions,
        reader: R,
        writer: W,
    ) -> Result<TraceCounts, Error> {
        self.engine.rewrite(options, reader, writer)
    }

    /// How many bytes one call writes at most, as
    /// [`Table::set_max_output`](crate::Table::set_max_output) has it.
    ///
    /// ```
    /// let mut maps = smap::Maps::new(1 << 20)?;
    /// maps.set_max_output(5);
    /// let error = maps.rewrite("a\nb\nlong\n".as_bytes(), std::io::sink()).unwrap_err();
    /// assert_eq!(error.to_string(), "X5 LongOutput");
    /// # Ok::<(), smap::Error>(())
    /// ```
    pub fn set_max_output(&mut self, bytes: u64) {
        self.engine.most_output = bytes;
    }
}

impl fmt::Debug for Maps {
    fn fmt(&self, to: &mut fmt::Formatter<'_>) -> fmt::Result {
        to.debug_struct("Maps").finish_non_exhaustive()
    }
}
