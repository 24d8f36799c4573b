//! Tables of maps, and the traces that are rewritten over them.

mod counts;

pub use counts::TraceCounts;

use crate::engine::{folder_of, reading, Engine, Loader};
use crate::error::Error;
use crate::map::SourceMap;
use crate::maps::Found;
use crate::rewriting::RewriteOptions;
use std::fmt;
use std::io::{self, Read, Write};
use std::path::PathBuf;

/// Maps, each under the URL that the frames of a trace name.
///
/// ```
/// use smap::{SourceMap, Table};
///
/// let map = SourceMap::from_slice(br#"{"version":3,"sources":["a.ts"],"mappings":"AAEA"}"#)?;
/// let mut table = Table::new()?;
/// table.insert("https://ex.test/a.js", map)?;
/// let mut rewritten = Vec::new();
/// let counts = table.rewrite("Error\n    at f (https://ex.test/a.js:1:7)\n".as_bytes(), &mut rewritten)?;
/// assert_eq!(rewritten, b"Error\n    at f (a.ts:3:1)\n");
/// assert_eq!((counts.lines, counts.frames, counts.mapped), (2, 1, 1));
/// # Ok::<(), smap::Error>(())
/// ```
pub struct Table {
    engine: Engine,
}

impl Table {
    /// A table without maps.
    ///
    /// ```
    /// let mut table = smap::Table::new()?;
    /// # Ok::<(), smap::Error>(())
    /// ```
    pub fn new() -> Result<Table, Error> {
        Table::asking(None)
    }

    fn asking(load: Option<Loader>) -> Result<Table, Error> {
        Ok(Table {
            engine: Engine::new(u64::MAX, load)?,
        })
    }

    /// A table that asks for the map of each URL or path that it has none of, once, when a frame first
    /// names it: for what stands before its first `?` or `#`, if that holds `://`, is an absolute path,
    /// or ends in `.js`, `.mjs`, `.cjs` or `.bundle` and has no empty piece and no `..`. `load` gives the
    /// bytes of the map file, or `None` where there is none. The map stands at the URL where that is
    /// one, and serves each query. Where it is refused or `load` fails, the frames stay, the rewriting
    /// goes on, and [`refusals`](Table::refusals) has why.
    ///
    /// What is asked for is from the trace, and a URL may have `..` in it. For files take
    /// [`with_folder`](Table::with_folder).
    ///
    /// ```
    /// use smap::Table;
    ///
    /// let mut table = Table::with_loader(|url| match url {
    ///     "https://ex.test/a.js" => Ok(Some(r#"{"version":3,"sources":["a.ts"],"mappings":"AAEA"}"#)),
    ///     _ => Ok(None),
    /// })?;
    /// let mut rewritten = Vec::new();
    /// table.rewrite("f@https://ex.test/a.js?v=2:1:7\n".as_bytes(), &mut rewritten)?;
    /// assert_eq!(rewritten, b"f@https://ex.test/a.ts:3:1\n");
    /// # Ok::<(), smap::Error>(())
    /// ```
    pub fn with_loader<L, B>(load: L) -> Result<Table, Error>
    where
        L: FnMut(&str) -> io::Result<Option<B>> + Send + 'static,
        B: AsRef<[u8]>,
    {
        Table::asking(Some(reading(load)))
    }

    /// A table of the maps of the URLs that begin with this prefix, which ends in `/`, in a folder, as the
    /// program has them of `PREFIX=FOLDER/`: that of PREFIXjs/app.js is js/app.js.map. Each is read
    /// when a frame first names its URL, as [`with_loader`](Table::with_loader) says. No URL leads out of
    /// the folder, and links in it are followed. A file that is not there is no map; that the folder is
    /// not there is told once.
    ///
    /// ```
    /// use smap::Table;
    ///
    /// let mut table = Table::with_folder("https://example.test/", "../../examples")?;
    /// let trace = "at Object.total (https://example.test/receipt.min.js:2:4472)";
    /// let mut rewritten = Vec::new();
    /// table.rewrite(trace.as_bytes(), &mut rewritten)?;
    /// assert_eq!(rewritten, b"at Object.total (https://example.test/src/receipt.ts:11:47)");
    /// # Ok::<(), smap::Error>(())
    /// ```
    pub fn with_folder(
        prefix: impl Into<String>,
        folder: impl Into<PathBuf>,
    ) -> Result<Table, Error> {
        Table::asking(Some(folder_of(prefix.into(), folder.into())?))
    }

    /// Puts a map under a URL. One that no frame can name is refused, and one that has a map. A URL
    /// that begins with `*` is a pattern: its map is that of each URL that ends with the text behind
    /// it, where a piece of the URL begins, with or without query and fragment, if no map is under
    /// the URL with or without them; of several the longest text decides. A map that has read its
    /// generated file names the functions of its frames, too.
    ///
    /// ```
    /// # use smap::{SourceMap, Table};
    /// # let map = SourceMap::from_slice(br#"{"version":3,"sources":["a.ts"],"mappings":"AAEA"}"#)?;
    /// let mut table = Table::new()?;
    /// assert_eq!(table.insert("", map).unwrap_err().to_string(), "A1 BadUrl");
    ///
    /// # let map = SourceMap::from_slice(br#"{"version":3,"sources":["a.ts"],"mappings":"AAEA"}"#)?;
    /// table.insert("*js/a.js", map)?;
    /// let mut rewritten = Vec::new();
    /// table.rewrite("f@https://ex.test/js/a.js?v=2:1:7\n".as_bytes(), &mut rewritten)?;
    /// assert_eq!(rewritten, b"f@a.ts:3:1\n");
    ///
    /// let map = SourceMap::from_slice(br#"{"version":3,"sources":["a.ts"],"names":["main"],"mappings":"SAAAA"}"#)?;
    /// table.insert("b.js", map.with_generated("function f(){g()}")?)?;
    /// rewritten.clear();
    /// table.rewrite("    at f (b.js:1:14)\n".as_bytes(), &mut rewritten)?;
    /// assert_eq!(rewritten, b"    at main (a.ts:1:1)\n");
    ///
    /// rewritten.clear();
    /// table.rewrite_anywhere("[\"f@b.js:1:14\"]\n".as_bytes(), &mut rewritten)?;
    /// assert_eq!(rewritten, b"[\"main@a.ts:1:1\"]\n");
    /// # Ok::<(), smap::Error>(())
    /// ```
    pub fn insert(&mut self, url: impl AsRef<str>, map: SourceMap) -> Result<(), Error> {
        let (map, names) = map.into_library_map();
        self.engine.table.add(url.as_ref(), map)?;
        match names {
            Some(names) => self.engine.table.add_names(url.as_ref(), &names),
            None => Ok(()),
        }
    }

    /// How many bytes one call writes at most, 1,073,741,824 if this is not said. Of a text that comes to
    /// more the lines that fit are written, and it is refused:
    /// [`Refused::lines`](crate::Refused::lines) says how many.
    ///
    /// ```
    /// let mut table = smap::Table::new()?;
    /// table.set_max_output(5);
    /// let mut rewritten = Vec::new();
    /// let error = table.rewrite("a\nb\nlong\n".as_bytes(), &mut rewritten).unwrap_err();
    /// assert_eq!((error.to_string().as_str(), &rewritten[..]), ("X5 LongOutput", &b"a\nb\n"[..]));
    /// # Ok::<(), smap::Error>(())
    /// ```
    pub fn set_max_output(&mut self, bytes: u64) {
        self.engine.most_output = bytes;
    }

    /// Of how many bytes the names in each map that the loader gives may be made together, as
    /// [`ReadOptions::with_max_names`](crate::ReadOptions::with_max_names) has it.
    ///
    /// ```
    /// let mut table = smap::Table::with_loader(|_| Ok(Some(r#"{"version":3,"sources":["a.ts"],"mappings":""}"#)))?;
    /// table.set_max_names(3);
    /// table.rewrite("f@a.js:1:7\n".as_bytes(), std::io::sink())?;
    /// assert_eq!(table.refusals()[0].1.to_string(), "a.js: M18 LongNames");
    /// # Ok::<(), smap::Error>(())
    /// ```
    pub fn set_max_names(&mut self, bytes: u64) {
        self.engine.how.most_names = bytes;
    }

    /// Whether the sources of a map that the loader gives for a path with a folder are named by that, as node
    /// prints them: relative ones go on from its folder, as
    /// [`ReadOptions::with_path`](crate::ReadOptions::with_path) has it.
    ///
    /// ```
    /// let mut table = smap::Table::with_loader(|_| Ok(Some(r#"{"version":3,"sources":["../a.ts"],"mappings":"AAEA"}"#)))?;
    /// table.set_paths(true);
    /// let mut rewritten = Vec::new();
    /// table.rewrite("    at f (/srv/dist/a.js:1:7)\n".as_bytes(), &mut rewritten)?;
    /// assert_eq!(rewritten, b"    at f (/srv/a.ts:3:1)\n");
    /// # Ok::<(), smap::Error>(())
    /// ```
    pub fn set_paths(&mut self, is_so: bool) {
        self.engine.how.by_paths = is_so;
    }

    /// The URLs whose maps the loader could not give, or whose maps were refused, and why: the first
    /// 100 of them.
    ///
    /// ```
    /// use smap::Table;
    ///
    /// let mut table = Table::with_loader(|_| Ok(Some("{}")))?;
    /// let mut rewritten = Vec::new();
    /// table.rewrite("at a.js:1:1\n".as_bytes(), &mut rewritten)?;
    /// assert_eq!(rewritten, b"at a.js:1:1\n");
    /// let (url, why) = &table.refusals()[0];
    /// assert_eq!((url.as_str(), why.to_string()), ("a.js", "a.js: M4 Version".to_string()));
    /// # Ok::<(), smap::Error>(())
    /// ```
    pub fn refusals(&self) -> &[(String, Error)] {
        self.engine.refusals()
    }

    /// Rewrites a trace: each frame whose URL is in the table and whose place has an original gets
    /// it in its stead, and every other byte stays. Each line is written when it ends, and the
    /// writer flushed before the next is awaited. At most a line is held back, and of one that
    /// is too long for a frame nothing.
    ///
    /// ```
    /// # use smap::{SourceMap, Table};
    /// # let map = SourceMap::from_slice(br#"{"version":3,"sources":["a.ts"],"mappings":"AAEA"}"#)?;
    /// # let mut table = Table::new()?;
    /// # table.insert("a.js", map)?;
    /// let mut rewritten = Vec::new();
    /// table.rewrite("f@a.js:1:7\n".as_bytes(), &mut rewritten)?;
    /// assert_eq!(rewritten, b"f@a.ts:3:1\n");
    /// # Ok::<(), smap::Error>(())
    /// ```
    pub fn rewrite<R: Read, W: Write>(
        &mut self,
        reader: R,
        writer: W,
    ) -> Result<TraceCounts, Error> {
        self.rewrite_with(RewriteOptions::new(), reader, writer)
    }

    /// The same, and lines of frames from sources that the map ignores are left out.
    ///
    /// ```
    /// # use smap::{SourceMap, Table};
    /// # let map = SourceMap::from_slice(br#"{"version":3,"sources":["a.ts"],"ignoreList":[0],"mappings":"AAEA"}"#)?;
    /// # let mut table = Table::new()?;
    /// # table.insert("a.js", map)?;
    /// let mut rewritten = Vec::new();
    /// let counts = table.rewrite_visible("f@a.js:1:7\nend\n".as_bytes(), &mut rewritten)?;
    /// assert_eq!((&rewritten[..], counts.hidden), (&b"end\n"[..], 1));
    /// # Ok::<(), smap::Error>(())
    /// ```
    pub fn rewrite_visible<R: Read, W: Write>(
        &mut self,
        reader: R,
        writer: W,
    ) -> Result<TraceCounts, Error> {
        self.rewrite_with(
            RewriteOptions::new().with_hide_ignored(true),
            reader,
            writer,
        )
    }

    /// Rewrites each place URL:line:column, wherever it stands in a line. A loader is asked for what
    /// looks like a URL there, too. Any text is refused where a map is under `*` alone.
    ///
    /// ```
    /// # use smap::{SourceMap, Table};
    /// # let map = SourceMap::from_slice(br#"{"version":3,"sources":["a.ts"],"mappings":"AAEA"}"#)?;
    /// # let mut table = Table::new()?;
    /// # table.insert("a.js", map)?;
    /// let mut rewritten = Vec::new();
    /// table.rewrite_anywhere("12:00 {\"at\":\"a.js:1:7\"}\n".as_bytes(), &mut rewritten)?;
    /// assert_eq!(rewritten, b"12:00 {\"at\":\"a.ts:3:1\"}\n");
    /// # Ok::<(), smap::Error>(())
    /// ```
    pub fn rewrite_anywhere<R: Read, W: Write>(
        &mut self,
        reader: R,
        writer: W,
    ) -> Result<TraceCounts, Error> {
        self.rewrite_with(RewriteOptions::new().with_anywhere(true), reader, writer)
    }

    /// Rewrites a text as these options say.
    ///
    /// ```
    /// # use smap::{RewriteOptions, SourceMap, Table};
    /// # let map = SourceMap::from_slice(br#"{"version":3,"sources":["a.ts"],"mappings":"AAEA"}"#)?;
    /// # let mut table = Table::new()?;
    /// # table.insert("a.js", map)?;
    /// let options = RewriteOptions::new().with_strip_ansi(true);
    /// let mut rewritten = Vec::new();
    /// table.rewrite_with(options, "f@\x1b[36ma.js\x1b[39m:1:7\n".as_bytes(), &mut rewritten)?;
    /// assert_eq!(rewritten, b"f@a.ts:3:1\n");
    /// # Ok::<(), smap::Error>(())
    /// ```
    pub fn rewrite_with<R: Read, W: Write>(
        &mut self,
        options: RewriteOptions,
        reader: R,
        writer: W,
    ) -> Result<TraceCounts, Error> {
        self.engine.rewrite(options, reader, writer)
    }

    /// The original of a generated position in the map that frames of this URL have, all from 0, columns
    /// in UTF-16 code units, as [`SourceMap::lookup`] has it. `None` where the URL has no map, or no
    /// mapping of it answers.
    ///
    /// ```
    /// let mut table = smap::Table::with_folder("https://example.test/", "../../examples")?;
    /// let found = table.lookup("https://example.test/receipt.min.js", 1, 4471)?.unwrap();
    /// assert_eq!(found.get_src(), Some((10, 46)));
    /// # Ok::<(), smap::Error>(())
    /// ```
    pub fn lookup(
        &mut self,
        url: impl AsRef<str>,
        line: u32,
        column: u32,
    ) -> Result<Option<Found>, Error> {
        self.engine.found(url.as_ref(), (line, column), false)
    }

    /// The same in the other direction, as [`SourceMap::lookup_after`] has it.
    ///
    /// ```
    /// let mut table = smap::Table::with_folder("https://example.test/", "../../examples")?;
    /// assert!(table.lookup_after("https://example.test/receipt.min.js", 1, 4470)?.is_some());
    /// # Ok::<(), smap::Error>(())
    /// ```
    pub fn lookup_after(
        &mut self,
        url: impl AsRef<str>,
        line: u32,
        column: u32,
    ) -> Result<Option<Found>, Error> {
        self.engine.found(url.as_ref(), (line, column), true)
    }
}

impl fmt::Debug for Table {
    fn fmt(&self, to: &mut fmt::Formatter<'_>) -> fmt::Result {
        to.debug_struct("Table").finish_non_exhaustive()
    }
}
