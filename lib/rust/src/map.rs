//! Maps that are read, looked up and written.

use crate::error::Error;
use crate::library;
use crate::originals::Originals;
use crate::reading::ReadOptions;
use crate::token::{Mappings, Token};
use std::fmt;
use std::sync::Arc;

/// A source map that was read, a regular one or an index map.
///
/// A thread that has one may hand it to another. For several that look up at once, give each its
/// own by [`share`](SourceMap::share). It is `Send`, and not `Sync`: the library takes a handle for
/// itself in each call, also in those that only read, so two threads may not call it at once:
///
/// ```compile_fail
/// fn shared<T: Sync>() {}
/// shared::<smap::SourceMap>();
/// ```
///
/// The texts of names are copied when the map is read, the contents of sources when they are asked
/// for.
///
/// ```
/// use smap::SourceMap;
///
/// let map = SourceMap::from_slice(
///     br#"{"version":3,"sources":["a.ts"],"names":["f"],"mappings":"AAAA,IAECA"}"#,
/// )?;
/// let token = map.lookup(0, 7).unwrap();
/// assert_eq!((token.get_source(), token.get_src()), (Some("a.ts"), Some((2, 1))));
/// assert_eq!(token.get_name(), Some("f"));
/// # Ok::<(), smap::Error>(())
/// ```
pub struct SourceMap {
    map: library::Map,
    texts: Arc<Texts>,
    /// Those of functions, where the generated file was given.
    functions: Option<library::Names>,
}

/// The names in a map.
struct Texts {
    file: Option<String>,
    sources: Vec<library::Source>,
    names: Vec<String>,
}

impl SourceMap {
    /// Reads the bytes of a map file, which has no URL. Its sources are named as it names them.
    ///
    /// ```
    /// let map = smap::SourceMap::from_slice(br#"{"version":3,"sources":["a.ts"],"mappings":""}"#)?;
    /// assert_eq!(map.get_source(0), Some("a.ts"));
    /// # Ok::<(), smap::Error>(())
    /// ```
    pub fn from_slice(map: &[u8]) -> Result<SourceMap, Error> {
        ReadOptions::new().read(map)
    }

    /// Another one of the same map, of which nothing is copied, for another thread, without its
    /// generated file. The map goes with the last of them. It fails where memory runs out.
    ///
    /// ```
    /// # let map = smap::SourceMap::from_slice(br#"{"version":3,"sources":["a.ts"],"mappings":"EAAA,IAEC"}"#)?;
    /// let other = map.share()?;
    /// let done = std::thread::spawn(move || other.lookup(0, 5).map(|token| token.get_dst_col()));
    /// assert_eq!((done.join().unwrap(), map.lookup(0, 5).unwrap().get_dst_col()), (Some(2), 2));
    /// # Ok::<(), smap::Error>(())
    /// ```
    pub fn share(&self) -> Result<SourceMap, Error> {
        Ok(SourceMap {
            map: self.map.shared()?,
            texts: Arc::clone(&self.texts),
            functions: None,
        })
    }

    /// The original of a generated position, where lines and columns count from 0, columns in
    /// UTF-16 code units: that of the last mapping on the line at the column or before it.
    ///
    /// ```
    /// # let map = smap::SourceMap::from_slice(br#"{"version":3,"sources":["a.ts"],"mappings":"EAAA,IAEC"}"#)?;
    /// assert_eq!(map.lookup(0, 5).unwrap().get_dst_col(), 2);
    /// assert!(map.lookup(0, 1).is_none());
    /// assert!(map.lookup(1, 0).is_none());
    /// # Ok::<(), smap::Error>(())
    /// ```
    pub fn lookup(&self, line: u32, column: u32) -> Option<Token<'_>> {
        Token::found(self, line, &self.map.look_up(line, column))
    }

    /// The same in the other direction: the first mapping on the line at the column or after it
    /// answers.
    ///
    /// ```
    /// # let map = smap::SourceMap::from_slice(br#"{"version":3,"sources":["a.ts"],"mappings":"EAAA,IAEC"}"#)?;
    /// assert_eq!(map.lookup_after(0, 3).unwrap().get_dst_col(), 6);
    /// assert!(map.lookup_after(0, 7).is_none());
    /// # Ok::<(), smap::Error>(())
    /// ```
    pub fn lookup_after(&self, line: u32, column: u32) -> Option<Token<'_>> {
        Token::found(self, line, &self.map.look_up_from(line, column))
    }

    /// The column of the first mapping on the line behind this column: up to there
    /// [`lookup`](SourceMap::lookup) answers the same. `None` where it does to the line's end.
    ///
    /// ```
    /// # let map = smap::SourceMap::from_slice(br#"{"version":3,"sources":["a.ts"],"mappings":"EAAA,IAEC"}"#)?;
    /// assert_eq!((map.next_column(0, 2), map.next_column(0, 6)), (Some(6), None));
    /// # Ok::<(), smap::Error>(())
    /// ```
    pub fn next_column(&self, line: u32, column: u32) -> Option<u32> {
        self.map.next_column(line, column)
    }

    /// All mappings in their order. The iterator holds 32 bytes of memory for each.
    ///
    /// ```
    /// # let map = smap::SourceMap::from_slice(br#"{"version":3,"sources":["a.ts"],"mappings":"EAAA,IAEC;A"}"#)?;
    /// let places: Vec<_> = map.mappings()?.map(|token| token.get_dst()).collect();
    /// assert_eq!(places, [(0, 2), (0, 6), (1, 0)]);
    /// # Ok::<(), smap::Error>(())
    /// ```
    pub fn mappings(&self) -> Result<Mappings<'_>, Error> {
        Ok(Mappings::new(self, self.map.mappings()?))
    }

    /// The index from originals to places of the generated file: 16 bytes a mapping.
    ///
    /// ```
    /// # let map = smap::SourceMap::from_slice(br#"{"version":3,"sources":["a.ts"],"mappings":"EAAA,IAEC"}"#)?;
    /// let originals = map.originals()?;
    /// assert_eq!(originals.generated(0, 0, 0).next().unwrap().column, 2);
    /// # Ok::<(), smap::Error>(())
    /// ```
    pub fn originals(&self) -> Result<Originals, Error> {
        Ok(Originals::of(library::Originals::new(&self.map)?))
    }

    /// How many mappings the map has.
    ///
    /// ```
    /// # let map = smap::SourceMap::from_slice(br#"{"version":3,"sources":["a.ts"],"mappings":"EAAA,IAEC"}"#)?;
    /// assert_eq!(map.get_token_count(), 2);
    /// # Ok::<(), smap::Error>(())
    /// ```
    pub fn get_token_count(&self) -> u32 {
        // A file has fewer bytes than this type has numbers.
        self.map.counts().segments as u32
    }

    /// The names of all sources in their order. One has none where the map has null in its place.
    ///
    /// ```
    /// # let map = smap::SourceMap::from_slice(br#"{"version":3,"sources":["a.ts",null],"mappings":""}"#)?;
    /// assert_eq!(map.sources().collect::<Vec<_>>(), [Some("a.ts"), None]);
    /// # Ok::<(), smap::Error>(())
    /// ```
    pub fn sources(&self) -> impl ExactSizeIterator<Item = Option<&str>> + '_ {
        self.texts
            .sources
            .iter()
            .map(|source| source.name.as_deref())
    }

    /// The name of a source, from 0, where there is one that has one.
    ///
    /// ```
    /// # let map = smap::SourceMap::from_slice(br#"{"version":3,"sources":["a.ts",null],"mappings":""}"#)?;
    /// assert_eq!((map.get_source(0), map.get_source(1), map.get_source(2)), (Some("a.ts"), None, None));
    /// # Ok::<(), smap::Error>(())
    /// ```
    pub fn get_source(&self, index: u32) -> Option<&str> {
        self.texts.sources.get(index as usize)?.name.as_deref()
    }

    /// A copy of the content of a source, from 0, where the map holds it.
    ///
    /// ```
    /// # let map = smap::SourceMap::from_slice(
    /// #     br#"{"version":3,"sources":["a.ts"],"sourcesContent":["f()"],"mappings":""}"#,
    /// # )?;
    /// assert_eq!(map.get_source_contents(0).as_deref(), Some("f()"));
    /// # Ok::<(), smap::Error>(())
    /// ```
    pub fn get_source_contents(&self, index: u32) -> Option<String> {
        self.map.content(index)
    }

    /// The sources over which a debugger should pass, from 0, each once.
    ///
    /// ```
    /// # let map = smap::SourceMap::from_slice(
    /// #     br#"{"version":3,"sources":["a.ts","b.ts"],"ignoreList":[1],"mappings":""}"#,
    /// # )?;
    /// assert_eq!(map.ignore_list().collect::<Vec<_>>(), [1]);
    /// # Ok::<(), smap::Error>(())
    /// ```
    pub fn ignore_list(&self) -> impl Iterator<Item = u32> + '_ {
        let sources = self.texts.sources.iter().zip(0..);
        sources
            .filter(|(source, _)| source.is_ignored)
            .map(|(_, index)| index)
    }

    /// All names in their order.
    ///
    /// ```
    /// # let map = smap::SourceMap::from_slice(br#"{"version":3,"sources":[],"names":["f","g"],"mappings":""}"#)?;
    /// assert_eq!(map.names().collect::<Vec<_>>(), ["f", "g"]);
    /// # Ok::<(), smap::Error>(())
    /// ```
    pub fn names(&self) -> impl ExactSizeIterator<Item = &str> + '_ {
        self.texts.names.iter().map(String::as_str)
    }

    /// A name, from 0.
    ///
    /// ```
    /// # let map = smap::SourceMap::from_slice(br#"{"version":3,"sources":[],"names":["f","g"],"mappings":""}"#)?;
    /// assert_eq!((map.get_name(1), map.get_name(2)), (Some("g"), None));
    /// # Ok::<(), smap::Error>(())
    /// ```
    pub fn get_name(&self, index: u32) -> Option<&str> {
        self.texts.names.get(index as usize).map(String::as_str)
    }

    /// The name of the generated file, where the map has one.
    ///
    /// ```
    /// # let map = smap::SourceMap::from_slice(br#"{"version":3,"file":"a.js","sources":[],"mappings":""}"#)?;
    /// assert_eq!(map.get_file(), Some("a.js"));
    /// # Ok::<(), smap::Error>(())
    /// ```
    pub fn get_file(&self) -> Option<&str> {
        self.texts.file.as_deref()
    }

    /// The debug id of the map, which its generated file names too: the text at `debugId`, or at
    /// `debug_id` where that is none. Maps that [`Maps`](crate::Maps) hand out have none.
    ///
    /// ```
    /// # let map = smap::SourceMap::from_slice(br#"{"version":3,"sources":[],"mappings":"","debug_id":"7f"}"#)?;
    /// assert_eq!(map.get_debug_id(), Some("7f"));
    /// # Ok::<(), smap::Error>(())
    /// ```
    pub fn get_debug_id(&self) -> Option<&str> {
        self.map.debug_id()
    }

    /// About how many bytes of memory the library takes for the map.
    ///
    /// ```
    /// # let map = smap::SourceMap::from_slice(br#"{"version":3,"sources":["a.ts"],"mappings":"EAAA,IAEC"}"#)?;
    /// assert!(map.nbytes() > 160);
    /// # Ok::<(), smap::Error>(())
    /// ```
    pub fn nbytes(&self) -> u64 {
        self.map.size()
    }

    /// The text of one regular map that states the same.
    ///
    /// ```
    /// # let map = smap::SourceMap::from_slice(br#"{"version":3,"sources":["a.ts"],"mappings":"AAAA,,C"}"#)?;
    /// assert_eq!(map.to_vec()?, br#"{"mappings":"AAAA,C","names":[],"sources":["a.ts"],"version":3}"#);
    /// # Ok::<(), smap::Error>(())
    /// ```
    pub fn to_vec(&self) -> Result<Vec<u8>, Error> {
        Ok(self.map.written()?.to_vec())
    }

    /// The same with the debug id, where the map has one: `debugId`, as the last member.
    ///
    /// ```
    /// # let map = smap::SourceMap::from_slice(br#"{"debugId":"7f","version":3,"sources":[],"mappings":""}"#)?;
    /// let text = br#"{"mappings":"","names":[],"sources":[],"version":3,"debugId":"7f"}"#;
    /// assert_eq!(map.to_vec_with_debug_id()?, text);
    /// # Ok::<(), smap::Error>(())
    /// ```
    pub fn to_vec_with_debug_id(&self) -> Result<Vec<u8>, Error> {
        Ok(self.with_debug_id(self.map.written()?)?.to_vec())
    }

    /// What was written of this map, or of what it comes to, with its debug id.
    pub(crate) fn with_debug_id(&self, written: library::Bytes) -> Result<library::Bytes, Error> {
        match self.get_debug_id() {
            Some(id) => written.with_debug_id(id),
            None => Ok(written),
        }
    }

    /// The text of the map that this one comes to with the map of one of its sources, from 0.
    ///
    /// ```
    /// use smap::SourceMap;
    ///
    /// let outer = SourceMap::from_slice(br#"{"version":3,"sources":["a.js"],"mappings":"AAAA"}"#)?;
    /// let inner = SourceMap::from_slice(br#"{"version":3,"sources":["a.ts"],"mappings":"AAEE"}"#)?;
    /// let composed = SourceMap::from_slice(&outer.compose(0, &inner)?)?;
    /// assert_eq!(composed.lookup(0, 0).unwrap().get_src_line(), Some(2));
    /// # Ok::<(), smap::Error>(())
    /// ```
    pub fn compose(&self, source: u32, inner: &SourceMap) -> Result<Vec<u8>, Error> {
        Ok(self.map.composed(source, &inner.map)?.to_vec())
    }

    /// How many bytes of the generated file each source makes.
    ///
    /// ```
    /// # let map = smap::SourceMap::from_slice(br#"{"version":3,"sources":["a.ts"],"mappings":"EAAA"}"#)?;
    /// let bytes = map.bytes_by_source("//f()")?;
    /// assert_eq!((bytes.sources, bytes.unmapped), (vec![3], 2));
    /// # Ok::<(), smap::Error>(())
    /// ```
    pub fn bytes_by_source(&self, generated: impl AsRef<[u8]>) -> Result<BytesBySource, Error> {
        let (sources, unmapped) = self.map.bytes_by_source(generated.as_ref())?;
        Ok(BytesBySource { sources, unmapped })
    }

    /// Whether the map can be that of a generated file.
    ///
    /// ```
    /// # let map = smap::SourceMap::from_slice(br#"{"version":3,"sources":["a.ts"],"mappings":"EAAA"}"#)?;
    /// assert!(map.fit("//f()")?.fits);
    /// assert_eq!(map.fit("f")?.past, 1);
    /// # Ok::<(), smap::Error>(())
    /// ```
    pub fn fit(&self, generated: impl AsRef<[u8]>) -> Result<Fit, Error> {
        let counts = self.map.fit(generated.as_ref())?;
        Ok(Fit {
            fits: counts.fits != 0,
            mappings: counts.mappings,
            past: counts.past,
            inside: counts.inside,
            compared: counts.compared,
            outside: counts.outside,
            same: counts.same,
        })
    }

    /// The map, which has read what its generated file declares, for
    /// [`function_name`](SourceMap::function_name). Refused where the file is not UTF-8 or too large,
    /// or the map can't be that of it, as [`fit`](SourceMap::fit) says.
    ///
    /// ```
    /// # let map = smap::SourceMap::from_slice(br#"{"version":3,"sources":["a.ts"],"names":["main"],"mappings":"SAAAA"}"#)?;
    /// let map = map.with_generated("function f(){g()}")?;
    /// assert_eq!(map.function_name(0, 13, "async f").as_deref(), Some("main"));
    /// assert_eq!(map.with_generated("function").unwrap_err().code(), Some("A4"));
    /// # Ok::<(), smap::Error>(())
    /// ```
    pub fn with_generated(mut self, generated: impl AsRef<[u8]>) -> Result<SourceMap, Error> {
        self.functions = Some(library::Names::new(&self.map, generated.as_ref())?);
        Ok(self)
    }

    /// The name that a function has in its source, which is called `name` in a frame at this generated
    /// position: one word, which may stand behind `async ` and `new `. `None` where it has none, and
    /// where [`with_generated`](SourceMap::with_generated) was given no file.
    ///
    /// ```
    /// # let map = smap::SourceMap::from_slice(br#"{"version":3,"sources":["a.ts"],"names":["main"],"mappings":"SAAAA"}"#)?;
    /// let map = map.with_generated("function f(){g()}")?;
    /// assert_eq!(map.function_name(0, 13, "f").as_deref(), Some("main"));
    /// assert_eq!(map.function_name(0, 13, "Object.f"), None);
    /// # Ok::<(), smap::Error>(())
    /// ```
    pub fn function_name(&self, line: u32, column: u32, name: &str) -> Option<String> {
        self.functions.as_ref()?.name_of(name, line, column)
    }

    pub(crate) fn of(map: library::Map, functions: Option<library::Names>) -> SourceMap {
        let mut sources = Vec::new();
        while let Some(source) = map.source(sources.len() as u32) {
            sources.push(source);
        }
        let mut names = Vec::new();
        while let Some(name) = map.name(names.len() as u32) {
            names.push(name);
        }
        let texts = Texts {
            file: map.file(),
            sources,
            names,
        };
        SourceMap {
            map,
            texts: Arc::new(texts),
            functions,
        }
    }

    pub(crate) fn library_map(&self) -> &library::Map {
        &self.map
    }

    pub(crate) fn library_names(&self) -> Option<&library::Names> {
        self.functions.as_ref()
    }

    pub(crate) fn into_library_map(self) -> (library::Map, Option<library::Names>) {
        (self.map, self.functions)
    }
}

impl fmt::Debug for SourceMap {
    fn fmt(&self, to: &mut fmt::Formatter<'_>) -> fmt::Result {
        to.debug_struct("SourceMap")
            .field("file", &self.texts.file)
            .field("sources", &self.texts.sources.len())
            .field("names", &self.texts.names.len())
            .field("mappings", &self.get_token_count())
            .finish()
    }
}

/// How many bytes of a generated file come from where.
///
/// ```
/// # let map = smap::SourceMap::from_slice(br#"{"version":3,"sources":["a.ts"],"mappings":"EAAA"}"#)?;
/// let bytes = map.bytes_by_source("//f()")?;
/// assert_eq!(bytes.sources.iter().sum::<u64>() + bytes.unmapped, 5);
/// # Ok::<(), smap::Error>(())
/// ```
#[derive(Clone, Debug, PartialEq, Eq)]
#[non_exhaustive]
pub struct BytesBySource {
    /// From each source, in their order.
    pub sources: Vec<u64>,
    /// From none.
    pub unmapped: u64,
}

/// How a map fits a generated file: it can be its map where no mapping stands past the text or
/// inside a word of it.
///
/// ```
/// # let map = smap::SourceMap::from_slice(br#"{"version":3,"sources":["a.ts"],"mappings":"EAAA"}"#)?;
/// let fit = map.fit("//f()")?;
/// assert_eq!((fit.mappings, fit.past + fit.inside), (1, 0));
/// # Ok::<(), smap::Error>(())
/// ```
#[derive(Clone, Copy, Debug, PartialEq, Eq)]
#[non_exhaustive]
pub struct Fit {
    /// Whether the map can be that of the file.
    pub fits: bool,
    /// How many mappings the map has.
    pub mappings: u64,
    /// Those past the text.
    pub past: u64,
    /// Those inside a word of it.
    pub inside: u64,
    /// Those whose source has content.
    pub compared: u64,
    /// Those of them whose original place is past the content.
    pub outside: u64,
    /// Those of them at which both texts show the same word or character.
    pub same: u64,
}
