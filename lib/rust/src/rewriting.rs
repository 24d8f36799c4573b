//! How texts are rewritten.

/// How a text is rewritten: as frames of a trace, if nothing else is said.
///
/// ```
/// use smap::{RewriteOptions, SourceMap, Table};
///
/// let map = SourceMap::from_slice(br#"{"version":3,"sources":["a.ts"],"mappings":"AAEA"}"#)?;
/// let mut table = Table::new()?;
/// table.insert("a.js", map)?;
/// let options = RewriteOptions::new().with_anywhere(true).with_strip_ansi(true);
/// let mut rewritten = Vec::new();
/// table.rewrite_with(options, "see \x1b[36ma.js:1:7\x1b[0m\n".as_bytes(), &mut rewritten)?;
/// assert_eq!(rewritten, b"see a.ts:3:1\n");
/// # Ok::<(), smap::Error>(())
/// ```
#[derive(Clone, Copy, Debug, Default, PartialEq, Eq)]
pub struct RewriteOptions {
    pub(crate) hide_ignored: bool,
    pub(crate) anywhere: bool,
    pub(crate) strip_ansi: bool,
}

impl RewriteOptions {
    /// Frames, all of them, in a text without control sequences.
    ///
    /// ```
    /// assert_eq!(smap::RewriteOptions::new(), smap::RewriteOptions::default());
    /// ```
    pub fn new() -> RewriteOptions {
        RewriteOptions::default()
    }

    /// Whether lines of frames from sources that the map ignores are left out.
    ///
    /// ```
    /// # let mut table = smap::Table::with_loader(|_| {
    /// #     Ok(Some(r#"{"version":3,"sources":["a.ts"],"ignoreList":[0],"mappings":"AAEA"}"#))
    /// # })?;
    /// let options = smap::RewriteOptions::new().with_hide_ignored(true);
    /// assert_eq!(table.rewrite_with(options, "f@a.js:1:7\n".as_bytes(), std::io::sink())?.hidden, 1);
    /// # Ok::<(), smap::Error>(())
    /// ```
    pub fn with_hide_ignored(mut self, is_so: bool) -> RewriteOptions {
        self.hide_ignored = is_so;
        self
    }

    /// Whether each place URL:line:column is rewritten, wherever it stands in a line, in place of
    /// frames. Then no line is left out.
    ///
    /// ```
    /// # let mut table = smap::Table::with_loader(|_| {
    /// #     Ok(Some(r#"{"version":3,"sources":["a.ts"],"mappings":"AAEA"}"#))
    /// # })?;
    /// let options = smap::RewriteOptions::new().with_anywhere(true);
    /// assert_eq!(table.rewrite_with(options, "{a.js:1:7}".as_bytes(), std::io::sink())?.mapped, 1);
    /// # Ok::<(), smap::Error>(())
    /// ```
    pub fn with_anywhere(mut self, is_so: bool) -> RewriteOptions {
        self.anywhere = is_so;
        self
    }

    /// Whether the text is read without the control sequences that colour a terminal.
    ///
    /// ```
    /// # let mut table = smap::Table::with_loader(|_| {
    /// #     Ok(Some(r#"{"version":3,"sources":["a.ts"],"mappings":"AAEA"}"#))
    /// # })?;
    /// let options = smap::RewriteOptions::new().with_strip_ansi(true);
    /// let trace = "    at f (\x1b[36ma.js:1:7\x1b[0m)\n";
    /// assert_eq!(table.rewrite_with(options, trace.as_bytes(), std::io::sink())?.mapped, 1);
    /// # Ok::<(), smap::Error>(())
    /// ```
    pub fn with_strip_ansi(mut self, is_so: bool) -> RewriteOptions {
        self.strip_ansi = is_so;
        self
    }
}
