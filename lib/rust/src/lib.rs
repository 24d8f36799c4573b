//! Source maps of ECMA-426: look-ups, composition and stack traces, over the library libsmap.
//!
//! ```
//! use smap::SourceMap;
//!
//! let map = SourceMap::from_slice(&std::fs::read("../../examples/receipt.min.js.map")?)?;
//! let token = map.lookup(1, 4471).unwrap();
//! assert_eq!(token.get_source(), Some("src/receipt.ts"));
//! assert_eq!((token.get_src_line(), token.get_src_col()), (Some(10), Some(46)));
//! # Ok::<(), Box<dyn std::error::Error>>(())
//! ```
//!
//! Lines, columns, sources, names and bytes count from 0, columns in UTF-16 code units. Calls
//! have the names of those of the crate `sourcemap` that mean the same; docs/LIBRARY.md of the
//! repository says what differs. The library is proved, and this crate is not.
//!
//! The library is linked statically, or with the feature `dynamic` as a shared one; there are no
//! default features. It is that below the folder that `SMAP_DIR` names, or else that of this version
//! which pkg-config knows, or that which was packed into this crate, or that of the package for the
//! target in `dist/` of the repository that this crate lies in.
#![deny(missing_docs, unsafe_code)]

mod compose;
mod context;
mod encoding;
mod engine;
mod error;
#[allow(unsafe_code)]
mod library;
mod map;
mod maps;
mod originals;
mod reading;
mod rewriting;
#[allow(unsafe_code)]
mod sys;
mod table;
mod token;
mod urls;

pub use compose::ComposeOptions;
pub use context::Context;
pub use encoding::{encode, Mapping, Original};
pub use error::{Error, Reason, Refused};
pub use map::{BytesBySource, Fit, SourceMap};
pub use maps::{Found, Maps, MapsCounts};
pub use originals::{Generated, Originals};
pub use reading::ReadOptions;
pub use rewriting::RewriteOptions;
pub use table::{Table, TraceCounts};
pub use token::{Mappings, Token};

/// The version of the library that is linked.
///
/// ```
/// assert_eq!(smap::version(), env!("CARGO_PKG_VERSION"));
/// ```
pub fn version() -> String {
    library::version()
}
