//! Mappings as a text.

use crate::error::Error;
use crate::library;
use crate::sys;
use crate::token::{Token, MAPPED, UNMAPPED};

/// A mapping that is encoded. All lines, columns and indices count from 0, columns in UTF-16 code
/// units.
///
/// ```
/// # let map = smap::SourceMap::from_slice(br#"{"version":3,"sources":["a.ts"],"mappings":"C,EAEC"}"#)?;
/// let mapping = smap::Mapping::from(map.lookup(0, 3).unwrap());
/// assert_eq!((mapping.line, mapping.column, mapping.original.unwrap().line), (0, 3, 2));
/// # Ok::<(), smap::Error>(())
/// ```
#[derive(Clone, Copy, Debug, PartialEq, Eq)]
pub struct Mapping {
    /// The generated line.
    pub line: u32,
    /// The generated column.
    pub column: u32,
    /// Where it leads, if it does.
    pub original: Option<Original>,
}

/// Where a mapping leads.
///
/// ```
/// let original = smap::Original { source: 0, line: 2, column: 1, name: None };
/// let mapping = smap::Mapping { line: 0, column: 3, original: Some(original) };
/// assert_eq!(smap::encode([mapping])?, "GAEC");
/// # Ok::<(), smap::Error>(())
/// ```
#[derive(Clone, Copy, Debug, PartialEq, Eq)]
pub struct Original {
    /// The number of the source.
    pub source: u32,
    /// The line in it.
    pub line: u32,
    /// The column.
    pub column: u32,
    /// The number of the name, where there is one.
    pub name: Option<u32>,
}

/// The text that a map has of these mappings, which come by line and then by column. One that stands
/// before the one in front of it is refused, one with a number past 2,147,483,647, and more than
/// 67,108,864 bytes.
///
/// ```
/// let map = smap::SourceMap::from_slice(br#"{"version":3,"sources":["a.ts"],"mappings":"C,EAEC;A"}"#)?;
/// assert_eq!(smap::encode(map.mappings()?.map(smap::Mapping::from))?, "C,EAEC;A");
///
/// let far = smap::Mapping { line: 0, column: u32::MAX, original: None };
/// assert_eq!(smap::encode([far]).unwrap_err().code(), Some("E2"));
/// # Ok::<(), smap::Error>(())
/// ```
pub fn encode(mappings: impl IntoIterator<Item = Mapping>) -> Result<String, Error> {
    let numbers: Vec<_> = mappings.into_iter().map(numbers_of).collect();
    library::encoded(&numbers)
}

fn numbers_of(mapping: Mapping) -> sys::smap_mapping {
    let Mapping {
        line,
        column,
        original,
    } = mapping;
    match original {
        None => sys::smap_mapping {
            line,
            column,
            kind: UNMAPPED,
            ..sys::smap_mapping::default()
        },
        Some(original) => sys::smap_mapping {
            line,
            column,
            kind: MAPPED,
            source: original.source,
            original_line: original.line,
            original_column: original.column,
            named: original.name.is_some().into(),
            name: original.name.unwrap_or_default(),
        },
    }
}

impl From<Token<'_>> for Mapping {
    fn from(token: Token<'_>) -> Mapping {
        let (line, column) = token.get_dst();
        Mapping {
            line,
            column,
            original: token.original(),
        }
    }
}
