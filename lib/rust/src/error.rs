//! Why something is not done.

mod refusing;

use crate::{library, sys};
use std::{error, fmt, io};

/// Why something is not done.
///
/// ```
/// use smap::{Error, SourceMap};
///
/// match SourceMap::from_slice(b"no JSON") {
///     Ok(_) => unreachable!(),
///     Err(Error::Refused(refused)) => assert_eq!(refused.to_string(), "M2 NotJson"),
///     Err(other) => panic!("{}", other),
/// }
/// ```
#[derive(Debug)]
#[non_exhaustive]
pub enum Error {
    /// What was given is refused.
    Refused(Refused),
    /// The library is out of memory.
    OutOfMemory,
    /// A reader, a writer or a loader failed.
    Io(io::Error),
}

impl Error {
    /// The code of a refusal, where it has one.
    ///
    /// ```
    /// let error = smap::SourceMap::from_slice(b"no JSON").unwrap_err();
    /// assert_eq!(error.code(), Some("M2"));
    /// ```
    pub fn code(&self) -> Option<&'static str> {
        match self {
            Error::Refused(refused) => Some(refused.code()),
            _ => None,
        }
    }

    /// The same of a map that was to stand at a name.
    pub(crate) fn of(self, name: &str) -> Error {
        match self {
            Error::Refused(refused) => Error::Refused(Refused {
                name: Some(name.to_string()),
                ..refused
            }),
            other => other,
        }
    }
}

impl fmt::Display for Error {
    fn fmt(&self, to: &mut fmt::Formatter<'_>) -> fmt::Result {
        match self {
            Error::Refused(refused) => refused.fmt(to),
            Error::OutOfMemory => to.write_str("out of memory"),
            Error::Io(error) => error.fmt(to),
        }
    }
}

impl error::Error for Error {
    fn source(&self) -> Option<&(dyn error::Error + 'static)> {
        match self {
            Error::Io(error) => error.source(),
            _ => None,
        }
    }
}

impl From<Refused> for Error {
    fn from(refused: Refused) -> Error {
        Error::Refused(refused)
    }
}

impl From<io::Error> for Error {
    fn from(error: io::Error) -> Error {
        Error::Io(error)
    }
}

/// What is refused, and why.
///
/// It is displayed as the program prints it, behind a base that is refused, or the URL or source
/// whose map a loader gave. There lines count from 1, and in what the methods give from 0.
///
/// ```
/// let map = br#"{"version":3,"sources":["a.ts"],"mappings":"AACA,ECAA"}"#;
/// let error = smap::SourceMap::from_slice(map).unwrap_err();
/// assert_eq!(error.to_string(), "M14 Text 0 F10 SourceIndex line 1 byte 5");
/// ```
#[derive(Clone, Debug)]
pub struct Refused {
    code: sys::smap_code,
    /// What is said of it: those of the code, or others.
    words: &'static str,
    name: Option<String>,
    map: Option<sys::smap_refusal>,
    lines: Option<u64>,
}

impl Refused {
    /// The code, as `smap explain` takes it: of a base that is no URL `usage`, and of one that is too
    /// long `U1`.
    ///
    /// ```
    /// # let error = smap::SourceMap::from_slice(b"no JSON").unwrap_err();
    /// # let refused = match error { smap::Error::Refused(refused) => refused, other => panic!("{}", other) };
    /// assert_eq!(refused.code(), "M2");
    /// ```
    pub fn code(&self) -> &'static str {
        label(library::code_text(self.code))
    }

    /// The code of what is wrong within: the fault of the mappings, F1 to F11, of M14, and why no
    /// index is built, B1 to B5, of M15.
    ///
    /// ```
    /// # let error = smap::SourceMap::from_slice(br#"{"version":3,"sources":[],"mappings":"AAAA"}"#).unwrap_err();
    /// # let refused = match error { smap::Error::Refused(refused) => refused, other => panic!("{}", other) };
    /// assert_eq!(refused.cause(), Some("F10"));
    /// ```
    pub fn cause(&self) -> Option<&'static str> {
        self.cause_text().map(label)
    }

    fn cause_text(&self) -> Option<&'static str> {
        let map = self.map.as_ref().filter(|map| map.cause != 0);
        map.map(|map| library::code_text(map.cause))
    }

    /// The refusal, where it is that of a faulty segment.
    fn fault(&self) -> Option<&sys::smap_refusal> {
        let map = self.map.as_ref();
        map.filter(|map| map.code == sys::SMAP_CODE_M14)
    }

    /// The section of the map, from 0, where the refusal is of one.
    ///
    /// ```
    /// # let error = smap::SourceMap::from_slice(br#"{"version":3,"sources":[],"mappings":"AAAA"}"#).unwrap_err();
    /// # let refused = match error { smap::Error::Refused(refused) => refused, other => panic!("{}", other) };
    /// assert_eq!(refused.section(), Some(0));
    /// ```
    pub fn section(&self) -> Option<u64> {
        let map = self.map.as_ref().filter(|map| map.has_section != 0);
        map.map(|map| map.section)
    }

    /// The generated line of a faulty segment, from 0.
    ///
    /// ```
    /// # let error = smap::SourceMap::from_slice(br#"{"version":3,"sources":[],"mappings":";AAAA"}"#).unwrap_err();
    /// # let refused = match error { smap::Error::Refused(refused) => refused, other => panic!("{}", other) };
    /// assert_eq!((refused.line(), refused.byte()), (Some(1), Some(1)));
    /// ```
    pub fn line(&self) -> Option<u32> {
        self.fault().map(|map| map.line)
    }

    /// Where a faulty segment begins in the mappings, in bytes from 0.
    ///
    /// ```
    /// # let error = smap::SourceMap::from_slice(br#"{"version":3,"sources":["a"],"mappings":"AAAA,!"}"#).unwrap_err();
    /// # let refused = match error { smap::Error::Refused(refused) => refused, other => panic!("{}", other) };
    /// assert_eq!(refused.byte(), Some(5));
    /// ```
    pub fn byte(&self) -> Option<u64> {
        self.fault().map(|map| map.byte)
    }

    /// Why the map of these bytes was refused so. It is read again, which takes as long and as much
    /// memory as the first time. Of what is no map there is nothing to say.
    ///
    /// ```
    /// let map = br#"{"version":3,"sources":["a.ts"],"mappings":"AACA,ECAA"}"#;
    /// # let error = smap::SourceMap::from_slice(map).unwrap_err();
    /// # let refused = match error { smap::Error::Refused(refused) => refused, other => panic!("{}", other) };
    /// let reason = refused.explain(map)?.unwrap();
    /// assert_eq!((reason.value, reason.most, reason.column), (Some(1), Some(0), Some(2)));
    /// assert!(reason.text.ends_with("source index 1, and the map has 1 source\n"));
    /// # Ok::<(), smap::Error>(())
    /// ```
    pub fn explain(&self, map: &[u8]) -> Result<Option<Reason>, Error> {
        match &self.map {
            Some(refusal) => library::reason(map, refusal),
            None => Ok(None),
        }
    }

    /// How many lines were written, where what a text comes to has more bytes than
    /// [`Table::set_max_output`](crate::Table::set_max_output) says.
    ///
    /// ```
    /// # let mut table = smap::Table::new()?;
    /// table.set_max_output(5);
    /// let error = table.rewrite("a\nb\nlong\n".as_bytes(), std::io::sink()).unwrap_err();
    /// # let refused = match error { smap::Error::Refused(refused) => refused, other => panic!("{}", other) };
    /// assert_eq!((refused.to_string().as_str(), refused.lines()), ("X5 LongOutput", Some(2)));
    /// # Ok::<(), smap::Error>(())
    /// ```
    pub fn lines(&self) -> Option<u64> {
        self.lines
    }
}

impl fmt::Display for Refused {
    fn fmt(&self, to: &mut fmt::Formatter<'_>) -> fmt::Result {
        if let Some(name) = &self.name {
            write!(to, "{}: ", name)?;
        }
        let (section, cause) = (self.section(), self.cause_text());
        match (section, cause, self.fault()) {
            (Some(section), Some(cause), Some(fault)) => {
                let (line, byte) = (u64::from(fault.line) + 1, fault.byte);
                write!(
                    to,
                    "{} {} {} line {} byte {}",
                    self.words, section, cause, line, byte
                )
            }
            (Some(section), Some(cause), None) => {
                write!(to, "{} {} {}", self.words, cause, section)
            }
            (Some(section), None, _) => write!(to, "{} {}", self.words, section),
            (None, Some(cause), _) => write!(to, "{} {}", self.words, cause),
            (None, None, _) => to.write_str(self.words),
        }
    }
}

/// The letter and the number of what is printed of a code, or its word.
fn label(text: &'static str) -> &'static str {
    text.split(' ').next().unwrap_or_default()
}

/// What is known of why a map is refused: the value of a faulty segment, what it may be, and
/// sentences. Of what there is not it has `None`, and no sentences.
///
/// ```
/// let map = br#"{"version":3,"sources":["a.ts"],"mappings":"AACA,ECAA"}"#;
/// # let error = smap::SourceMap::from_slice(map).unwrap_err();
/// # let refused = match error { smap::Error::Refused(refused) => refused, other => panic!("{}", other) };
/// let reason = refused.explain(map)?.unwrap();
/// println!("{:?}, and at most {:?} may be\n{}", reason.value, reason.most, reason.text);
/// # Ok::<(), smap::Error>(())
/// ```
#[derive(Clone, Debug, PartialEq, Eq)]
#[non_exhaustive]
pub struct Reason {
    /// The value, as the map has it. Lines, columns and indices count from 0.
    pub value: Option<i64>,
    /// The least that it may be.
    pub least: Option<i64>,
    /// The most that it may be, -1 for an index into an empty list.
    pub most: Option<i64>,
    /// The generated column of the faulty segment, from 0.
    pub column: Option<u64>,
    /// Sentences, each a line that begins with two blanks and ends with an LF. In them lines and
    /// columns count from 1.
    pub text: String,
}
