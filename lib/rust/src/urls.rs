//! The files of a folder.

use crate::error::Error;
use crate::library;
use std::fs::{self, File};
use std::io::{self, ErrorKind, Read};
use std::path::Path;

/// A map file with more bytes is refused, and read no further.
const MOST_FILE: u64 = 67_108_864;

/// The error of a system where a piece of a path is no folder.
const NO_FOLDER: i32 = 20;

/// The bytes of the map that a folder has for a URL with this prefix, or `None` where there is none.
/// That the folder itself is not there is told once.
pub(crate) fn read_in(
    folder: &Path,
    prefix: &str,
    url: &str,
    is_told: &mut bool,
) -> io::Result<Option<Vec<u8>>> {
    let path = match library::path_below(prefix, url) {
        Ok(Some(path)) => folder.join(path),
        Ok(None) => return Ok(None),
        Err(Error::Io(error)) => return Err(error),
        Err(error) => return Err(io::Error::new(ErrorKind::Other, error)),
    };
    let mut bytes = Vec::new();
    match File::open(path).and_then(|file| file.take(MOST_FILE + 1).read_to_end(&mut bytes)) {
        Ok(_) => Ok(Some(bytes)),
        Err(error)
            if error.kind() == ErrorKind::NotFound || error.raw_os_error() == Some(NO_FOLDER) =>
        {
            if !*is_told {
                // It stays so where there is no folder: then this fails.
                *is_told = true;
                fs::metadata(folder.join("."))?;
                *is_told = false;
            }
            Ok(None)
        }
        Err(error) => Err(error),
    }
}
