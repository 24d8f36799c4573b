//! The calls of libsmap, made safe: nothing outside this module is unsafe.
//!
//! What the library wants of its callers holds for each call here:
//! - A handle is full until it is freed or a call takes it over, and then its value is gone.
//! - One call at a time uses a handle: no value here is `Sync`, and the library calls nobody back.
//! - No pointer is null, and those of a call that lead to anything lead to different places.
//! - What is lent is copied before the next call with its handle.

mod bytes;
mod inners;
mod map;
mod names;
mod originals;
mod rewriting;
mod store;
mod table;
mod texts;

pub(crate) use bytes::Bytes;
pub(crate) use inners::Inners;
pub(crate) use map::{encoded, Map, Reading, Source};
pub(crate) use names::Names;
pub(crate) use originals::Originals;
pub(crate) use rewriting::{Rewriting, Stop};
pub(crate) use store::{Found, Known, Store};
pub(crate) use table::{cut, is_location, is_path, path_below, Table};
pub(crate) use texts::{code_text, reason, version};

use crate::error::Error;
use crate::sys;
use std::slice;

/// Where a pointer to no bytes leads.
static NOTHING: u8 = 0;

fn no_text() -> sys::smap_text {
    sys::smap_text {
        bytes: &NOTHING,
        length: 0,
    }
}

fn no_source() -> sys::smap_source_text {
    sys::smap_source_text {
        name: no_text(),
        content: no_text(),
        named: 0,
        held: 0,
        ignored: 0,
    }
}

/// The bytes of a text.
///
/// # Safety
///
/// The text was lent, and stays as long as what is given.
unsafe fn lent<'a>(text: &sys::smap_text) -> &'a [u8] {
    match text.length {
        // Then the pointer may be any.
        0 => &[],
        length => slice::from_raw_parts(text.bytes, length),
    }
}

/// A copy of a text.
///
/// # Safety
///
/// The text was lent, and there was no call since with the handle that lent it.
unsafe fn copied(text: &sys::smap_text) -> String {
    String::from_utf8_lossy(lent(text)).into_owned()
}

/// What a status says. Where it is that of a refusal, the call says why.
fn done<W: Into<Error>>(status: u32, why: impl FnOnce() -> W) -> Result<(), Error> {
    match status {
        sys::SMAP_DONE => Ok(()),
        sys::SMAP_REFUSED => Err(why().into()),
        _ => Err(Error::OutOfMemory),
    }
}
