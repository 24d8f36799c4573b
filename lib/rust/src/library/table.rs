//! Tables of maps, and what they make of texts.

use super::store::Found;
use super::{done, lent, no_source, no_text, Bytes, Map, Names, NOTHING};
use crate::error::{Error, Refused};
use crate::sys;
use std::ptr;

/// Maps, each under a URL.
pub(crate) struct Table {
    handle: sys::smap_table,
}

// Any thread may use the handle, as long as one does at a time: all calls want the table for
// themselves.
unsafe impl Send for Table {}

impl Table {
    pub(crate) fn new() -> Result<Table, Error> {
        let mut handle = sys::smap_table {
            at: ptr::null_mut(),
        };
        let status = unsafe { sys::smap_table_new(&mut handle) };
        done(status, Refused::nothing)?;
        Ok(Table { handle })
    }

    pub(crate) fn add(&mut self, url: &str, map: Map) -> Result<(), Error> {
        let (mut map, mut refusal) = (map.into_handle(), 0);
        let status = unsafe {
            let (table, url, length) = (&mut self.handle, url.as_ptr(), url.len());
            sys::smap_table_add(table, url, length, &mut map, &mut refusal)
        };
        if status == sys::SMAP_REFUSED {
            // The map stays in its handle, and after no other status.
            drop(Map::full(map));
        }
        done(status, || Refused::new(refusal))
    }

    pub(super) fn handle(&mut self) -> &mut sys::smap_table {
        &mut self.handle
    }

    /// Puts a map that is held by others, too.
    pub(crate) fn add_shared(&mut self, url: &str, map: &Map) -> Result<(), Error> {
        let mut refusal = 0;
        let status = unsafe {
            let (table, url, length) = (&mut self.handle, url.as_ptr(), url.len());
            sys::smap_table_add_shared(table, url, length, map.handle(), &mut refusal)
        };
        done(status, || Refused::new(refusal))
    }

    /// Puts names of functions beside the map under a URL, whose they are.
    pub(crate) fn add_names(&mut self, url: &str, names: &Names) -> Result<(), Error> {
        let status = unsafe {
            let (table, url, length) = (&mut self.handle, url.as_ptr(), url.len());
            sys::smap_table_add_names(table, url, length, names.handle())
        };
        done(status, Refused::nothing)
    }

    /// What answers at a position in the map of a URL, which has one by itself, without its query and
    /// its fragment, or by a pattern.
    pub(crate) fn look_up(
        &mut self,
        url: &[u8],
        (line, column): (u32, u32),
        is_after: bool,
    ) -> Option<Found> {
        let options = sys::smap_table_options {
            after: is_after,
            cut: true,
        };
        let (mut found, mut source) = (sys::smap_found::default(), no_source());
        let mut name = no_text();
        let status = unsafe {
            let (table, bytes, length) = (&self.handle, url.as_ptr(), url.len());
            let source = &mut source;
            sys::smap_table_look_up(
                table, bytes, length, line, column, &options, &mut found, source, &mut name,
            )
        };
        // The next call with the table comes after what it lends is copied.
        (status == sys::SMAP_DONE).then(|| unsafe { Found::of(found, &source, &name) })
    }
}

impl Drop for Table {
    fn drop(&mut self) {
        unsafe { sys::smap_table_free(&mut self.handle) }
    }
}

/// Where the map of a URL with this prefix stands below its folder, if that is within it.
pub(crate) fn path_below(prefix: &str, url: &str) -> Result<Option<String>, Error> {
    let call = |path| unsafe {
        let (bytes, length) = (url.as_ptr(), url.len());
        sys::smap_folder_path(
            prefix.as_ptr(),
            prefix.len(),
            &NOTHING,
            0,
            bytes,
            length,
            path,
        )
    };
    match Bytes::of(call, Refused::nothing) {
        Ok(path) => Ok(Some(path.to_text())),
        Err(Error::Refused(_)) => Ok(None),
        Err(error) => Err(error),
    }
}

/// A URL without its query and its fragment.
pub(crate) fn cut(url: &[u8]) -> &[u8] {
    let mut text = no_text();
    // What is lent is the beginning of the URL.
    let length = unsafe {
        sys::smap_cut_url(url.as_ptr(), url.len(), &mut text);
        lent(&text).len()
    };
    &url[..length.min(url.len())]
}

/// Whether a URL is a path from a root.
pub(crate) fn is_path(url: &str) -> bool {
    unsafe { sys::smap_is_path(url.as_ptr(), url.len()) == sys::SMAP_DONE }
}

/// Whether a map may be asked for under this one, which is cut.
pub(crate) fn is_location(url: &[u8]) -> bool {
    unsafe { sys::smap_is_location(url.as_ptr(), url.len()) == sys::SMAP_DONE }
}
