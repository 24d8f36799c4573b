//! Stores of maps, and texts that are rewritten over them.

use super::{copied, done, lent, no_source, no_text, Map, Names};
use crate::error::{Error, Refused};
use crate::sys;
use std::ptr;

/// What a store knows of a URL.
#[derive(Clone, Copy, Debug, PartialEq, Eq)]
pub(crate) enum Known {
    /// It has a map.
    Map,
    /// There is no map for it.
    Missing,
    /// What should give its map failed.
    Failed,
    /// Nothing: it is to be put.
    Wanted,
}

/// What answers a look-up, with copies of its texts.
pub(crate) struct Found {
    pub found: sys::smap_found,
    pub source: Option<String>,
    pub name: Option<String>,
}

impl Found {
    /// # Safety
    ///
    /// The texts were lent, and there was no call since with the handle that lent them.
    pub(super) unsafe fn of(
        found: sys::smap_found,
        source: &sys::smap_source_text,
        name: &sys::smap_text,
    ) -> Found {
        Found {
            source: (source.named != 0).then(|| copied(&source.name)),
            name: (found.named != 0).then(|| copied(name)),
            found,
        }
    }
}

/// Maps by URL, within a bound.
pub(crate) struct Store {
    handle: sys::smap_store,
}

// Any thread may use the handle, as long as one does at a time: all calls want the store for
// themselves.
unsafe impl Send for Store {}

impl Store {
    pub(crate) fn new(most: u64) -> Result<Store, Error> {
        let mut handle = sys::smap_store {
            at: ptr::null_mut(),
        };
        done(
            unsafe { sys::smap_store_new(most, &mut handle) },
            Refused::nothing,
        )?;
        Ok(Store { handle })
    }

    pub(super) fn handle(&mut self) -> &mut sys::smap_store {
        &mut self.handle
    }

    /// Puts the map of a URL, which the store holds with it, and with it names of functions, where there are some.
    pub(crate) fn put(
        &mut self,
        url: &[u8],
        map: &Map,
        names: Option<&Names>,
    ) -> Result<(), Error> {
        let (store, bytes, length) = (&mut self.handle, url.as_ptr(), url.len());
        let status = match names {
            Some(names) => {
                let size = map.size().saturating_add(names.size());
                unsafe { sys::smap_store_put_named(store, bytes, length, names.handle(), size) }
            }
            None => unsafe { sys::smap_store_put(store, bytes, length, map.handle(), map.size()) },
        };
        done(status, Refused::nothing)
    }

    /// Puts that a URL has no map, before a time or for ever.
    pub(crate) fn put_none(
        &mut self,
        url: &[u8],
        is_failed: bool,
        until: Option<u64>,
    ) -> Result<(), Error> {
        let why = if is_failed {
            sys::SMAP_FAILED
        } else {
            sys::SMAP_MISSING
        };
        let (store, time) = (&mut self.handle, until.unwrap_or_default());
        let (bytes, length) = (url.as_ptr(), url.len());
        let status =
            unsafe { sys::smap_store_put_none(store, bytes, length, why, until.is_some(), time) };
        done(status, Refused::nothing)
    }

    pub(crate) fn forget(&mut self, url: &[u8]) -> Result<(), Error> {
        let store = &mut self.handle;
        let status = unsafe { sys::smap_store_forget(store, url.as_ptr(), url.len()) };
        done(status, Refused::nothing)
    }

    pub(crate) fn forget_none(&mut self) -> Result<(), Error> {
        let status = unsafe { sys::smap_store_forget_none(&mut self.handle) };
        done(status, Refused::nothing)
    }

    pub(crate) fn counts(&mut self) -> sys::smap_store_counts {
        let mut counts = sys::smap_store_counts::default();
        unsafe { sys::smap_store_count(&mut self.handle, &mut counts) };
        counts
    }

    /// The URL under which what is known of a URL is put: a part of it.
    pub(crate) fn key<'a>(&mut self, url: &'a [u8]) -> &'a [u8] {
        let mut key = no_text();
        let store = &mut self.handle;
        // What is lent is the URL, or its beginning, whatever becomes of the store.
        let length = unsafe {
            sys::smap_store_key(store, url.as_ptr(), url.len(), &mut key);
            lent(&key).len()
        };
        &url[..length.min(url.len())]
    }

    /// What is known of a URL. The look-up is counted.
    pub(crate) fn ask(&mut self, url: &[u8], now: u64) -> Result<Known, Error> {
        let (store, mut why) = (&mut self.handle, 0);
        let status = unsafe { sys::smap_store_ask(store, url.as_ptr(), url.len(), now, &mut why) };
        known(status, why)
    }

    /// What answers at a position in the map of a URL that has one.
    pub(crate) fn look_up(
        &mut self,
        url: &[u8],
        now: u64,
        (line, column): (u32, u32),
        is_after: bool,
    ) -> Result<Option<Found>, Error> {
        let (store, mut why) = (&mut self.handle, 0);
        let mut found = sys::smap_found::default();
        let (mut source, mut name) = (no_source(), no_text());
        let status = unsafe {
            let (bytes, length) = (url.as_ptr(), url.len());
            let (answer, of, text) = (&mut found, &mut source, &mut name);
            sys::smap_store_look_up(
                store, bytes, length, now, line, column, is_after, answer, of, text, &mut why,
            )
        };
        Ok(match known(status, why)? {
            // The next call with the store comes after what it lends is copied.
            Known::Map => Some(unsafe { Found::of(found, &source, &name) }),
            _ => None,
        })
    }

    /// The map of a URL, which it shares with the store.
    pub(crate) fn map(&mut self, url: &[u8], now: u64) -> Result<Option<Map>, Error> {
        let mut handle = sys::smap_map {
            at: ptr::null_mut(),
        };
        let (store, mut why) = (&mut self.handle, 0);
        let status = unsafe {
            sys::smap_store_map(store, url.as_ptr(), url.len(), now, &mut handle, &mut why)
        };
        Ok(match known(status, why)? {
            Known::Map => Some(Map::full(handle)),
            _ => None,
        })
    }

    /// The names that came with the map of a URL, which they share with the store.
    pub(crate) fn names(&mut self, url: &[u8], now: u64) -> Result<Option<Names>, Error> {
        let mut handle = sys::smap_names {
            at: ptr::null_mut(),
        };
        let store = &mut self.handle;
        let status =
            unsafe { sys::smap_store_names(store, url.as_ptr(), url.len(), now, &mut handle) };
        match status {
            sys::SMAP_REFUSED => Ok(None),
            _ => done(status, Refused::nothing).map(|_| Some(Names::full(handle))),
        }
    }
}

impl Drop for Store {
    fn drop(&mut self) {
        unsafe { sys::smap_store_free(&mut self.handle) }
    }
}

/// What a store said of a URL.
fn known(status: u32, why: u32) -> Result<Known, Error> {
    match (status, why) {
        (sys::SMAP_DONE, _) => Ok(Known::Map),
        (sys::SMAP_REFUSED, sys::SMAP_MISSING) => Ok(Known::Missing),
        (sys::SMAP_REFUSED, _) => Ok(Known::Failed),
        (sys::SMAP_WANTED, _) => Ok(Known::Wanted),
        _ => Err(Error::OutOfMemory),
    }
}
