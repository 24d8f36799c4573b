//! The maps of the sources of a map.

use super::{copied, done, no_text, Bytes, Map};
use crate::error::{Error, Refused};
use crate::sys;
use std::cell::Cell;
use std::ptr;

/// Places for the maps of the sources of a map.
pub(crate) struct Inners<'a> {
    outer: &'a Map,
    handle: sys::smap_inners,
}

impl<'a> Inners<'a> {
    pub(crate) fn new(outer: &'a Map) -> Result<Inners<'a>, Error> {
        let mut handle = sys::smap_inners {
            at: ptr::null_mut(),
        };
        let status = unsafe { sys::smap_inners_new(outer.handle(), &mut handle) };
        done(status, Refused::nothing)?;
        Ok(Inners { outer, handle })
    }

    /// Puts the map of a source that was asked for into its place.
    pub(crate) fn put(&mut self, source: u32, map: Map) -> Result<(), Error> {
        let mut map = map.into_handle();
        let status = unsafe { sys::smap_inners_put(&mut self.handle, source, &mut map) };
        if status != sys::SMAP_DONE {
            // The handle is as it was.
            drop(Map::full(map));
        }
        done(status, || Refused::new(sys::SMAP_CODE_C1))
    }

    /// The next source of which a map is wanted.
    pub(crate) fn next(&mut self) -> Result<Option<u32>, Error> {
        let (mut source, mut refusal) = (0, 0);
        let status = unsafe {
            let (outer, inners) = (self.outer.handle(), &mut self.handle);
            sys::smap_inners_next(outer, inners, &mut source, &mut refusal)
        };
        if status == sys::SMAP_REFUSED && refusal == 0 {
            return Ok(None);
        }
        done(status, || Refused::new(refusal))?;
        Ok(Some(source))
    }

    pub(crate) fn name(&mut self, source: u32) -> Option<String> {
        let mut text = no_text();
        unsafe {
            let (outer, inners) = (self.outer.handle(), &mut self.handle);
            let status = sys::smap_inners_name(outer, inners, source, &mut text);
            (status == sys::SMAP_DONE).then(|| copied(&text))
        }
    }

    pub(crate) fn composed(&mut self, prune: bool, no_content: bool) -> Result<Bytes, Error> {
        let options = sys::smap_compose_options { prune, no_content };
        let (outer, inners, refusal) = (self.outer.handle(), &mut self.handle, Cell::new(0));
        let call = |bytes| unsafe {
            sys::smap_compose_all(outer, inners, &options, bytes, refusal.as_ptr())
        };
        Bytes::of(call, || Refused::new(refusal.get()))
    }
}

impl Drop for Inners<'_> {
    fn drop(&mut self) {
        unsafe { sys::smap_inners_free(&mut self.handle) }
    }
}
