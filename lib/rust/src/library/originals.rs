//! Indices from original to generated.

use super::{done, Map};
use crate::error::{Error, Refused};
use crate::originals::Generated;
use crate::sys;
use std::ptr;
use std::slice;

/// An index that was made.
pub(crate) struct Originals {
    handle: sys::smap_originals,
}

// Any thread may use a handle, as long as one does at a time: an `Originals` is not `Sync`.
unsafe impl Send for Originals {}

impl Originals {
    pub(crate) fn new(map: &Map) -> Result<Originals, Error> {
        let mut handle = sys::smap_originals {
            at: ptr::null_mut(),
        };
        let status = unsafe { sys::smap_originals_new(map.handle(), &mut handle) };
        done(status, Refused::nothing)?;
        Ok(Originals { handle })
    }

    pub(crate) fn at_or_before(
        &self,
        source: u32,
        line: u32,
        column: u32,
    ) -> impl ExactSizeIterator<Item = Generated> + '_ {
        self.generated(source, line, column, sys::SMAP_AT_OR_BEFORE)
    }

    pub(crate) fn at_or_after(
        &self,
        source: u32,
        line: u32,
        column: u32,
    ) -> impl ExactSizeIterator<Item = Generated> + '_ {
        self.generated(source, line, column, sys::SMAP_AT_OR_AFTER)
    }

    pub(crate) fn on_line(
        &self,
        source: u32,
        line: u32,
    ) -> impl ExactSizeIterator<Item = Generated> + '_ {
        let call = |lent| unsafe { sys::smap_generated_on_line(&self.handle, source, line, lent) };
        self.lent(call).iter().map(generated)
    }

    fn generated(
        &self,
        source: u32,
        line: u32,
        column: u32,
        direction: u32,
    ) -> impl ExactSizeIterator<Item = Generated> + '_ {
        let call = |lent| unsafe {
            sys::smap_generated(&self.handle, source, line, column, direction, lent)
        };
        self.lent(call).iter().map(generated)
    }

    /// The places that a call with the handle lends.
    fn lent(
        &self,
        call: impl FnOnce(*mut sys::smap_generated_places) -> u32,
    ) -> &[sys::smap_generated_place] {
        let nothing = ptr::NonNull::<sys::smap_generated_place>::dangling();
        let mut lent = sys::smap_generated_places {
            places: nothing.as_ptr(),
            count: 0,
        };
        call(&mut lent);
        // The places stay until the index is freed, which this borrow forbids.
        unsafe { slice::from_raw_parts(lent.places, lent.count) }
    }
}

fn generated(place: &sys::smap_generated_place) -> Generated {
    Generated {
        line: place.line,
        column: place.column,
        original_line: place.original_line,
        original_column: place.original_column,
    }
}

impl Drop for Originals {
    fn drop(&mut self) {
        unsafe { sys::smap_originals_free(&mut self.handle) };
    }
}
