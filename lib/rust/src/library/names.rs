//! Names of functions.

use super::{copied, done, no_text, Map};
use crate::error::{Error, Refused};
use crate::sys;
use std::ptr;

/// What a generated file declares, with the names of its map.
pub(crate) struct Names {
    handle: sys::smap_names,
}

// Any thread may use a handle, as long as one does at a time: a `Names` is not `Sync`.
unsafe impl Send for Names {}

impl Names {
    pub(crate) fn new(map: &Map, generated: &[u8]) -> Result<Names, Error> {
        let mut handle = sys::smap_names {
            at: ptr::null_mut(),
        };
        let mut refusal = 0;
        let status = unsafe {
            let (bytes, length) = (generated.as_ptr(), generated.len());
            sys::smap_names_new(map.handle(), bytes, length, &mut handle, &mut refusal)
        };
        done(status, || Refused::new(refusal))?;
        Ok(Names { handle })
    }

    /// What was handed out by another call.
    pub(super) fn full(handle: sys::smap_names) -> Names {
        Names { handle }
    }

    /// For calls that change nothing of what it holds.
    pub(super) fn handle(&self) -> *mut sys::smap_names {
        &self.handle as *const sys::smap_names as *mut sys::smap_names
    }

    /// For how many bytes of memory they count.
    pub(crate) fn size(&self) -> u64 {
        let mut bytes = 0;
        unsafe { sys::smap_names_size(self.handle(), &mut bytes) };
        bytes
    }

    /// The name of a function that is called so in a frame at this place.
    pub(crate) fn name_of(&self, function: &str, line: u32, column: u32) -> Option<String> {
        let mut name = no_text();
        unsafe {
            let (bytes, length) = (function.as_ptr(), function.len());
            let status = sys::smap_name_of(&self.handle, bytes, length, line, column, &mut name);
            (status == sys::SMAP_DONE).then(|| copied(&name))
        }
    }
}

impl Drop for Names {
    fn drop(&mut self) {
        unsafe { sys::smap_names_free(&mut self.handle) };
    }
}
