//! Bytes that the library hands out.

use super::{done, lent, no_text};
use crate::error::{Error, Refused};
use crate::sys;
use std::ops::Deref;
use std::ptr;

/// Bytes that were handed out. They are freed with this.
pub(crate) struct Bytes {
    handle: sys::smap_bytes,
    text: sys::smap_text,
}

// Any thread may read the bytes, and free them.
unsafe impl Send for Bytes {}

impl Bytes {
    /// What a call hands out. Where it refuses, the other one says why.
    pub(super) fn of<W: Into<Error>>(
        call: impl FnOnce(*mut sys::smap_bytes) -> u32,
        why: impl FnOnce() -> W,
    ) -> Result<Bytes, Error> {
        let mut handle = sys::smap_bytes {
            at: ptr::null_mut(),
        };
        done(call(&mut handle), why)?;
        Ok(Bytes::full(handle))
    }

    pub(super) fn full(mut handle: sys::smap_bytes) -> Bytes {
        let mut text = no_text();
        // The next call with the handle is the one that frees it, or that lends the text anew.
        unsafe { sys::smap_bytes_text(&mut handle, &mut text) };
        Bytes { handle, text }
    }

    /// The text of a map with this debug id.
    pub(crate) fn with_debug_id(mut self, id: &str) -> Result<Bytes, Error> {
        let status =
            unsafe { sys::smap_bytes_put_debug_id(&mut self.handle, id.as_ptr(), id.len()) };
        done(status, Refused::nothing)?;
        unsafe { sys::smap_bytes_text(&mut self.handle, &mut self.text) };
        Ok(self)
    }

    /// The mappings that these bytes are.
    pub(crate) fn as_mappings(&self) -> &[sys::smap_mapping] {
        // Any bytes are numbers, and the library has them where numbers may stand.
        unsafe { self.align_to().1 }
    }

    pub(super) fn to_text(&self) -> String {
        String::from_utf8_lossy(self).into_owned()
    }
}

impl Deref for Bytes {
    type Target = [u8];

    fn deref(&self) -> &[u8] {
        unsafe { lent(&self.text) }
    }
}

impl Drop for Bytes {
    fn drop(&mut self) {
        unsafe { sys::smap_bytes_free(&mut self.handle) }
    }
}
