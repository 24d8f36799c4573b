//! Texts that are rewritten piece by piece, over a table and a store.

use super::{done, lent, no_text, Store, Table};
use crate::error::{Error, Refused};
use crate::sys;
use std::ptr;

/// Why a rewriting stands where it does.
#[derive(Clone, Copy, Debug, PartialEq, Eq)]
pub(crate) enum Stop {
    /// All is done that can be decided of the bytes that were given.
    Done,
    /// It is not known what map the next URL has.
    Wanted,
}

/// A text that is rewritten piece by piece.
pub(crate) struct Rewriting {
    handle: sys::smap_rewriting,
}

impl Rewriting {
    pub(crate) fn new(options: &sys::smap_rewriting_options) -> Result<Rewriting, Error> {
        let mut handle = sys::smap_rewriting {
            at: ptr::null_mut(),
        };
        let status = unsafe { sys::smap_rewriting_new(options, &mut handle) };
        done(status, Refused::nothing)?;
        Ok(Rewriting { handle })
    }

    /// Gives it the next bytes. They are refused where the text has too many.
    pub(crate) fn give(&mut self, bytes: &[u8]) -> Result<(), Error> {
        let (text, start) = (&mut self.handle, bytes.as_ptr());
        let status = unsafe { sys::smap_rewriting_give(text, start, bytes.len()) };
        done(status, || Refused::new(sys::SMAP_CODE_X3))
    }

    /// Tells it that the text ends.
    pub(crate) fn end(&mut self) -> Result<(), Error> {
        let status = unsafe { sys::smap_rewriting_end(&mut self.handle) };
        done(status, Refused::nothing)
    }

    pub(crate) fn run(
        &mut self,
        table: &mut Table,
        store: &mut Store,
        now: u64,
    ) -> Result<Stop, Error> {
        let mut refusal = sys::smap_rewrite_refusal::default();
        let status = unsafe {
            let (table, store) = (table.handle(), store.handle());
            sys::smap_rewriting_run(&mut self.handle, table, store, now, &mut refusal)
        };
        match status {
            sys::SMAP_DONE => Ok(Stop::Done),
            sys::SMAP_WANTED => Ok(Stop::Wanted),
            sys::SMAP_REFUSED => Err(Refused::text(refusal).into()),
            _ => Err(Error::OutOfMemory),
        }
    }

    /// The URL of which it is not known what map it has.
    pub(crate) fn url(&mut self) -> Vec<u8> {
        let mut url = no_text();
        unsafe {
            sys::smap_rewriting_url(&self.handle, &mut url);
            lent(&url).to_vec()
        }
    }

    /// What came out since the last call of `clear`.
    pub(crate) fn text(&mut self) -> &[u8] {
        let mut text = no_text();
        // What is lent stays until the next call, which wants the value for itself.
        unsafe {
            sys::smap_rewriting_text(&self.handle, &mut text);
            lent(&text)
        }
    }

    pub(crate) fn clear(&mut self) {
        unsafe { sys::smap_rewriting_clear(&mut self.handle) };
    }

    pub(crate) fn counts(&self) -> sys::smap_trace_count {
        let mut counts = sys::smap_trace_count::default();
        unsafe { sys::smap_rewriting_count(&self.handle, &mut counts) };
        counts
    }
}

impl Drop for Rewriting {
    fn drop(&mut self) {
        unsafe { sys::smap_rewriting_free(&mut self.handle) }
    }
}
