//! Maps.

use super::{copied, done, no_source, no_text, Bytes, NOTHING};
use crate::error::{Error, Refused};
use crate::sys;
use std::cell::{Cell, UnsafeCell};
use std::mem::ManuallyDrop;
use std::ptr;

/// How a map is read.
#[derive(Clone, Copy, Debug)]
pub(crate) struct Reading {
    /// How many segments stand between the checkpoints of the index.
    pub interval: u32,
    /// Of how many bytes the names of all sources may be made together.
    pub most_names: u64,
    /// Whether the sources of one whose URL is an absolute path are named by that.
    pub by_paths: bool,
}

impl Reading {
    pub(crate) const USUAL: Reading = Reading {
        interval: 64,
        most_names: 268_435_456,
        by_paths: false,
    };
}

const NO_URL: sys::smap_refusal = sys::smap_refusal {
    code: sys::SMAP_CODE_USAGE,
    cause: 0,
    line: 0,
    has_section: 0,
    section: 0,
    byte: 0,
};

/// A map that was read.
pub(crate) struct Map {
    handle: UnsafeCell<sys::smap_map>,
    /// What the map has beside what the handle holds.
    debug_id: Option<String>,
}

// Any thread may use a handle, as long as one does at a time: a `Map` is not `Sync`.
unsafe impl Send for Map {}

/// A source of a map.
pub(crate) struct Source {
    pub name: Option<String>,
    pub is_ignored: bool,
}

impl Map {
    pub(crate) fn read(bytes: &[u8], base: Option<&str>, how: Reading) -> Result<Map, Error> {
        let (base_bytes, base_length) = match base {
            // To the library that would be none.
            Some("") => return Err(Refused::map(NO_URL, base).into()),
            Some(base) => (base.as_ptr(), base.len()),
            None => (&NOTHING as *const u8, 0),
        };
        let mut handle = sys::smap_map {
            at: ptr::null_mut(),
        };
        let mut id = sys::smap_bytes {
            at: ptr::null_mut(),
        };
        let (mut has_id, mut refusal) = (0, sys::smap_refusal::default());
        let status = unsafe {
            let (bytes, length) = (bytes.as_ptr(), bytes.len());
            let (interval, most) = (how.interval, how.most_names);
            let (map, why) = (&mut handle, &mut refusal);
            sys::smap_map_read_with_id(
                bytes,
                length,
                base_bytes,
                base_length,
                interval,
                most,
                map,
                &mut id,
                &mut has_id,
                why,
            )
        };
        done(status, || Refused::map(refusal, base))?;
        let mut map = Map::full(handle);
        map.debug_id = (has_id == 1).then(|| Bytes::full(id).to_text());
        Ok(map)
    }

    /// Names the sources by the path at which the generated file stands.
    pub(crate) fn use_paths(&mut self, path: &str) -> Result<(), Error> {
        let (bytes, length) = (path.as_ptr(), path.len());
        let status = unsafe { sys::smap_map_use_paths(self.handle(), bytes, length) };
        done(status, Refused::nothing)
    }

    /// Names the sources by the path at which the map stands.
    pub(crate) fn stand_at(&mut self, path: &str, most_names: u64) -> Result<(), Error> {
        let mut refusal = sys::smap_refusal::default();
        let status = unsafe {
            let (bytes, length) = (path.as_ptr(), path.len());
            sys::smap_map_stand_at(self.handle(), bytes, length, most_names, &mut refusal)
        };
        done(status, || Refused::map(refusal, None))
    }

    pub(super) fn full(handle: sys::smap_map) -> Map {
        Map {
            handle: UnsafeCell::new(handle),
            debug_id: None,
        }
    }

    pub(crate) fn debug_id(&self) -> Option<&str> {
        self.debug_id.as_deref()
    }

    pub(super) fn handle(&self) -> *mut sys::smap_map {
        self.handle.get()
    }

    /// The handle for a call that takes it over.
    pub(super) fn into_handle(self) -> sys::smap_map {
        let mut map = ManuallyDrop::new(self);
        map.debug_id = None;
        // The value is gone, so this is the only one that has the handle.
        unsafe { ptr::read(map.handle.get()) }
    }

    pub(crate) fn look_up(&self, line: u32, column: u32) -> sys::smap_found {
        let mut found = sys::smap_found::default();
        unsafe { sys::smap_look_up(self.handle(), line, column, &mut found) };
        found
    }

    pub(crate) fn look_up_from(&self, line: u32, column: u32) -> sys::smap_found {
        let mut found = sys::smap_found::default();
        unsafe { sys::smap_look_up_from(self.handle(), line, column, &mut found) };
        found
    }

    /// Where what answers at this place ends, if it does not hold to the line's end.
    pub(crate) fn next_column(&self, line: u32, column: u32) -> Option<u32> {
        let mut next = 0;
        let status = unsafe { sys::smap_next_column(self.handle(), line, column, &mut next) };
        (status == sys::SMAP_DONE).then_some(next)
    }

    /// Lines of the content of a source around one of them, and the number of the first of them.
    pub(crate) fn lines(
        &self,
        source: u32,
        line: u32,
        before: u16,
        after: u16,
    ) -> Option<(u32, Vec<String>)> {
        let content = self.content(source)?;
        let places = usize::from(before) + 1 + usize::from(after);
        let mut lines = vec![sys::smap_line_bytes::default(); places];
        let mut range = sys::smap_line_range::default();
        let status = unsafe {
            let (rows, found) = (lines.as_mut_ptr(), &mut range);
            let (before, after) = (before.into(), after.into());
            sys::smap_source_lines(
                self.handle(),
                source,
                line,
                before,
                after,
                rows,
                places,
                found,
            )
        };
        let text_of = |of: &sys::smap_line_bytes| {
            let bytes = content.as_bytes().get(of.start..)?.get(..of.length)?;
            Some(String::from_utf8_lossy(bytes).into_owned())
        };
        let texts = lines.iter().take(range.count).map(text_of);
        (status == sys::SMAP_DONE)
            .then(|| texts.collect())
            .flatten()
            .map(|texts| (range.first, texts))
    }

    /// For how many bytes of memory the map counts.
    pub(crate) fn size(&self) -> u64 {
        let mut bytes = 0;
        unsafe { sys::smap_map_size(self.handle(), &mut bytes) };
        bytes
    }

    pub(crate) fn counts(&self) -> sys::smap_count {
        let mut counts = sys::smap_count::default();
        unsafe { sys::smap_counts(self.handle(), &mut counts) };
        counts
    }

    pub(crate) fn source(&self, index: u32) -> Option<Source> {
        let source = self.lent_source(index)?;
        Some(Source {
            name: (source.named != 0).then(|| unsafe { copied(&source.name) }),
            is_ignored: source.ignored != 0,
        })
    }

    pub(crate) fn content(&self, index: u32) -> Option<String> {
        let source = self.lent_source(index)?;
        (source.held != 0).then(|| unsafe { copied(&source.content) })
    }

    /// A source, whose texts stay until the next call.
    fn lent_source(&self, index: u32) -> Option<sys::smap_source_text> {
        let mut source = no_source();
        let status = unsafe { sys::smap_source(self.handle(), index, &mut source) };
        (status == sys::SMAP_DONE).then_some(source)
    }

    pub(crate) fn name(&self, index: u32) -> Option<String> {
        let mut text = no_text();
        unsafe {
            let status = sys::smap_name(self.handle(), index, &mut text);
            (status == sys::SMAP_DONE).then(|| copied(&text))
        }
    }

    pub(crate) fn file(&self) -> Option<String> {
        let mut text = no_text();
        unsafe {
            let status = sys::smap_file(self.handle(), &mut text);
            (status == sys::SMAP_DONE).then(|| copied(&text))
        }
    }

    /// All mappings, each as the bytes of a `smap_mapping`.
    pub(crate) fn mappings(&self) -> Result<Bytes, Error> {
        let call = |bytes| unsafe { sys::smap_map_mappings(self.handle(), bytes) };
        Bytes::of(call, Refused::nothing)
    }

    pub(crate) fn written(&self) -> Result<Bytes, Error> {
        let call = |bytes| unsafe { sys::smap_map_write(self.handle(), bytes) };
        Bytes::of(call, || Refused::new(sys::SMAP_CODE_O1))
    }

    /// How many bytes of the generated file each source makes, and how many none does.
    pub(crate) fn bytes_by_source(&self, generated: &[u8]) -> Result<(Vec<u64>, u64), Error> {
        let mut sources = vec![0; self.counts().sources as usize];
        let (mut unmapped, mut refusal) = (0, 0);
        let status = unsafe {
            let (bytes, length) = (generated.as_ptr(), generated.len());
            let (numbers, places) = (sources.as_mut_ptr(), sources.len());
            let (rest, why) = (&mut unmapped, &mut refusal);
            sys::smap_bytes_by_source(self.handle(), bytes, length, numbers, places, rest, why)
        };
        done(status, || Refused::new(refusal))?;
        Ok((sources, unmapped))
    }

    /// How the map fits the generated file.
    pub(crate) fn fit(&self, generated: &[u8]) -> Result<sys::smap_fit_count, Error> {
        let mut counts = sys::smap_fit_count::default();
        let mut refusal = 0;
        let status = unsafe {
            let (bytes, length) = (generated.as_ptr(), generated.len());
            sys::smap_fit(self.handle(), bytes, length, &mut counts, &mut refusal)
        };
        done(status, || Refused::new(refusal))?;
        Ok(counts)
    }

    /// What this map and that of one of its sources come to.
    pub(crate) fn composed(&self, source: u32, inner: &Map) -> Result<Bytes, Error> {
        if ptr::eq(self, inner) {
            // No call takes one handle twice.
            return self.composed(source, &self.shared()?);
        }
        let (outer, inner, refusal) = (self.handle(), inner.handle(), Cell::new(0));
        let call =
            |bytes| unsafe { sys::smap_compose(outer, source, inner, bytes, refusal.as_ptr()) };
        Bytes::of(call, || Refused::new(refusal.get()))
    }

    /// A handle of its own of the same map, which another thread may have.
    pub(crate) fn shared(&self) -> Result<Map, Error> {
        let mut handle = sys::smap_map {
            at: ptr::null_mut(),
        };
        let status = unsafe { sys::smap_map_share(self.handle(), &mut handle) };
        done(status, Refused::nothing)?;
        let mut map = Map::full(handle);
        map.debug_id = self.debug_id.clone();
        Ok(map)
    }
}

impl Drop for Map {
    fn drop(&mut self) {
        unsafe { sys::smap_map_free(self.handle.get_mut()) }
    }
}

/// The text of these mappings.
pub(crate) fn encoded(mappings: &[sys::smap_mapping]) -> Result<String, Error> {
    let refusal = Cell::new(sys::smap_encode_refusal::default());
    let call = |bytes| unsafe {
        // A pointer to none is not null either.
        sys::smap_encode(mappings.as_ptr(), mappings.len(), bytes, refusal.as_ptr())
    };
    Ok(Bytes::of(call, || Refused::new(refusal.get().code))?.to_text())
}
