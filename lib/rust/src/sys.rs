//! What `smap.h` declares, in its order: lib/declare has written it.
#![allow(non_camel_case_types, dead_code)]

use std::os::raw::c_void;

pub const SMAP_DONE: u32 = 0;
pub const SMAP_REFUSED: u32 = 1;
pub const SMAP_WANTED: u32 = 2;
pub const SMAP_NO_MEMORY: u32 = 3;

pub const SMAP_AT_OR_BEFORE: u32 = 0;
pub const SMAP_AT_OR_AFTER: u32 = 1;

pub const SMAP_MISSING: u32 = 0;
pub const SMAP_FAILED: u32 = 1;

pub type smap_code = u32;
pub const SMAP_CODE_M1: smap_code = 1;
pub const SMAP_CODE_M2: smap_code = 2;
pub const SMAP_CODE_M3: smap_code = 3;
pub const SMAP_CODE_M4: smap_code = 4;
pub const SMAP_CODE_M5: smap_code = 5;
pub const SMAP_CODE_M6: smap_code = 6;
pub const SMAP_CODE_M7: smap_code = 7;
pub const SMAP_CODE_M8: smap_code = 8;
pub const SMAP_CODE_M9: smap_code = 9;
pub const SMAP_CODE_M10: smap_code = 10;
pub const SMAP_CODE_M11: smap_code = 11;
pub const SMAP_CODE_M12: smap_code = 12;
pub const SMAP_CODE_M13: smap_code = 13;
pub const SMAP_CODE_M14: smap_code = 14;
pub const SMAP_CODE_M15: smap_code = 15;
pub const SMAP_CODE_M16: smap_code = 16;
pub const SMAP_CODE_M17: smap_code = 17;
pub const SMAP_CODE_M18: smap_code = 18;
pub const SMAP_CODE_F1: smap_code = 19;
pub const SMAP_CODE_F2: smap_code = 20;
pub const SMAP_CODE_F3: smap_code = 21;
pub const SMAP_CODE_F4: smap_code = 22;
pub const SMAP_CODE_F5: smap_code = 23;
pub const SMAP_CODE_F6: smap_code = 24;
pub const SMAP_CODE_F7: smap_code = 25;
pub const SMAP_CODE_F8: smap_code = 26;
pub const SMAP_CODE_F9: smap_code = 27;
pub const SMAP_CODE_F10: smap_code = 28;
pub const SMAP_CODE_F11: smap_code = 29;
pub const SMAP_CODE_B1: smap_code = 30;
pub const SMAP_CODE_B2: smap_code = 31;
pub const SMAP_CODE_B3: smap_code = 32;
pub const SMAP_CODE_B4: smap_code = 33;
pub const SMAP_CODE_B5: smap_code = 34;
pub const SMAP_CODE_O1: smap_code = 35;
pub const SMAP_CODE_O2: smap_code = 36;
pub const SMAP_CODE_C1: smap_code = 37;
pub const SMAP_CODE_C2: smap_code = 38;
pub const SMAP_CODE_C3: smap_code = 39;
pub const SMAP_CODE_C4: smap_code = 40;
pub const SMAP_CODE_E1: smap_code = 41;
pub const SMAP_CODE_E2: smap_code = 42;
pub const SMAP_CODE_E3: smap_code = 43;
pub const SMAP_CODE_E4: smap_code = 44;
pub const SMAP_CODE_U1: smap_code = 45;
pub const SMAP_CODE_U2: smap_code = 46;
pub const SMAP_CODE_A1: smap_code = 47;
pub const SMAP_CODE_A2: smap_code = 48;
pub const SMAP_CODE_A3: smap_code = 49;
pub const SMAP_CODE_A4: smap_code = 50;
pub const SMAP_CODE_P1: smap_code = 51;
pub const SMAP_CODE_P2: smap_code = 52;
pub const SMAP_CODE_X1: smap_code = 53;
pub const SMAP_CODE_X2: smap_code = 54;
pub const SMAP_CODE_X3: smap_code = 55;
pub const SMAP_CODE_X4: smap_code = 56;
pub const SMAP_CODE_X5: smap_code = 57;
pub const SMAP_CODE_X6: smap_code = 58;
pub const SMAP_CODE_TEXT_TOO_LONG: smap_code = 59;
pub const SMAP_CODE_NOT_UTF8: smap_code = 60;
pub const SMAP_CODE_DEVICE: smap_code = 61;
pub const SMAP_CODE_MEMORY: smap_code = 62;
pub const SMAP_CODE_USAGE: smap_code = 63;
pub const SMAP_CODE_REFUSED: smap_code = 64;

#[repr(C)]
pub struct smap_map {
    pub at: *mut c_void,
}

#[repr(C)]
pub struct smap_table {
    pub at: *mut c_void,
}

#[repr(C)]
pub struct smap_inners {
    pub at: *mut c_void,
}

#[repr(C)]
pub struct smap_originals {
    pub at: *mut c_void,
}

#[repr(C)]
pub struct smap_names {
    pub at: *mut c_void,
}

#[repr(C)]
pub struct smap_url_finder {
    pub at: *mut c_void,
}

#[repr(C)]
pub struct smap_bytes {
    pub at: *mut c_void,
}

#[repr(C)]
pub struct smap_store {
    pub at: *mut c_void,
}

#[repr(C)]
pub struct smap_rewriting {
    pub at: *mut c_void,
}

#[repr(C)]
pub struct smap_text {
    pub bytes: *const u8,
    pub length: usize,
}

#[repr(C)]
#[derive(Clone, Copy, Debug, Default)]
pub struct smap_refusal {
    pub code: smap_code,
    pub cause: smap_code,
    pub line: u32,
    pub has_section: u32,
    pub section: u64,
    pub byte: u64,
}

#[repr(C)]
#[derive(Clone, Copy, Debug, Default)]
pub struct smap_reason {
    pub value: i64,
    pub least: i64,
    pub most: i64,
    pub generated_column: u64,
    pub has_value: u32,
    pub has_least: u32,
    pub has_most: u32,
    pub has_column: u32,
}

#[repr(C)]
#[derive(Clone, Copy, Debug, Default)]
pub struct smap_found {
    pub kind: u32,
    pub generated_column: u32,
    pub source: u32,
    pub line: u32,
    pub column: u32,
    pub named: u32,
    pub name: u32,
}

#[repr(C)]
#[derive(Clone, Copy, Debug, Default)]
pub struct smap_mapping {
    pub line: u32,
    pub column: u32,
    pub kind: u32,
    pub source: u32,
    pub original_line: u32,
    pub original_column: u32,
    pub named: u32,
    pub name: u32,
}

#[repr(C)]
#[derive(Clone, Copy, Debug, Default)]
pub struct smap_encode_refusal {
    pub code: smap_code,
    pub mapping: u64,
}

#[repr(C)]
#[derive(Clone, Copy, Debug, Default)]
pub struct smap_position {
    pub line: u32,
    pub column: u32,
}

#[repr(C)]
#[derive(Clone, Copy, Debug, Default)]
pub struct smap_generated_place {
    pub line: u32,
    pub column: u32,
    pub original_line: u32,
    pub original_column: u32,
}

#[repr(C)]
pub struct smap_generated_places {
    pub places: *const smap_generated_place,
    pub count: usize,
}

#[repr(C)]
#[derive(Clone, Copy, Debug, Default)]
pub struct smap_count {
    pub sections: u64,
    pub sources: u64,
    pub names: u64,
    pub segments: u64,
    pub lines: u64,
    pub checkpoints: u64,
}

#[repr(C)]
#[derive(Clone, Copy, Debug, Default)]
pub struct smap_fit_count {
    pub mappings: u64,
    pub past: u64,
    pub inside: u64,
    pub compared: u64,
    pub outside: u64,
    pub same: u64,
    pub fits: u32,
}

#[repr(C)]
pub struct smap_source_text {
    pub name: smap_text,
    pub content: smap_text,
    pub named: u32,
    pub held: u32,
    pub ignored: u32,
}

#[repr(C)]
#[derive(Clone, Copy, Debug, Default)]
pub struct smap_compose_options {
    pub prune: bool,
    pub no_content: bool,
}

#[repr(C)]
#[derive(Clone, Copy, Debug, Default)]
pub struct smap_table_options {
    pub after: bool,
    pub cut: bool,
}

#[repr(C)]
#[derive(Clone, Copy, Debug, Default)]
pub struct smap_line_bytes {
    pub start: usize,
    pub length: usize,
    pub cut: u32,
}

#[repr(C)]
#[derive(Clone, Copy, Debug, Default)]
pub struct smap_line_range {
    pub first: u32,
    pub count: usize,
}

#[repr(C)]
#[derive(Clone, Copy, Debug, Default)]
pub struct smap_rewrite_options {
    pub hide_ignored: bool,
    pub anywhere: bool,
    pub strip_ansi: bool,
    pub cut: bool,
}

#[repr(C)]
#[derive(Clone, Copy, Debug, Default)]
pub struct smap_trace_count {
    pub lines: u64,
    pub frames: u64,
    pub mapped: u64,
    pub hidden: u64,
}

#[repr(C)]
#[derive(Clone, Copy, Debug, Default)]
pub struct smap_rewrite_refusal {
    pub code: smap_code,
    pub lines: u64,
}

#[repr(C)]
#[derive(Clone, Copy, Debug, Default)]
pub struct smap_store_counts {
    pub bytes: u64,
    pub count: u64,
    pub none_bytes: u64,
    pub none_count: u64,
    pub asked: u64,
    pub hits: u64,
    pub dropped: u64,
    pub own_bytes: u64,
}

#[repr(C)]
#[derive(Clone, Copy, Debug, Default)]
pub struct smap_rewriting_options {
    pub hide_ignored: bool,
    pub anywhere: bool,
    pub strip_ansi: bool,
    pub asks: bool,
    pub most: u64,
    pub most_output: u64,
}

#[repr(C)]
#[derive(Clone, Copy, Debug, Default)]
pub struct smap_frame_url {
    pub start: usize,
    pub length: usize,
    pub next: usize,
}

#[repr(C)]
#[derive(Clone, Copy, Debug, Default)]
pub struct smap_place_url {
    pub start: usize,
    pub length: usize,
    pub next: usize,
    pub halved: u32,
}

extern "C" {
    pub fn smap_map_read(
        bytes: *const u8,
        length: usize,
        base: *const u8,
        base_length: usize,
        interval: u32,
        map: *mut smap_map,
        refusal: *mut smap_refusal,
    ) -> u32;
    pub fn smap_map_read_within(
        bytes: *const u8,
        length: usize,
        base: *const u8,
        base_length: usize,
        interval: u32,
        most_names: u64,
        map: *mut smap_map,
        refusal: *mut smap_refusal,
    ) -> u32;
    pub fn smap_map_read_with_id(
        bytes: *const u8,
        length: usize,
        base: *const u8,
        base_length: usize,
        interval: u32,
        most_names: u64,
        map: *mut smap_map,
        id: *mut smap_bytes,
        has_id: *mut u32,
        refusal: *mut smap_refusal,
    ) -> u32;
    pub fn smap_map_use_paths(map: *mut smap_map, url: *const u8, length: usize) -> u32;
    pub fn smap_is_path(url: *const u8, length: usize) -> u32;
    pub fn smap_map_stand_at(
        map: *mut smap_map,
        path: *const u8,
        length: usize,
        most_names: u64,
        refusal: *mut smap_refusal,
    ) -> u32;
    pub fn smap_map_share(map: *mut smap_map, other: *mut smap_map) -> u32;
    pub fn smap_map_free(map: *mut smap_map);
    pub fn smap_code_text(code: smap_code, text: *mut smap_text) -> u32;
    pub fn smap_refusal_explain(
        bytes: *const u8,
        length: usize,
        refusal: *const smap_refusal,
        reason: *mut smap_reason,
        text: *mut smap_bytes,
    ) -> u32;
    pub fn smap_look_up(
        map: *const smap_map,
        line: u32,
        column: u32,
        found: *mut smap_found,
    ) -> u32;
    pub fn smap_look_up_from(
        map: *const smap_map,
        line: u32,
        column: u32,
        found: *mut smap_found,
    ) -> u32;
    pub fn smap_look_up_many(
        map: *const smap_map,
        positions: *const smap_position,
        count: usize,
        found: *mut smap_found,
        places: usize,
    ) -> u32;
    pub fn smap_next_column(map: *const smap_map, line: u32, column: u32, next: *mut u32) -> u32;
    pub fn smap_originals_new(map: *const smap_map, originals: *mut smap_originals) -> u32;
    pub fn smap_generated(
        originals: *const smap_originals,
        source: u32,
        line: u32,
        column: u32,
        direction: u32,
        places: *mut smap_generated_places,
    ) -> u32;
    pub fn smap_generated_on_line(
        originals: *const smap_originals,
        source: u32,
        line: u32,
        places: *mut smap_generated_places,
    ) -> u32;
    pub fn smap_originals_free(originals: *mut smap_originals);
    pub fn smap_names_new(
        map: *mut smap_map,
        generated: *const u8,
        length: usize,
        names: *mut smap_names,
        refusal: *mut smap_code,
    ) -> u32;
    pub fn smap_name_of(
        names: *const smap_names,
        function: *const u8,
        length: usize,
        line: u32,
        column: u32,
        name: *mut smap_text,
    ) -> u32;
    pub fn smap_names_share(names: *mut smap_names, other: *mut smap_names) -> u32;
    pub fn smap_names_size(names: *const smap_names, size: *mut u64) -> u32;
    pub fn smap_names_free(names: *mut smap_names);
    pub fn smap_map_mappings(map: *mut smap_map, bytes: *mut smap_bytes) -> u32;
    pub fn smap_encode(
        mappings: *const smap_mapping,
        count: usize,
        bytes: *mut smap_bytes,
        refusal: *mut smap_encode_refusal,
    ) -> u32;
    pub fn smap_bytes_by_source(
        map: *mut smap_map,
        generated: *const u8,
        length: usize,
        sources: *mut u64,
        places: usize,
        unmapped: *mut u64,
        refusal: *mut smap_code,
    ) -> u32;
    pub fn smap_fit(
        map: *mut smap_map,
        generated: *const u8,
        length: usize,
        counts: *mut smap_fit_count,
        refusal: *mut smap_code,
    ) -> u32;
    pub fn smap_counts(map: *const smap_map, counts: *mut smap_count) -> u32;
    pub fn smap_map_size(map: *const smap_map, size: *mut u64) -> u32;
    pub fn smap_source(map: *const smap_map, index: u32, source: *mut smap_source_text) -> u32;
    pub fn smap_name(map: *const smap_map, index: u32, name: *mut smap_text) -> u32;
    pub fn smap_file(map: *const smap_map, file: *mut smap_text) -> u32;
    pub fn smap_source_lines(
        map: *const smap_map,
        source: u32,
        line: u32,
        before: u32,
        after: u32,
        lines: *mut smap_line_bytes,
        places: usize,
        range: *mut smap_line_range,
    ) -> u32;
    pub fn smap_map_write(map: *mut smap_map, bytes: *mut smap_bytes) -> u32;
    pub fn smap_bytes_put_debug_id(bytes: *mut smap_bytes, id: *const u8, length: usize) -> u32;
    pub fn smap_compose(
        outer: *mut smap_map,
        source: u32,
        inner: *mut smap_map,
        bytes: *mut smap_bytes,
        refusal: *mut smap_code,
    ) -> u32;
    pub fn smap_inners_new(outer: *mut smap_map, inners: *mut smap_inners) -> u32;
    pub fn smap_inners_put(inners: *mut smap_inners, source: u32, map: *mut smap_map) -> u32;
    pub fn smap_inners_take(inners: *mut smap_inners, source: u32, map: *mut smap_map) -> u32;
    pub fn smap_inners_next(
        outer: *mut smap_map,
        inners: *mut smap_inners,
        source: *mut u32,
        refusal: *mut smap_code,
    ) -> u32;
    pub fn smap_inners_name(
        outer: *mut smap_map,
        inners: *mut smap_inners,
        source: u32,
        name: *mut smap_text,
    ) -> u32;
    pub fn smap_compose_all(
        outer: *mut smap_map,
        inners: *mut smap_inners,
        options: *const smap_compose_options,
        bytes: *mut smap_bytes,
        refusal: *mut smap_code,
    ) -> u32;
    pub fn smap_inners_free(inners: *mut smap_inners);
    pub fn smap_bytes_text(bytes: *mut smap_bytes, text: *mut smap_text) -> u32;
    pub fn smap_bytes_free(bytes: *mut smap_bytes);
    pub fn smap_version(version: *mut smap_text) -> u32;
    pub fn smap_table_new(table: *mut smap_table) -> u32;
    pub fn smap_table_add(
        table: *mut smap_table,
        url: *const u8,
        url_length: usize,
        map: *mut smap_map,
        refusal: *mut smap_code,
    ) -> u32;
    pub fn smap_table_add_shared(
        table: *mut smap_table,
        url: *const u8,
        url_length: usize,
        map: *mut smap_map,
        refusal: *mut smap_code,
    ) -> u32;
    pub fn smap_table_add_names(
        table: *mut smap_table,
        url: *const u8,
        url_length: usize,
        names: *mut smap_names,
    ) -> u32;
    pub fn smap_table_look_up(
        table: *const smap_table,
        url: *const u8,
        url_length: usize,
        line: u32,
        column: u32,
        options: *const smap_table_options,
        found: *mut smap_found,
        source: *mut smap_source_text,
        name: *mut smap_text,
    ) -> u32;
    pub fn smap_cut_url(url: *const u8, length: usize, cut: *mut smap_text) -> u32;
    pub fn smap_table_free(table: *mut smap_table);
    pub fn smap_rewrite(
        table: *mut smap_table,
        trace: *const u8,
        length: usize,
        hide_ignored: bool,
        bytes: *mut smap_bytes,
        counts: *mut smap_trace_count,
    ) -> u32;
    pub fn smap_rewrite_anywhere(
        table: *mut smap_table,
        text: *const u8,
        length: usize,
        bytes: *mut smap_bytes,
        counts: *mut smap_trace_count,
    ) -> u32;
    pub fn smap_rewrite_with(
        table: *mut smap_table,
        text: *const u8,
        length: usize,
        options: *const smap_rewrite_options,
        bytes: *mut smap_bytes,
        counts: *mut smap_trace_count,
    ) -> u32;
    pub fn smap_rewrite_within(
        table: *mut smap_table,
        text: *const u8,
        length: usize,
        options: *const smap_rewrite_options,
        most: u64,
        bytes: *mut smap_bytes,
        counts: *mut smap_trace_count,
        refusal: *mut smap_rewrite_refusal,
    ) -> u32;
    pub fn smap_next_frame_url(
        trace: *const u8,
        length: usize,
        from: usize,
        found: *mut smap_frame_url,
    ) -> u32;
    pub fn smap_url_finder_new(finder: *mut smap_url_finder) -> u32;
    pub fn smap_next_place_url(
        finder: *mut smap_url_finder,
        text: *const u8,
        length: usize,
        from: usize,
        found: *mut smap_place_url,
    ) -> u32;
    pub fn smap_url_finder_free(finder: *mut smap_url_finder);
    pub fn smap_store_new(most: u64, store: *mut smap_store) -> u32;
    pub fn smap_store_put(
        store: *mut smap_store,
        url: *const u8,
        url_length: usize,
        map: *mut smap_map,
        bytes: u64,
    ) -> u32;
    pub fn smap_store_put_named(
        store: *mut smap_store,
        url: *const u8,
        url_length: usize,
        names: *mut smap_names,
        bytes: u64,
    ) -> u32;
    pub fn smap_store_names(
        store: *mut smap_store,
        url: *const u8,
        url_length: usize,
        now: u64,
        names: *mut smap_names,
    ) -> u32;
    pub fn smap_store_put_none(
        store: *mut smap_store,
        url: *const u8,
        url_length: usize,
        why: u32,
        has_until: bool,
        until: u64,
    ) -> u32;
    pub fn smap_store_forget(store: *mut smap_store, url: *const u8, url_length: usize) -> u32;
    pub fn smap_store_forget_none(store: *mut smap_store) -> u32;
    pub fn smap_store_count(store: *mut smap_store, counts: *mut smap_store_counts) -> u32;
    pub fn smap_store_key(
        store: *mut smap_store,
        url: *const u8,
        url_length: usize,
        key: *mut smap_text,
    ) -> u32;
    pub fn smap_store_ask(
        store: *mut smap_store,
        url: *const u8,
        url_length: usize,
        now: u64,
        why: *mut u32,
    ) -> u32;
    pub fn smap_store_look_up(
        store: *mut smap_store,
        url: *const u8,
        url_length: usize,
        now: u64,
        line: u32,
        column: u32,
        after: bool,
        found: *mut smap_found,
        source: *mut smap_source_text,
        name: *mut smap_text,
        why: *mut u32,
    ) -> u32;
    pub fn smap_store_map(
        store: *mut smap_store,
        url: *const u8,
        url_length: usize,
        now: u64,
        map: *mut smap_map,
        why: *mut u32,
    ) -> u32;
    pub fn smap_store_free(store: *mut smap_store);
    pub fn smap_is_location(url: *const u8, length: usize) -> u32;
    pub fn smap_folder_path(
        prefix: *const u8,
        prefix_length: usize,
        folder: *const u8,
        folder_length: usize,
        url: *const u8,
        url_length: usize,
        path: *mut smap_bytes,
    ) -> u32;
    pub fn smap_rewriting_new(
        options: *const smap_rewriting_options,
        rewriting: *mut smap_rewriting,
    ) -> u32;
    pub fn smap_rewriting_give(
        rewriting: *mut smap_rewriting,
        bytes: *const u8,
        length: usize,
    ) -> u32;
    pub fn smap_rewriting_end(rewriting: *mut smap_rewriting) -> u32;
    pub fn smap_rewriting_run(
        rewriting: *mut smap_rewriting,
        table: *mut smap_table,
        store: *mut smap_store,
        now: u64,
        refusal: *mut smap_rewrite_refusal,
    ) -> u32;
    pub fn smap_rewriting_allow(rewriting: *mut smap_rewriting, most_output: u64) -> u32;
    pub fn smap_rewriting_url(rewriting: *const smap_rewriting, url: *mut smap_text) -> u32;
    pub fn smap_rewriting_text(rewriting: *const smap_rewriting, text: *mut smap_text) -> u32;
    pub fn smap_rewriting_clear(rewriting: *mut smap_rewriting) -> u32;
    pub fn smap_rewriting_count(
        rewriting: *const smap_rewriting,
        counts: *mut smap_trace_count,
    ) -> u32;
    pub fn smap_rewriting_free(rewriting: *mut smap_rewriting);
}

#[cfg(test)]
mod tests;
