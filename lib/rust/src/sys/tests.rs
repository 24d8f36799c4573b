//! The declarations beside `smap.h`: names and types as the header has them, and sizes and offsets
//! as the C compiler has them.
use super::*;
use std::collections::BTreeSet;
use std::mem::{size_of, MaybeUninit};
use std::process::Command;

/// The text between `from` and `to` is left out, each time.
fn without(text: &str, from: &str, to: &str) -> String {
    let mut left = String::new();
    let mut rest = text;
    while let Some((before, after)) = rest.split_once(from) {
        left.push_str(before);
        left.push(' ');
        rest = after.split_once(to).map_or("", |(_, after)| after);
    }
    left + rest
}

/// One blank between words, and none beside what is no word.
fn settled(text: &str) -> String {
    let mut settled = text.split_whitespace().collect::<Vec<_>>().join(" ");
    for sign in ["(", ")", "{", "}", ",", ";", "*"] {
        settled = settled
            .replace(&format!(" {}", sign), sign)
            .replace(&format!("{} ", sign), sign);
    }
    settled.replace(",)", ")").replace(",}", "}")
}

fn rust_type(c: &str, stars: usize) -> String {
    let (constant, name) = match c.strip_prefix("const ") {
        Some(name) => ("*const ", name),
        None => ("*mut ", c),
    };
    let name = match name {
        "uint8_t" => "u8",
        "uint32_t" => "u32",
        "uint64_t" => "u64",
        "int64_t" => "i64",
        "size_t" => "usize",
        "void" => "c_void",
        other => other,
    };
    format!("{}{}", constant.repeat(stars), name)
}

/// `NAME: TYPE` of each name that a declaration in C has, such as `const uint8_t*a,*b`.
fn declared(c: &str) -> Vec<String> {
    let (first, others) = c.split_once(',').unwrap_or((c, ""));
    let at = first.rfind([' ', '*']).unwrap_or(0);
    let of_type = first[..=at].trim_end_matches([' ', '*']);
    let mut names = vec![first[of_type.len()..].trim()];
    names.extend(others.split(',').filter(|name| !name.is_empty()));
    let field = |name: &str| {
        let bare = name.trim_start_matches('*');
        format!("{}: {}", bare, rust_type(of_type, name.len() - bare.len()))
    };
    names.into_iter().map(field).collect()
}

/// The parts of the header, as this crate has to declare them.
fn wanted(header: &str) -> BTreeSet<String> {
    let code = without(&without(header, "/*", "*/"), "#", "\n");
    let code = settled(&code.replace("extern \"C\" {", ""));
    let mut parts: Vec<_> = header.lines().filter_map(constant).collect();
    let mut rest = code.as_str();
    while let Some((before, after)) = rest.split_once(';') {
        if let Some(codes) = before.trim().strip_prefix("enum{") {
            parts.extend(numbered(codes.trim_end_matches('}')));
            rest = after;
        } else if let Some((name, _)) = before.split_once('{') {
            let (fields, after) = rest.split_once('}').expect("a struct ends");
            parts.push(structure(name, &fields[name.len() + 1..]));
            rest = after.split_once(';').expect("a typedef ends").1;
        } else if let Some(alias) = before.trim().strip_prefix("typedef ") {
            let (of, name) = alias.split_once(' ').expect("a type has a name");
            parts.push(format!("pub type {} = {}", name, rust_type(of, 0)));
            rest = after;
        } else {
            parts.push(function(before));
            rest = after;
        }
    }
    parts.iter().map(|part| settled(part)).collect()
}

fn constant(line: &str) -> Option<String> {
    let words: Vec<_> = line.split_whitespace().collect();
    match words[..] {
        ["#define", name, number, ..] if number.parse::<u32>().is_ok() => {
            Some(format!("pub const {}: u32 = {}", name, number))
        }
        _ => None,
    }
}

/// The codes, the first of which has the number 1.
fn numbered(codes: &str) -> Vec<String> {
    let names = codes.split(',').map(|code| code.trim_end_matches(" = 1"));
    let code = |(place, name)| format!("pub const {}: smap_code = {}", name, place + 1);
    names.enumerate().map(code).collect()
}

fn structure(name: &str, fields: &str) -> String {
    let name = name.trim_start_matches("typedef struct ");
    let fields: Vec<_> = fields.split_terminator(';').flat_map(declared).collect();
    format!("pub struct {} {{pub {}}}", name, fields.join(",pub "))
}

fn function(c: &str) -> String {
    let (name, parameters) = c.split_once('(').expect("a call has parameters");
    let (returned, name) = name.split_once(' ').expect("a call returns");
    let parameters = parameters.trim_end_matches(')').split(',');
    let parameters: Vec<_> = parameters.flat_map(declared).collect();
    let returned = match returned {
        "void" => String::new(),
        other => format!(" -> {}", rust_type(other, 0)),
    };
    format!("pub fn {}({}){}", name, parameters.join(","), returned)
}

/// The parts that this crate declares.
fn given(code: &str) -> BTreeSet<String> {
    let code = without(&without(code, "//", "\n"), "#[", "]");
    let (code, _) = code
        .split_once("mod tests;")
        .expect("the tests stand behind");
    let code = settled(&code.replace("extern \"C\" {", "")).replace(";}", ";");
    let parts = code.split_inclusive(&[';', '}'][..]);
    let public = parts.filter(|part| part.starts_with("pub "));
    public
        .map(|part| part.trim_end_matches(';').to_string())
        .collect()
}

/// Whether a constant, a struct or a call begins in this line of the header.
fn begins_part(line: &str) -> bool {
    let is_constant =
        line.starts_with("#define SMAP_") && !line.contains('{') && line != "#define SMAP_H";
    is_constant
        || line.starts_with("typedef ")
        || line.starts_with("uint32_t smap_")
        || line.starts_with("void smap_")
}

#[test]
fn declarations_are_those_of_the_header() {
    let header = std::fs::read_to_string(env!("SMAP_HEADER")).expect("the header is there");
    let (wanted, given) = (wanted(&header), given(include_str!("../sys.rs")));
    let laid_out = include_str!("../sys.rs").matches("#[repr(C)]").count();
    let codes = without(&header, "/*", "*/").matches("SMAP_CODE_").count();
    let parts = codes + header.lines().filter(|line| begins_part(line)).count();
    assert_eq!(wanted.len(), parts, "the header is not understood");
    assert_eq!(laid_out, header.matches("typedef struct").count());
    let missing: Vec<_> = wanted.difference(&given).collect();
    let other: Vec<_> = given.difference(&wanted).collect();
    assert_eq!((missing, other), (vec![], vec![]));
}

/// A line of a struct's name and size, and a line of each of its fields, its offset and its size,
/// as this compiler has them, and the lines of a C program that prints them.
macro_rules! layouts {
    ($($name:ident: $($field:ident)*;)*) => {{
        let mut lines = String::new();
        let mut program = String::new();
        $(
            lines += &format!("{} {}\n", stringify!($name), size_of::<$name>());
            program += concat!("printf(\"", stringify!($name), " %zu\\n\", sizeof(", stringify!($name), "));\n");
            let place = MaybeUninit::<$name>::uninit();
            let base = place.as_ptr();
            $(
                // The pointer is made, and never read.
                let field = unsafe { std::ptr::addr_of!((*base).$field) };
                lines += &format!(
                    "{} {} {}\n",
                    stringify!($field),
                    field as usize - base as usize,
                    size_behind(field),
                );
                program += concat!(
                    "printf(\"", stringify!($field), " %zu %zu\\n\", offsetof(", stringify!($name), ", ",
                    stringify!($field), "), sizeof(((", stringify!($name), " *)0)->", stringify!($field), "));\n"
                );
            )*
        )*
        (lines, program)
    }};
}

fn size_behind<T>(_: *const T) -> usize {
    size_of::<T>()
}

#[test]
fn sizes_and_offsets_are_those_of_the_c_compiler() {
    let (lines, program) = layouts! {
        smap_map: at;
        smap_table: at;
        smap_inners: at;
        smap_originals: at;
        smap_names: at;
        smap_url_finder: at;
        smap_bytes: at;
        smap_store: at;
        smap_rewriting: at;
        smap_text: bytes length;
        smap_refusal: code cause line has_section section byte;
        smap_reason: value least most generated_column has_value has_least has_most has_column;
        smap_found: kind generated_column source line column named name;
        smap_mapping: line column kind source original_line original_column named name;
        smap_encode_refusal: code mapping;
        smap_position: line column;
        smap_generated_place: line column original_line original_column;
        smap_generated_places: places count;
        smap_count: sections sources names segments lines checkpoints;
        smap_fit_count: mappings past inside compared outside same fits;
        smap_source_text: name content named held ignored;
        smap_compose_options: prune no_content;
        smap_table_options: after cut;
        smap_line_bytes: start length cut;
        smap_line_range: first count;
        smap_rewrite_options: hide_ignored anywhere strip_ansi cut;
        smap_trace_count: lines frames mapped hidden;
        smap_rewrite_refusal: code lines;
        smap_store_counts: bytes count none_bytes none_count asked hits dropped own_bytes;
        smap_rewriting_options: hide_ignored anywhere strip_ansi asks most most_output;
        smap_frame_url: start length next;
        smap_place_url: start length next halved;
    };
    let header = std::fs::read_to_string(env!("SMAP_HEADER")).expect("the header is there");
    let structs = header.matches("typedef struct").count();
    assert_eq!(
        lines.matches("smap_").count(),
        structs,
        "a struct is left out"
    );
    let folder = std::env::temp_dir().join(format!("smap-layouts-{}", std::process::id()));
    std::fs::create_dir_all(&folder).expect("a folder");
    let (source, made) = (folder.join("layouts.c"), folder.join("layouts"));
    let main = format!(
        "#include \"{}\"\n#include <stddef.h>\n#include <stdio.h>\nint main(void) {{\n{}return 0;\n}}\n",
        env!("SMAP_HEADER"),
        program
    );
    std::fs::write(&source, main).expect("a file");
    let compiler = std::env::var_os("CC").unwrap_or_else(|| "cc".into());
    let status = Command::new(compiler)
        .arg("-o")
        .arg(&made)
        .arg(&source)
        .status();
    assert!(status.expect("a C compiler").success());
    let printed = Command::new(&made)
        .output()
        .expect("the program runs")
        .stdout;
    std::fs::remove_dir_all(&folder).expect("the folder goes");
    assert_eq!(String::from_utf8_lossy(&printed), lines);
}
