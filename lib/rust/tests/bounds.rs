//! How much a map and a rewritten text may come to. What is expected was worked out by hand.
use smap::{ComposeOptions, Error, ReadOptions, Refused, SourceMap, Table};
use std::io::{self, Read, Write};

const MAP: &str =
    r#"{"version":3,"sources":["long/name.ts","b.ts"],"ignoreList":[1],"mappings":"AAEA;ACFA"}"#;

fn table() -> Table {
    let mut table = Table::new().expect("a table");
    let map = SourceMap::from_slice(MAP.as_bytes()).expect("a map");
    table.insert("a.js", map).expect("a place");
    table
}

fn refused<T>(result: Result<T, Error>) -> Refused {
    match result {
        Err(Error::Refused(refused)) => refused,
        Err(other) => panic!("{}", other),
        Ok(_) => panic!("it is not refused"),
    }
}

/// Gives a text in pieces of at most so many bytes.
struct Pieces<'a>(&'a [u8], usize);

impl Read for Pieces<'_> {
    fn read(&mut self, to: &mut [u8]) -> io::Result<usize> {
        let count = self.1.min(self.0.len()).min(to.len());
        let (piece, rest) = self.0.split_at(count);
        to[..count].copy_from_slice(piece);
        self.0 = rest;
        Ok(count)
    }
}

/// What is written of a text in these pieces where at most so many bytes may be, and how many lines that
/// are where it is refused.
fn written(
    table: &mut Table,
    text: &str,
    most: usize,
    piece: usize,
    anywhere: bool,
) -> (String, Option<u64>) {
    table.set_max_output(most as u64);
    let (mut to, from) = (Vec::new(), Pieces(text.as_bytes(), piece));
    let result = if anywhere {
        table.rewrite_anywhere(from, &mut to)
    } else {
        table.rewrite(from, &mut to)
    };
    let lines = result.err().map(|error| {
        assert_eq!(error.to_string(), "X5 LongOutput");
        assert_eq!(error.code(), Some("X5"));
        refused(Err::<(), _>(error))
            .lines()
            .expect("a number of lines")
    });
    (String::from_utf8(to).expect("a text"), lines)
}

/// The longest lines of what a text comes to that have together at most so many bytes, and their number,
/// where these are not all.
fn wanted(made: &str, most: usize) -> (String, Option<u64>) {
    if made.len() <= most {
        return (made.to_string(), None);
    }
    let ends = made.match_indices('\n').map(|(at, _)| at + 1);
    let ends: Vec<_> = ends.filter(|end| *end <= most).collect();
    let end = ends.last().copied().unwrap_or(0);
    (made[..end].to_string(), Some(ends.len() as u64))
}

#[test]
fn the_lines_that_fit_are_written() {
    let trace = "Error\n  at f (a.js:1:2)\ng@a.js:2:1\r\n\nh@a.js:1:9\nend";
    let made = "Error\n  at f (long/name.ts:3:1)\ng@b.ts:1:1\r\n\nh@long/name.ts:3:1\nend";
    for most in 0..=made.len() {
        for piece in [1, 7, 20, usize::MAX] {
            for anywhere in [false, true] {
                let got = written(&mut table(), trace, most, piece, anywhere);
                assert_eq!(
                    got,
                    wanted(made, most),
                    "{} bytes, pieces of {}, {}",
                    most,
                    piece,
                    anywhere
                );
            }
        }
    }
}

#[test]
fn lines_that_are_left_out_take_no_bytes() {
    let mut table = table();
    table.set_max_output(4);
    let mut to = Vec::new();
    let trace = "g@a.js:2:1\ng@a.js:2:1\nend\ng@a.js:2:1\nlast\n";
    let why = refused(table.rewrite_visible(trace.as_bytes(), &mut to));
    assert_eq!((&to[..], why.lines()), (&b"end\n"[..], Some(1)));
}

#[test]
fn the_bound_is_that_of_one_call() {
    let mut table = table();
    for _ in 0..3 {
        assert_eq!(
            written(&mut table, "one\n", 4, 9, false),
            ("one\n".to_string(), None)
        );
    }
    assert_eq!(
        written(&mut table, "longer\n", 4, 9, false),
        (String::new(), Some(0))
    );
}

#[test]
fn a_line_that_is_too_long_for_a_frame_has_the_same_bound() {
    let long = "x".repeat(100_000);
    let text = format!("a\n{}\nb\n", long);
    for (most, lines, least) in [
        (1, 0, 0),
        (2, 1, 2),
        (100_002, 1, 2),
        (100_003, 2, 100_003),
        (100_004, 2, 100_003),
    ] {
        let (to, got) = written(&mut table(), &text, most, 50_000, false);
        assert_eq!(got, Some(lines), "{} bytes", most);
        // Of the long line what was read before may be written.
        assert!(
            text.starts_with(&to) && (least..=most).contains(&to.len()),
            "{} bytes of {}",
            to.len(),
            most
        );
    }
    assert_eq!(
        written(&mut table(), &text, text.len(), 50_000, false),
        (text.clone(), None)
    );
}

#[test]
fn places_with_a_query_have_it_too() {
    let mut table = Table::with_loader(|_| Ok(Some(MAP))).expect("a table");
    let text = "f@a.js?v=1:1:1\nf@a.js?v=2:1:1\nf@a.js:2:1\n";
    let made = "f@long/name.ts:3:1\nf@long/name.ts:3:1\nf@b.ts:1:1\n";
    for most in 0..=made.len() {
        assert_eq!(
            written(&mut table, text, most, usize::MAX, true),
            wanted(made, most),
            "{} bytes",
            most
        );
    }
}

#[test]
fn names_have_a_bound_where_a_map_is_read() {
    // Each of two names is made of `src/` and `a.ts`, which are 8 bytes, and at a URL of its 20, too.
    let map = br#"{"version":3,"sourceRoot":"src","sources":["a.ts","b.ts"],"mappings":""}"#;
    let at_url = |most| {
        ReadOptions::new()
            .with_base("https://ex.test/x.js")
            .with_max_names(most)
    };
    for (options, is_read) in [
        (ReadOptions::new().with_max_names(16), true),
        (ReadOptions::new().with_max_names(15), false),
        (ReadOptions::new().with_max_names(0), false),
        (at_url(56), true),
        (at_url(55), false),
    ] {
        match options.read(map) {
            Ok(_) => assert!(is_read, "{:?}", options),
            Err(error) => assert_eq!(
                (is_read, error.to_string().as_str()),
                (false, "M18 LongNames"),
                "{:?}",
                options
            ),
        }
    }
    let why = refused(at_url(55).read(map));
    assert_eq!(why.code(), "M18");
}

/// A map of 1 MB, whose names have 300.
fn many_names() -> String {
    let sources = vec![r#""a.ts""#; 300].join(",");
    format!(
        r#"{{"version":3,"sourceRoot":"{}","sources":[{}],"mappings":""}}"#,
        "r".repeat(1_000_000),
        sources
    )
}

#[test]
fn names_of_300_mb_are_refused_if_nothing_is_said() {
    let map = many_names();
    assert_eq!(
        refused(SourceMap::from_slice(map.as_bytes())).to_string(),
        "M18 LongNames"
    );
    let outer = SourceMap::from_slice(br#"{"version":3,"sources":["x.js"],"mappings":"AAAA"}"#)
        .expect("a map");
    let composed = outer.compose_all(ComposeOptions::default(), |_| Ok(Some(map.as_str())));
    assert_eq!(refused(composed).to_string(), "x.js: M18 LongNames");
}

#[test]
fn names_have_a_bound_where_a_loader_gives_a_map() {
    let map = many_names();
    let mut table = Table::with_loader(move |url| {
        Ok(Some(if url == "a.js" {
            map.clone()
        } else {
            MAP.to_string()
        }))
    })
    .expect("a table");
    let mut to = Vec::new();
    table
        .rewrite(&b"f@a.js:1:1\nf@b.js:1:1\n"[..], &mut to)
        .expect("a trace");
    assert_eq!(to, b"f@a.js:1:1\nf@long/name.ts:3:1\n");
    table.set_max_names(15);
    table
        .rewrite(&b"f@c.js:1:1\n"[..], io::sink())
        .expect("a trace");
    let told: Vec<_> = table
        .refusals()
        .iter()
        .map(|(_, why)| why.to_string())
        .collect();
    assert_eq!(told, ["a.js: M18 LongNames", "c.js: M18 LongNames"]);
}

#[test]
fn a_writer_that_fails_ends_it_before_the_bound_does() {
    struct Failing;
    impl Write for Failing {
        fn write(&mut self, _: &[u8]) -> io::Result<usize> {
            Err(io::ErrorKind::BrokenPipe.into())
        }
        fn flush(&mut self) -> io::Result<()> {
            Ok(())
        }
    }
    let mut table = table();
    table.set_max_output(4);
    assert!(matches!(
        table.rewrite(&b"one\nlonger\n"[..], Failing),
        Err(Error::Io(_))
    ));
}
