//! Traces and logs, rewritten as they are read. What is expected was worked out by hand.
use smap::{Error, SourceMap, Table, TraceCounts};
use std::io::{self, ErrorKind, Read, Write};
use std::sync::{Arc, Mutex};

const MAP: &str =
    r#"{"version":3,"sources":["a.ts","lib.ts"],"ignoreList":[1],"mappings":"AAEA;ACFA"}"#;
const LONG: usize = 65_536;

fn table() -> Table {
    let mut table = Table::new().expect("a table");
    let map = SourceMap::from_slice(MAP.as_bytes()).expect("a map");
    table.insert("a.js", map).expect("a place");
    table
}

fn counts(lines: u64, frames: u64, mapped: u64, hidden: u64) -> (u64, u64, u64, u64) {
    (lines, frames, mapped, hidden)
}

fn numbers(counts: TraceCounts) -> (u64, u64, u64, u64) {
    (counts.lines, counts.frames, counts.mapped, counts.hidden)
}

/// Gives a text in pieces of at most so many bytes, each behind an interruption.
struct Pieces<'a> {
    rest: &'a [u8],
    most: usize,
    is_interrupted: bool,
}

impl Read for Pieces<'_> {
    fn read(&mut self, to: &mut [u8]) -> io::Result<usize> {
        self.is_interrupted = !self.is_interrupted;
        if self.is_interrupted {
            return Err(ErrorKind::Interrupted.into());
        }
        let count = self.most.min(self.rest.len()).min(to.len());
        let (piece, rest) = self.rest.split_at(count);
        to[..count].copy_from_slice(piece);
        self.rest = rest;
        Ok(count)
    }
}

fn in_pieces(text: &str, most: usize) -> Pieces<'_> {
    Pieces {
        rest: text.as_bytes(),
        most,
        is_interrupted: false,
    }
}

#[test]
fn pieces_of_any_size_come_to_the_same() {
    let long = "x".repeat(LONG + 1);
    let frame = format!("{} at f (a.js:1:2)", " ".repeat(LONG - 16));
    assert_eq!(frame.len(), LONG);
    let trace = format!(
        "Error\n  at f (a.js:1:2)\n{}\ng@a.js:2:1\r\n{}\n {}\n  at a.js:3:1\n{0}",
        long, frame, frame
    );
    let made = format!(
        "Error\n  at f (a.ts:3:1)\n{}\ng@lib.ts:1:1\r\n{}\n {}\n  at a.js:3:1\n{0}",
        long,
        frame.replace("a.js:1:2", "a.ts:3:1"),
        frame,
    );
    let visible = made.replace("g@lib.ts:1:1\r\n", "");
    for most in [1, 7, 4096, LONG, usize::MAX] {
        let mut to = Vec::new();
        let counted = table()
            .rewrite(in_pieces(&trace, most), &mut to)
            .expect("a trace");
        assert!(to == made.as_bytes(), "pieces of {} bytes", most);
        assert_eq!(numbers(counted), counts(8, 4, 3, 0));
        let mut to = Vec::new();
        let counted = table()
            .rewrite_visible(in_pieces(&trace, most), &mut to)
            .expect("a trace");
        assert!(to == visible.as_bytes(), "pieces of {} bytes", most);
        assert_eq!(numbers(counted), counts(8, 4, 2, 1));
    }
}

#[test]
fn places_are_rewritten_in_lines_of_any_length() {
    let long = "x ".repeat(LONG);
    let text = format!("{}a.js:1:1 a.js:2:9\n\"a.js:3:1\"", long);
    for most in [4096, usize::MAX] {
        let mut to = Vec::new();
        let counted = table()
            .rewrite_anywhere(in_pieces(&text, most), &mut to)
            .expect("a text");
        assert!(
            to == format!("{}a.ts:3:1 lib.ts:1:1\n\"a.js:3:1\"", long).as_bytes(),
            "pieces of {} bytes",
            most
        );
        assert_eq!(numbers(counted), counts(2, 3, 2, 0));
    }
}

#[test]
fn nothing_comes_of_nothing() {
    let mut to = Vec::new();
    let counted = table().rewrite(&b""[..], &mut to).expect("a trace");
    assert_eq!((to.len(), numbers(counted)), (0, counts(0, 0, 0, 0)));
}

/// What was written and flushed.
#[derive(Clone, Default)]
struct Shown(Arc<Mutex<(Vec<u8>, Vec<u8>)>>);

impl Write for Shown {
    fn write(&mut self, bytes: &[u8]) -> io::Result<usize> {
        self.0.lock().expect("a lock").0.extend(bytes);
        Ok(bytes.len())
    }

    fn flush(&mut self) -> io::Result<()> {
        let mut both = self.0.lock().expect("a lock");
        both.1 = both.0.clone();
        Ok(())
    }
}

/// Gives lines, and checks before each that the one before it was flushed.
struct Live {
    shown: Shown,
    lines: Vec<(&'static str, &'static str)>,
    before: String,
}

impl Read for Live {
    fn read(&mut self, to: &mut [u8]) -> io::Result<usize> {
        assert_eq!(
            self.shown.0.lock().expect("a lock").1,
            self.before.as_bytes()
        );
        if self.lines.is_empty() {
            return Ok(0);
        }
        let (line, made) = self.lines.remove(0);
        self.before += made;
        to[..line.len()].copy_from_slice(line.as_bytes());
        Ok(line.len())
    }
}

#[test]
fn each_line_is_written_before_the_next_is_awaited() {
    let shown = Shown::default();
    let live = Live {
        shown: shown.clone(),
        lines: vec![
            ("f@a.js:1:1\n", "f@a.ts:3:1\n"),
            ("end\nf@a", "end\n"),
            (".js:1:1\n", "f@a.ts:3:1\n"),
        ],
        before: String::new(),
    };
    table().rewrite(live, shown).expect("a trace");
}

#[test]
fn readers_and_writers_that_fail_end_it() {
    struct Failing;
    impl Read for Failing {
        fn read(&mut self, _: &mut [u8]) -> io::Result<usize> {
            Err(ErrorKind::BrokenPipe.into())
        }
    }
    impl Write for Failing {
        fn write(&mut self, _: &[u8]) -> io::Result<usize> {
            Err(ErrorKind::WriteZero.into())
        }
        fn flush(&mut self) -> io::Result<()> {
            Ok(())
        }
    }
    let kind = |result| match result {
        Err(Error::Io(error)) => error.kind(),
        other => panic!("{:?}", other),
    };
    assert_eq!(
        kind(table().rewrite(Failing, Vec::new())),
        ErrorKind::BrokenPipe
    );
    assert_eq!(
        kind(table().rewrite(&b"x\n"[..], Failing)),
        ErrorKind::WriteZero
    );
}

#[test]
fn a_table_takes_a_url_once() {
    let mut table = table();
    for (url, why) in [
        ("a.js", "A2 Twice"),
        ("", "A1 BadUrl"),
        ("a\nb", "A1 BadUrl"),
    ] {
        let map = SourceMap::from_slice(MAP.as_bytes()).expect("a map");
        assert_eq!(table.insert(url, map).expect_err(url).to_string(), why);
    }
}

#[test]
fn patterns_have_many_urls() {
    let mut table = Table::with_loader(|url| {
        assert_eq!(url, "https://ex.test/b.js", "a URL that a pattern has");
        Ok(None::<&str>)
    })
    .expect("a table");
    let map = |name: &str| {
        let text = format!(
            r#"{{"version":3,"sources":["{}"],"mappings":"AAEA"}}"#,
            name
        );
        SourceMap::from_slice(text.as_bytes()).expect("a map")
    };
    for (url, name) in [("*a.js", "any.ts"), ("*js/a.js", "js.ts"), ("x.js", "x.ts")] {
        table.insert(url, map(name)).expect(url);
    }
    let why = table.insert("*a.js", map("a.ts")).expect_err("twice");
    assert_eq!(why.to_string(), "A2 Twice");
    let mut to = Vec::new();
    let trace = "f@https://ex.test/a.js?v=2:1:1\nf@https://ex.test/js/a.js:1:1\nf@https://ex.test/b.js:1:1\nf@x.js#y:1:1\n";
    let counts = table.rewrite(trace.as_bytes(), &mut to).expect("a trace");
    let made = "f@any.ts:3:1\nf@js.ts:3:1\nf@https://ex.test/b.js:1:1\nf@x.ts:3:1\n";
    assert_eq!(String::from_utf8_lossy(&to), made);
    assert_eq!((counts.frames, counts.mapped), (4, 3));
    to.clear();
    let text = "12:30:45 {\"at\":\"https://ex.test/a.js?v=2:1:1\"}\n";
    table
        .rewrite_anywhere(text.as_bytes(), &mut to)
        .expect("a text");
    assert_eq!(to, b"12:30:45 {\"at\":\"any.ts:3:1\"}\n");
    table.insert("*", map("all.ts")).expect("a map of all");
    assert!(table.rewrite_anywhere(text.as_bytes(), &mut to).is_err());
}
