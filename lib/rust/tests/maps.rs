//! Maps: what is read, looked up, written, composed and counted. What is expected was worked out by
//! hand.
use smap::{ComposeOptions, Error, ReadOptions, Refused, SourceMap};
use std::cell::RefCell;
use std::collections::HashMap;
use std::io;

fn read(map: &str) -> SourceMap {
    SourceMap::from_slice(map.as_bytes()).expect("a map")
}

fn refused(map: &[u8]) -> Refused {
    match SourceMap::from_slice(map) {
        Err(Error::Refused(refused)) => refused,
        other => panic!("not refused: {:?}", other),
    }
}

/// Its source, line and column, or none.
type Original<'a> = Option<(&'a str, u32, u32)>;

fn original(map: &SourceMap, line: u32, column: u32) -> Original<'_> {
    let token = map.lookup(line, column)?;
    let (line, column) = token.get_src()?;
    Some((token.get_source()?, line, column))
}

const TWO_LINES: &str = r#"{"version":3,"file":"o.js","sources":["a.ts","b.ts"],"names":["f","g"],
    "sourcesContent":["\u00e4",null],"ignoreList":[1],"mappings":"AAAA,CAACA;ACCA,C,EAAAC"}"#;

#[test]
fn look_ups_answer_on_their_line_alone() {
    let map = read(TWO_LINES);
    assert_eq!(original(&map, 0, 0), Some(("a.ts", 0, 0)));
    assert_eq!(original(&map, 0, u32::MAX), Some(("a.ts", 0, 1)));
    assert_eq!(original(&map, 1, 0), Some(("b.ts", 1, 1)));
    assert_eq!(original(&map, 1, 2), None);
    assert_eq!(map.lookup(1, 2).map(|token| token.get_dst_col()), Some(1));
    assert!(map.lookup(2, 0).is_none());
    assert!(map.lookup(u32::MAX, u32::MAX).is_none());
    let after = map.lookup_after(1, 2).expect("a mapping behind");
    assert_eq!(
        (after.get_dst_line(), after.get_dst_col(), after.get_name()),
        (1, 3, Some("g"))
    );
    assert!(map.lookup_after(1, 4).is_none());
}

#[test]
fn mappings_and_texts_come_in_their_order() {
    let map = read(TWO_LINES);
    let all: Vec<_> = map.mappings().expect("mappings").collect();
    let columns: Vec<_> = all.iter().map(|token| token.get_dst()).collect();
    assert_eq!(columns, [(0, 0), (0, 1), (1, 0), (1, 1), (1, 3)]);
    let names: Vec<_> = all.iter().map(|token| token.get_name_id()).collect();
    assert_eq!(names, [None, Some(0), None, None, Some(1)]);
    assert_eq!(map.get_token_count(), 5);
    assert_eq!(map.mappings().expect("mappings").len(), 5);
    assert_eq!(map.names().collect::<Vec<_>>(), ["f", "g"]);
    assert_eq!(map.get_file(), Some("o.js"));
    assert_eq!(map.ignore_list().collect::<Vec<_>>(), [1]);
    assert_eq!(map.get_source_contents(0).as_deref(), Some("\u{e4}"));
    assert_eq!(
        (map.get_source_contents(1), map.get_source_contents(2)),
        (None, None)
    );
    assert_eq!(
        (map.get_source(u32::MAX), map.get_name(u32::MAX)),
        (None, None)
    );
}

#[test]
fn an_empty_map_has_nothing() {
    let map = read(r#"{"version":3,"sources":[],"mappings":""}"#);
    assert_eq!(map.mappings().expect("mappings").count(), 0);
    assert_eq!(
        (map.sources().len(), map.names().len(), map.get_file()),
        (0, 0, None)
    );
    let bytes = map.bytes_by_source("").expect("bytes");
    assert_eq!((bytes.sources, bytes.unmapped), (vec![], 0));
}

#[test]
fn a_base_resolves_sources_or_is_refused() {
    let map = br#"{"version":3,"sources":["../a.ts"],"mappings":""}"#;
    let placed = ReadOptions::new()
        .with_base("https://ex.test/js/o.js")
        .read(map)
        .expect("a map");
    assert_eq!(placed.get_source(0), Some("https://ex.test/a.ts"));
    for base in ["", "/srv/o.js"] {
        let error = ReadOptions::new()
            .with_base(base)
            .read(map)
            .expect_err("no URL");
        assert_eq!(error.to_string(), format!("{}: the base is no URL", base));
        assert_eq!(error.code(), Some("usage"));
    }
}

#[test]
fn a_refusal_has_its_code_and_its_place() {
    let map = br#"{"version":3,"sources":["a"],"mappings":";;AAAA,C,!"}"#;
    let why = refused(map);
    assert_eq!(why.to_string(), "M14 Text 0 F1 BadDigit line 3 byte 9");
    assert_eq!((why.code(), why.cause()), ("M14", Some("F1")));
    assert_eq!(
        (why.section(), why.line(), why.byte()),
        (Some(0), Some(2), Some(9))
    );
    let reason = why.explain(map).expect("memory").expect("a reason");
    assert!(
        reason.text.starts_with("  segment \"!\" at line 3"),
        "{}",
        reason.text
    );

    let why = refused(b"");
    assert_eq!(
        (
            why.to_string().as_str(),
            why.cause(),
            why.section(),
            why.line()
        ),
        ("M2 NotJson", None, None, None)
    );
    assert_eq!(refused(b"[]").code(), "M3");
    let parts = |map: &str| {
        let why = refused(map.as_bytes());
        (why.to_string(), why.code(), why.cause(), why.section())
    };
    let section =
        r#"{"offset":{"line":0,"column":0},"map":{"version":3,"sources":[],"mappings":""}}"#;
    let told = parts(r#"{"version":3,"sections":[{}]}"#);
    assert_eq!(told, ("M5 Sections".to_string(), "M5", None, None));
    let told = parts(&format!(
        r#"{{"version":3,"sections":[{},{}]}}"#,
        section,
        section.replace("\"line\":0", "\"line\":-1")
    ));
    assert_eq!(
        told,
        ("M6 SectionOffset 1".to_string(), "M6", None, Some(1))
    );
    let after = section.replace("\"line\":0", "\"line\":7");
    let told = parts(&format!(
        r#"{{"version":3,"sections":[{},{}]}}"#,
        after, section
    ));
    let wanted = "M15 Build B2 SectionOrder 1".to_string();
    assert_eq!(told, (wanted, "M15", Some("B2"), Some(1)));
    let why = ReadOptions::new()
        .with_interval(0)
        .read(b"{\"version\":3,\"sources\":[],\"mappings\":\"\"}");
    assert_eq!(
        why.expect_err("no interval").to_string(),
        "M15 Build B1 Interval"
    );
}

#[test]
fn a_refusal_is_explained_beside_any_bytes() {
    let why = refused(br#"{"version":3,"sources":["a"],"mappings":"AAAAAAAA"}"#);
    for bytes in [&b""[..], b"{}", b"\xff", TWO_LINES.as_bytes()] {
        let reason = why.explain(bytes).expect("memory").expect("a reason");
        assert_eq!(
            (reason.value, reason.column, reason.text.as_str()),
            (None, None, "")
        );
    }
}

#[test]
fn a_map_is_composed_with_another_and_with_itself() {
    let map = read(r#"{"version":3,"sources":["a.js"],"mappings":"AAAA,CACC"}"#);
    let itself = SourceMap::from_slice(&map.compose(0, &map).expect("a map")).expect("a map");
    assert_eq!(original(&itself, 0, 0), Some(("a.js", 0, 0)));
    assert_eq!(original(&itself, 0, 1), None);
    for (outer, inner) in [(&map, &map), (&map, &read(TWO_LINES))] {
        let error = outer.compose(1, inner).expect_err("no such source");
        assert_eq!(error.to_string(), "C1 SourceIndex");
    }
    let written = SourceMap::from_slice(&map.to_vec().expect("a text")).expect("a map");
    assert_eq!(original(&written, 0, 1), Some(("a.js", 1, 1)));
}

fn map_to(source: &str) -> String {
    format!(
        r#"{{"version":3,"sources":["{}"],"mappings":"AAAA"}}"#,
        source
    )
}

#[test]
fn a_loader_is_asked_once_for_each_name() {
    let outer =
        read(r#"{"version":3,"sources":["a.js","b.js","a.js",null],"mappings":"AAAA,CCAA,CCAA"}"#);
    // The map of a.js leads to b.js, whose map leads to a.js again, which is not followed.
    let maps = HashMap::from([("a.js", map_to("b.js")), ("b.js", map_to("a.js"))]);
    let asked = RefCell::new(Vec::new());
    let load = |name: &str| {
        asked.borrow_mut().push(name.to_string());
        Ok(maps.get(name))
    };
    let options = ComposeOptions {
        prune: true,
        ..ComposeOptions::default()
    };
    let whole = read(
        std::str::from_utf8(&outer.compose_all(options, load).expect("a map")).expect("UTF-8"),
    );
    assert_eq!(*asked.borrow(), ["a.js", "b.js"]);
    let sources: Vec<_> = (0..3).map(|column| original(&whole, 0, column)).collect();
    assert_eq!(
        sources,
        [
            Some(("a.js", 0, 0)),
            Some(("b.js", 0, 0)),
            Some(("a.js", 0, 0))
        ]
    );
    assert_eq!(
        original(&outer, 0, 1),
        Some(("b.js", 0, 0)),
        "the outer map stays"
    );
}

#[test]
fn what_a_loader_says_ends_the_composition() {
    let outer = read(&map_to("https://ex.test/js/a.js"));
    let options = ComposeOptions::default();
    let error = outer
        .compose_all(options, |_| Ok(Some("no JSON")))
        .expect_err("no map");
    assert_eq!(error.to_string(), "https://ex.test/js/a.js: M2 NotJson");
    assert_eq!(error.code(), Some("M2"));
    let failed = |_: &str| -> io::Result<Option<Vec<u8>>> {
        Err(io::Error::new(io::ErrorKind::Other, "gone"))
    };
    assert!(matches!(
        outer.compose_all(options, failed),
        Err(Error::Io(_))
    ));
    // A map stands at the name of its source, where that is a URL.
    let whole = outer.compose_all(options, |name| {
        Ok((name.ends_with(".js")).then(|| map_to("../a.ts")))
    });
    let whole = SourceMap::from_slice(&whole.expect("a map")).expect("a map");
    assert_eq!(original(&whole, 0, 0), Some(("https://ex.test/a.ts", 0, 0)));
}

#[test]
fn the_bytes_of_a_generated_file_are_those_of_its_sources() {
    // The third line begins with a character of two units, within which a mapping stands, and the
    // last mapping stands past the end of its line.
    let map = read(r#"{"version":3,"sources":["a","b","c"],"mappings":"AAAA,GCAA,E;;CAAA;mGDAA"}"#);
    let bytes = map
        .bytes_by_source("abc\u{e4}efg\nxyz\n\u{1f600}z\nq")
        .expect("bytes");
    assert_eq!((bytes.sources, bytes.unmapped), (vec![3, 4, 0], 13));
    let error = map.bytes_by_source(b"\xff").expect_err("no UTF-8");
    assert_eq!(
        (error.to_string().as_str(), error.code()),
        ("NotUtf8", Some("NotUtf8"))
    );
}

#[test]
fn a_map_is_put_to_a_generated_file() {
    let map =
        read(r#"{"version":3,"sources":["a"],"sourcesContent":["let ab"],"mappings":"AAAA,IAAI"}"#);
    let fit = map.fit("var ab").expect("a fit");
    assert_eq!((fit.fits, fit.mappings), (true, 2));
    assert_eq!((fit.past, fit.inside), (0, 0));
    assert_eq!((fit.compared, fit.outside, fit.same), (2, 0, 1));
    let error = map.fit(b"\xff").expect_err("no UTF-8");
    assert_eq!(
        (error.to_string().as_str(), error.code()),
        ("NotUtf8", Some("NotUtf8"))
    );
}

#[test]
fn functions_have_the_names_of_their_sources() {
    // `fe` was written as `main`, and `b` as it is; `c` is a property.
    let text = "function fe(){throw x}function b(){}o.c=()=>{}";
    let json = r#"{"version":3,"sources":["a.ts"],"names":["main"],"mappings":"SAAAA,sBAAA"}"#;
    let map = read(json).with_generated(text).expect("its file");
    let name_at = |column, name| map.function_name(0, column, name);
    assert_eq!(name_at(14, "fe").as_deref(), Some("main"));
    assert_eq!(name_at(14, "async fe").as_deref(), Some("main"));
    assert_eq!(name_at(35, "b").as_deref(), Some("b"));
    for (column, name) in [
        (8, "fe"),
        (30, "fe"),
        (45, "c"),
        (14, "Object.fe"),
        (14, ""),
    ] {
        assert_eq!(name_at(column, name), None, "{} at {}", name, column);
    }
    // What another thread has of the map has no file.
    let other = map.share().expect("memory");
    assert_eq!(other.function_name(0, 14, "fe"), None);
    let thread = std::thread::spawn(move || map.function_name(0, 14, "fe"));
    assert_eq!(thread.join().expect("no panic").as_deref(), Some("main"));
    for (file, code) in [(&b"\xff"[..], "NotUtf8"), (b"function fe", "A4")] {
        let error = read(json).with_generated(file).expect_err("another file");
        assert_eq!(error.code(), Some(code));
    }
}

#[test]
fn originals_lead_to_all_their_places() {
    let map = read(r#"{"version":3,"sources":["a","b"],"mappings":"AAAA,EAAE,EAAF,EAAI;A,ECAA"}"#);
    let originals = map.originals().expect("an index");
    drop(map);
    let up_to = |source, column| {
        let places = originals.generated(source, 0, column);
        places
            .map(|place| (place.line, place.column))
            .collect::<Vec<_>>()
    };
    assert_eq!(up_to(0, 0), [(0, 0), (0, 4)]);
    assert_eq!(up_to(0, 1), [(0, 0), (0, 4)]);
    assert_eq!(up_to(0, 3), [(0, 2)]);
    assert_eq!(up_to(0, u32::MAX), [(0, 6)]);
    assert_eq!(up_to(1, 4), [(1, 2)]);
    assert_eq!((up_to(1, 3), up_to(2, 0)), (vec![], vec![]));
    let from = |column| {
        originals
            .generated_after(0, 0, column)
            .map(|place| place.original_column)
            .collect::<Vec<_>>()
    };
    assert_eq!((from(1), from(4), from(5)), (vec![2], vec![4], vec![]));
    assert_eq!(originals.generated_after(0, 1, 0).len(), 0);
}

#[test]
fn threads_hand_maps_to_one_another() {
    let map = read(TWO_LINES);
    let there = std::thread::spawn(move || {
        let mappings = map.mappings().expect("mappings");
        assert_eq!(mappings.len(), 5);
        drop(mappings);
        map
    });
    let map = there.join().expect("a thread");
    assert_eq!(original(&map, 0, 0), Some(("a.ts", 0, 0)));
    fn is_send<T: Send>() {}
    is_send::<SourceMap>();
    is_send::<smap::Table>();
    is_send::<smap::Originals>();
    is_send::<Error>();
    fn is_sync<T: Sync>() {}
    is_sync::<Error>();
}
