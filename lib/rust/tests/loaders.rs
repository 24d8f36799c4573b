//! Maps that a loader or a folder gives when they are named. What is expected was worked out by hand.
use smap::{Error, SourceMap, Table};
use std::cell::Cell;
use std::io::ErrorKind;
use std::path::{Path, PathBuf};
use std::sync::{Arc, Mutex};
use std::{env, fs, process};

const MAP: &str = r#"{"version":3,"sources":["a.ts"],"mappings":"AAEA"}"#;

type Asked = Arc<Mutex<Vec<String>>>;

/// A table whose loader gives a map of each URL but `none.js`, and the URLs for which it was asked.
fn asking() -> (Table, Asked) {
    let asked = Asked::default();
    let seen = asked.clone();
    let table = Table::with_loader(move |url| {
        seen.lock().expect("a lock").push(url.to_string());
        Ok((url != "none.js").then_some(MAP))
    });
    (table.expect("a table"), asked)
}

fn frames_of<'a>(urls: impl IntoIterator<Item = &'a str>) -> String {
    let frames = urls.into_iter().map(|url| format!("f@{}:1:1\n", url));
    frames.collect()
}

/// What a trace comes to, and how many of its places were replaced.
fn rewritten(table: &mut Table, trace: &str) -> (String, u64) {
    let mut to = Vec::new();
    let counts = table.rewrite(trace.as_bytes(), &mut to).expect("a trace");
    (String::from_utf8(to).expect("a text"), counts.mapped)
}

#[test]
fn a_loader_is_asked_when_a_frame_names_the_url() {
    let asked = Arc::new(Mutex::new(Vec::new()));
    let seen = asked.clone();
    let mut table = Table::with_loader(move |url| {
        seen.lock().expect("a lock").push(url.to_string());
        Ok(url.ends_with("a.js").then_some(MAP))
    })
    .expect("a table");
    let mut to = Vec::new();
    let trace = b"f@https://ex.test/a.js:1:1\nf@b.js:1:1\nf@\xff:1:1\nat a.js:1:1\nf@https://ex.test/a.js:1:1\n";
    for _ in 0..2 {
        to.clear();
        table.rewrite(&trace[..], &mut to).expect("a trace");
    }
    let made = b"f@https://ex.test/a.ts:3:1\nf@b.js:1:1\nf@\xff:1:1\nat a.ts:3:1\nf@https://ex.test/a.ts:3:1\n";
    assert_eq!(to, made);
    assert_eq!(
        *asked.lock().expect("a lock"),
        ["https://ex.test/a.js", "b.js", "a.js"]
    );
}

#[test]
fn a_loader_that_fails_is_told_and_the_rest_goes_on() {
    let times = Cell::new(0);
    let mut table = Table::with_loader(move |url| {
        times.set(times.get() + 1);
        assert!(times.get() <= 3, "asked again for {}", url);
        match url {
            "gone.js" => Err(ErrorKind::NotFound.into()),
            "bad.js" => Ok(Some("no JSON")),
            _ => Ok(Some(MAP)),
        }
    })
    .expect("a table");
    let mut to = Vec::new();
    let trace = b"f@gone.js:1:1\nf@bad.js:1:1\nf@a.js:1:1\nf@bad.js:1:1\n";
    let counts = table.rewrite(&trace[..], &mut to).expect("a trace");
    assert_eq!(
        to,
        b"f@gone.js:1:1\nf@bad.js:1:1\nf@a.ts:3:1\nf@bad.js:1:1\n"
    );
    assert_eq!((counts.frames, counts.mapped), (4, 1));
    let told: Vec<&str> = table
        .refusals()
        .iter()
        .map(|(url, _)| url.as_str())
        .collect();
    assert_eq!(told, ["gone.js", "bad.js"]);
    assert!(matches!(table.refusals()[0].1, Error::Io(_)));
    assert_eq!(table.refusals()[1].1.to_string(), "bad.js: M2 NotJson");
}

#[test]
fn it_is_asked_once_for_what_stands_before_a_query() {
    let (mut table, asked) = asking();
    let urls: Vec<_> = (0..200)
        .map(|i| format!("https://ex.test/a.js?t={}", i))
        .collect();
    let trace = frames_of(urls.iter().map(String::as_str))
        + &frames_of(["b.js#x?y", "none.js?", "none.js#"]);
    let made = frames_of([])
        + &"f@https://ex.test/a.ts:3:1\n".repeat(200)
        + "f@a.ts:3:1\nf@none.js?:1:1\nf@none.js#:1:1\n";
    for _ in 0..2 {
        assert_eq!(rewritten(&mut table, &trace), (made.clone(), 201));
    }
    let asked = asked.lock().expect("a lock");
    assert_eq!(*asked, ["https://ex.test/a.js", "b.js", "none.js"]);
}

#[test]
fn it_is_asked_for_urls_and_paths_and_for_nothing_else() {
    let urls = [
        "https://ex.test/../x",
        "/srv/x",
        "C:\\x\\y",
        "x.mjs",
        "x/y.cjs",
        "index.bundle?platform=ios",
    ];
    let other = [
        "<anonymous>",
        "node:internal/x",
        "../../etc/passwd",
        "../a.js",
        "x//a.js",
        "x.ts",
        "*a.js",
        "native code",
    ];
    let (mut table, asked) = asking();
    let trace = frames_of(other) + &frames_of(urls);
    let (made, mapped) = rewritten(&mut table, &trace);
    assert_eq!((made.starts_with(&frames_of(other)), mapped), (true, 6));
    let wanted = urls.map(|url| url.trim_end_matches("?platform=ios"));
    assert_eq!(*asked.lock().expect("a lock"), wanted);
}

#[test]
fn a_map_that_was_given_serves_each_query() {
    let (mut table, asked) = asking();
    for (url, source) in [("a.js", "of-a.ts"), ("a.js?v=1", "of-1.ts")] {
        let map = MAP.replace("a.ts", source);
        let map = SourceMap::from_slice(map.as_bytes()).expect("a map");
        table.insert(url, map).expect(url);
    }
    let made = "f@of-1.ts:3:1\nf@of-a.ts:3:1\nf@of-a.ts:3:1\n".to_string();
    let trace = frames_of(["a.js?v=1", "a.js?v=2", "a.js"]);
    assert_eq!(rewritten(&mut table, &trace), (made, 3));
    assert!(asked.lock().expect("a lock").is_empty());
}

#[test]
fn a_query_goes_with_a_place_anywhere_that_is_replaced() {
    let (mut table, asked) = asking();
    let mut to = Vec::new();
    let trace = "f@https://ex.test/a.js?v=1:1:1\n    at g (b.js#x:1:7)\nf@b.js?y:2:1\nf@none.js?z:1:1\n{\"at\":\"b.js:1:1\"}\n";
    let made = "f@https://ex.test/a.ts:3:1\n    at g (a.ts:3:1)\nf@b.js?y:2:1\nf@none.js?z:1:1\n{\"at\":\"a.ts:3:1\"}\n";
    let counts = table
        .rewrite_anywhere(trace.as_bytes(), &mut to)
        .expect("a text");
    assert_eq!(
        (String::from_utf8(to).expect("a text"), counts.mapped),
        (made.to_string(), 3)
    );
    assert_eq!(
        *asked.lock().expect("a lock"),
        ["https://ex.test/a.js", "b.js", "none.js"]
    );
}

/// A folder `maps` within one of its own, which goes with it.
struct Folder(PathBuf);

impl Folder {
    fn new(name: &str) -> Folder {
        let folder = env::temp_dir().join(format!("smap-{}-{}", name, process::id()));
        fs::create_dir_all(folder.join("maps/js")).expect("a folder");
        Folder(folder)
    }

    fn maps(&self) -> PathBuf {
        self.0.join("maps")
    }

    fn put(&self, path: impl AsRef<Path>, map: &str) {
        fs::write(self.0.join(path), map).expect("a file");
    }
}

impl Drop for Folder {
    fn drop(&mut self) {
        fs::remove_dir_all(&self.0).expect("the folder goes");
    }
}

#[test]
fn no_url_leads_out_of_a_folder() {
    let folder = Folder::new("leads");
    for path in [
        "outside.js.map",
        "maps/js/a.js.map",
        "maps/.map",
        "maps/js/.map",
        "maps/x:y.js.map",
        "maps/x\\y.js.map",
    ] {
        folder.put(path, MAP);
    }
    let outside = folder.0.join("outside.js");
    let outside = outside.to_str().expect("a text");
    let mut table = Table::with_folder("https://ex.test/", folder.maps()).expect("a table");
    let urls = [
        "https://ex.test/../outside.js",
        "https://ex.test/js/../../outside.js",
        "https://ex.test/js/../js/a.js",
        "https://ex.test/./js/a.js",
        "https://ex.test//js/a.js",
        "https://ex.test/js//a.js",
        "https://ex.test/",
        "https://ex.test/js/",
        "https://ex.test/x:y.js",
        "https://ex.test/x\\y.js",
        "https://ex.test/..\\outside.js",
        "https://ex.test/js/a.js\0",
        "https://ex.test/%2e%2e/outside.js",
        "https://other.test/js/a.js",
        "js/a.js",
        outside,
    ];
    let trace = frames_of(urls) + &frames_of([format!("https://ex.test/{}", outside).as_str()]);
    assert_eq!(rewritten(&mut table, &trace), (trace, 0));
    assert!(table.refusals().is_empty(), "{:?}", table.refusals());
    let trace = frames_of(["https://ex.test/js/a.js?v=1"]);
    assert_eq!(
        rewritten(&mut table, &trace),
        ("f@https://ex.test/js/a.ts:3:1\n".to_string(), 1)
    );
}

#[test]
fn a_folder_that_is_not_there_is_told_once() {
    let folder = Folder::new("once");
    folder.put("file", MAP);
    let urls = ["https://ex.test/a.js", "https://ex.test/js/b.js"];
    let trace = frames_of(["https://other.test/a.js", urls[0], urls[1]]);
    for (name, count) in [("none", 1), ("file", 1), ("maps", 0)] {
        let mut table =
            Table::with_folder("https://ex.test/", folder.0.join(name)).expect("a table");
        for _ in 0..2 {
            assert_eq!(rewritten(&mut table, &trace), (trace.clone(), 0));
        }
        let told: Vec<_> = table.refusals().iter().map(|(url, _)| url).collect();
        assert_eq!(told, &urls[..count]);
    }
}

#[test]
fn a_file_that_is_not_there_is_no_map_and_another_is_told() {
    let folder = Folder::new("told");
    folder.put("maps/file.map", MAP);
    folder.put("maps/bad.js.map", "no JSON");
    fs::create_dir(folder.maps().join("folder.js.map")).expect("a folder");
    let mut table = Table::with_folder("https://ex.test/", folder.maps()).expect("a table");
    let names = [
        "gone.js",
        "gone/a.js",
        "file.map/a.js",
        "bad.js",
        "folder.js",
    ];
    let urls = names.map(|name| format!("https://ex.test/{}", name));
    let trace = frames_of(urls.iter().map(String::as_str));
    assert_eq!(rewritten(&mut table, &trace), (trace, 0));
    let told: Vec<_> = table
        .refusals()
        .iter()
        .map(|(url, _)| url.as_str())
        .collect();
    assert_eq!(
        told,
        ["https://ex.test/bad.js", "https://ex.test/folder.js"]
    );
    assert_eq!(table.refusals()[0].1.code(), Some("M2"));
    assert!(matches!(table.refusals()[1].1, Error::Io(_)));
}

#[test]
fn a_file_is_read_no_further_than_a_map_may_go() {
    let folder = Folder::new("large");
    let file = fs::File::create(folder.maps().join("large.js.map")).expect("a file");
    // It takes no room, and would take more memory than there is.
    file.set_len(1 << 42).expect("a large file");
    let mut table = Table::with_folder("https://ex.test/", folder.maps()).expect("a table");
    let trace = frames_of(["https://ex.test/large.js"]);
    assert_eq!(rewritten(&mut table, &trace), (trace, 0));
    assert_eq!(
        table.refusals()[0].1.to_string(),
        "https://ex.test/large.js: M1 TooLarge"
    );
}

#[test]
fn a_prefix_ends_in_a_slash_and_is_no_pattern() {
    for prefix in ["", "https://ex.test", "*/js/"] {
        let error = Table::with_folder(prefix, "maps").expect_err(prefix);
        assert_eq!(error.to_string(), "a prefix ends in / and is no pattern");
    }
}
