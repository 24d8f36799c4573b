//! Maps of many URLs within a bound. What is expected was worked out by hand, or by the model beside.
use smap::{Error, Maps, SourceMap};
use std::collections::HashMap;
use std::io::ErrorKind;
use std::sync::{Arc, Mutex};
use std::time::{Duration, Instant};

/// A map whose one mapping leads to the third line of a source.
fn file_of(source: &str) -> String {
    format!(
        r#"{{"version":3,"sources":["{}"],"mappings":"AAEA"}}"#,
        source
    )
}

fn map_of(source: &str) -> SourceMap {
    SourceMap::from_slice(file_of(source).as_bytes()).expect("a map")
}

fn rewritten(maps: &mut Maps, trace: &str) -> String {
    let mut to = Vec::new();
    maps.rewrite(trace.as_bytes(), &mut to).expect("a trace");
    String::from_utf8(to).expect("a text")
}

fn source_of(maps: &mut Maps, url: &str) -> Option<String> {
    let found = maps.lookup(url, 0, 7).expect("an answer")?;
    found.get_source().map(str::to_string)
}

/// Files by name, which come and go, and how often each was asked for.
#[derive(Clone, Default)]
struct Files {
    files: Arc<Mutex<HashMap<String, Option<String>>>>,
    asked: Arc<Mutex<Vec<String>>>,
}

impl Files {
    fn put(&self, name: &str, file: Option<String>) {
        let mut files = self.files.lock().expect("a lock");
        files.insert(name.to_string(), file);
    }

    fn asked(&self) -> Vec<String> {
        std::mem::take(&mut *self.asked.lock().expect("a lock"))
    }

    /// Maps within a bound. A file of no text fails.
    fn maps(&self, most: u64) -> Maps {
        let these = self.clone();
        Maps::with_loader(most, move |url| {
            these.asked.lock().expect("a lock").push(url.to_string());
            match these.files.lock().expect("a lock").get(url) {
                Some(Some(file)) => Ok(Some(file.clone())),
                Some(None) => Err(ErrorKind::TimedOut.into()),
                None => Ok(None),
            }
        })
        .expect("maps")
    }
}

#[test]
fn what_was_missing_or_failed_is_asked_for_again_in_time() {
    let files = Files::default();
    let mut maps = files.maps(1 << 20);
    maps.set_none_for(Duration::ZERO);
    maps.set_retry_after(Duration::ZERO);
    assert_eq!(source_of(&mut maps, "a.js"), None);
    files.put("a.js", None);
    assert_eq!(source_of(&mut maps, "a.js"), None);
    files.put("a.js", Some(file_of("a.ts")));
    assert_eq!(source_of(&mut maps, "a.js").as_deref(), Some("a.ts"));
    assert_eq!(rewritten(&mut maps, "f@a.js:1:7\n"), "f@a.ts:3:1\n");
    assert_eq!(files.asked(), ["a.js", "a.js", "a.js"]);
    assert_eq!(maps.refusals().len(), 1);
}

#[test]
fn a_failure_holds_for_its_time_and_longer_each_time() {
    let files = Files::default();
    files.put("a.js", None);
    let mut maps = files.maps(1 << 20);
    maps.set_retry_after(Duration::from_millis(40));
    let began = Instant::now();
    let mut times = 0;
    while began.elapsed() < Duration::from_millis(200) {
        assert_eq!(source_of(&mut maps, "a.js"), None);
        times += 1;
        std::thread::sleep(Duration::from_millis(1));
    }
    // At 0, 40 and 120 milliseconds, and not before 280.
    assert!(times > 3);
    assert_eq!(files.asked().len(), 3);
}

#[test]
fn what_was_put_last_answers_in_look_ups_and_traces() {
    let mut maps = Maps::new(1 << 20).expect("maps");
    assert_eq!(rewritten(&mut maps, "f@a.js?v=1:1:7\n"), "f@a.js?v=1:1:7\n");
    for source in ["old.ts", "new.ts"] {
        maps.insert("a.js", &map_of(source)).expect("a map");
        assert_eq!(source_of(&mut maps, "a.js?v=1").as_deref(), Some(source));
        let made = format!("f@{}:3:1\n", source);
        assert_eq!(rewritten(&mut maps, "f@a.js?v=1:1:7\n"), made);
    }
}

#[test]
fn a_refused_or_missing_map_fails_no_trace_and_is_told() {
    let files = Files::default();
    files.put("a.js", Some(file_of("a.ts")));
    files.put("bad.js", Some(String::from("[]")));
    files.put("late.js", None);
    let mut maps = files.maps(1 << 20);
    let trace = "f@bad.js?v=2:1:7\nf@gone.js:1:7\nf@late.js:1:7\nf@a.js?v=2:1:7\nf@bad.js:1:7\n";
    assert_eq!(
        rewritten(&mut maps, trace),
        trace.replace("f@a.js?v=2:1:7", "f@a.ts:3:1")
    );
    assert_eq!(files.asked(), ["bad.js", "gone.js", "late.js", "a.js"]);
    let told: Vec<&str> = maps.refusals().iter().map(|(url, _)| &url[..]).collect();
    assert_eq!(told, ["bad.js", "late.js"]);
    assert_eq!(maps.refusals()[0].1.to_string(), "bad.js: M3 NotObject");
    assert!(matches!(maps.refusals()[1].1, Error::Io(_)));
}

#[test]
fn each_map_is_loaded_once_within_the_bound_and_dropped_past_it() {
    let files = Files::default();
    for name in ["a.js", "b.js"] {
        files.put(name, Some(file_of(&name.replace(".js", ".ts"))));
    }
    let trace = "f@a.js:1:7\nf@b.js:1:7\n".repeat(8000);
    let made = "f@a.ts:3:1\nf@b.ts:3:1\n".repeat(8000);
    let mut maps = files.maps(1 << 20);
    assert_eq!(rewritten(&mut maps, &trace), made);
    assert_eq!(files.asked().len(), 2);
    let counts = maps.counts();
    assert_eq!((counts.maps, counts.asked, counts.dropped), (2, 16_002, 0));
    // One of both at a time: each is loaded at each of its lines, and the text passed over once.
    let mut maps = files.maps(0);
    assert_eq!(rewritten(&mut maps, &trace), made);
    assert_eq!(files.asked().len(), 16_000);
    assert_eq!(maps.counts().maps, 1);
}

#[test]
fn a_map_that_was_given_stays_when_it_is_dropped() {
    let mut maps = Maps::new(0).expect("maps");
    maps.insert("a.js", &map_of("a.ts")).expect("a map");
    let held = maps.get("a.js").expect("an answer").expect("a map");
    maps.insert("b.js", &map_of("b.ts")).expect("a map");
    assert!(maps.get("a.js").expect("an answer").is_none());
    assert_eq!(
        held.lookup(0, 7).expect("a token").get_source(),
        Some("a.ts")
    );
}

#[test]
fn maps_go_to_a_thread() {
    let mut maps = Files::default().maps(1 << 20);
    maps.insert("a.js", &map_of("a.ts")).expect("a map");
    let done = std::thread::spawn(move || source_of(&mut maps, "a.js"));
    assert_eq!(done.join().expect("a thread").as_deref(), Some("a.ts"));
}

/// What is known of URLs, by the rule alone: the sources of maps and, beside them, what has none; of each
/// the longest unused first, each counting for its bytes. What has none has a sixteenth of the bound.
struct Model {
    most: u64,
    kept: Vec<(String, String, u64)>,
    nones: Vec<(String, u64)>,
}

impl Model {
    fn new(most: u64) -> Model {
        Model {
            most,
            kept: Vec::new(),
            nones: Vec::new(),
        }
    }

    fn put(&mut self, url: &str, source: &str, bytes: u64) {
        self.forget(url);
        self.kept.push((url.into(), source.into(), bytes));
        while self.kept.len() > 1
            && self.kept.iter().map(|(.., bytes)| bytes).sum::<u64>() > self.most
        {
            self.kept.remove(0);
        }
    }

    fn put_none(&mut self, url: &str) {
        self.forget(url);
        self.nones.push((url.into(), url.len() as u64 + 128));
        while self.nones.len() > 1
            && self.nones.iter().map(|(_, bytes)| bytes).sum::<u64>() > self.most / 16
        {
            self.nones.remove(0);
        }
    }

    fn forget(&mut self, url: &str) {
        self.kept.retain(|(known, ..)| known != url);
        self.nones.retain(|(known, _)| known != url);
    }

    /// The source that answers, or none; or nothing, where the loader is asked.
    fn ask(&mut self, url: &str) -> Option<Option<String>> {
        if let Some(at) = self.kept.iter().position(|(known, ..)| known == url) {
            let used = self.kept.remove(at);
            self.kept.push(used);
            return self.kept.last().map(|(_, source, _)| Some(source.clone()));
        }
        let at = self.nones.iter().position(|(known, _)| known == url)?;
        let used = self.nones.remove(at);
        self.nones.push(used);
        Some(None)
    }
}

/// Numbers by chance, the same in each run.
struct Chance(u64);

impl Chance {
    fn below(&mut self, most: u64) -> u64 {
        self.0 = self
            .0
            .wrapping_mul(6_364_136_223_846_793_005)
            .wrapping_add(1_442_695_040_888_963_407);
        (self.0 >> 33) % most
    }
}

/// How many random runs are made: a thousand, or as many as `RUNS` says.
fn runs() -> u64 {
    std::env::var("RUNS").map_or(1000, |runs| runs.parse().expect("a number"))
}

/// A step of a run beside the model, over a loader of files that fail, are refused, are not there and change.
fn step(maps: &mut Maps, model: &mut Model, files: &Files, chance: &mut Chance) {
    let url = format!("{}.js", chance.below(6));
    let file = |source: &str| Some(file_of(source));
    match chance.below(6) {
        0 => {
            let source = format!("{}.ts", chance.below(40));
            let map = map_of(&source);
            maps.insert(&url, &map).expect("a map");
            model.put(&url, &source, bytes_of(&url, &map));
            return;
        }
        1 => {
            maps.forget(&url).expect("room");
            return model.forget(&url);
        }
        2 => {
            return match chance.below(6) {
                0 => drop(files.files.lock().expect("a lock").remove(&url)),
                1 => files.put(&url, None),
                2 => files.put(&url, Some(String::from("{}"))),
                _ => files.put(&url, file(&format!("{}.ts", chance.below(40)))),
            }
        }
        _ => (),
    }
    let there = files.files.lock().expect("a lock").get(&url).cloned();
    let known = model.ask(&url);
    let source = known.clone().unwrap_or_else(|| {
        let source = there
            .flatten()
            .and_then(|file| Some(file.split('"').nth(5)?.to_string()))
            .filter(|source| source.ends_with(".ts"));
        match &source {
            Some(source) => model.put(&url, source, bytes_of(&url, &map_of(source))),
            None => model.put_none(&url),
        }
        source
    });
    if chance.below(2) == 0 {
        assert_eq!(source_of(maps, &url), source);
    } else {
        let trace = format!("f@{}:1:7\n", url);
        let made = source.map_or(trace.clone(), |source| format!("f@{}:3:1\n", source));
        assert_eq!(rewritten(maps, &trace), made);
    }
    let asked: &[&str] = if known.is_none() { &[&url] } else { &[] };
    assert_eq!(files.asked(), asked);
}

/// For how many bytes a map counts under a URL.
fn bytes_of(url: &str, map: &SourceMap) -> u64 {
    let mut one = Maps::new(0).expect("maps");
    one.insert(url, map).expect("a map");
    one.counts().bytes
}

#[test]
fn random_runs_are_those_of_the_model() {
    let mut chance = Chance(1);
    for _ in 0..runs() {
        let files = Files::default();
        let mut model = Model::new(chance.below(8) * 700);
        let mut maps = files.maps(model.most);
        maps.set_retry_after(Duration::from_secs(1 << 40));
        for _ in 0..100 {
            step(&mut maps, &mut model, &files, &mut chance);
            let counts = (maps.counts().maps, maps.counts().nones);
            assert_eq!(counts, (model.kept.len() as u64, model.nones.len() as u64));
            assert!(maps.counts().bytes <= model.most || counts.0 == 1);
        }
    }
}

#[test]
fn threads_share_maps_over_a_loader_that_is_slow_and_fails() {
    // The version of the only map, and whether the loader is at work.
    let version = Arc::new(Mutex::new(0_u64));
    let (ours, mut fails) = (Arc::clone(&version), Chance(2));
    let loading = Arc::new(Mutex::new(()));
    let maps = Maps::with_loader(0, move |_| {
        let _alone = loading.try_lock().expect("one load at a time");
        std::thread::sleep(Duration::from_micros(fails.below(200)));
        match fails.below(4) {
            0 => Err(ErrorKind::TimedOut.into()),
            1 => Ok(Some(String::from("[]"))),
            _ => Ok(Some(file_of(&format!(
                "{}.ts",
                ours.lock().expect("a lock")
            )))),
        }
    });
    let mut maps = maps.expect("maps");
    maps.set_retry_after(Duration::ZERO);
    let maps = Arc::new(Mutex::new(maps));
    let threads: Vec<_> = (0..4)
        .map(|own| {
            let (maps, version, mut chance) = (maps.clone(), version.clone(), Chance(own));
            std::thread::spawn(move || {
                for _ in 0..runs().min(2000) {
                    let before = *version.lock().expect("a lock");
                    let mut maps = maps.lock().expect("a lock");
                    if own == 0 && chance.below(3) == 0 {
                        *version.lock().expect("a lock") += 1;
                        maps.forget("a.js").expect("room");
                        continue;
                    }
                    let found = if chance.below(2) == 0 {
                        source_of(&mut maps, "a.js?v=1")
                    } else {
                        let made = rewritten(&mut maps, "f@a.js?v=1:1:7\n");
                        Some(made[2..].split(':').next().expect("a name").to_string())
                            .filter(|name| name != "a.js?v=1")
                    };
                    drop(maps);
                    if let Some(number) = found.and_then(|name| name[..name.len() - 3].parse().ok())
                    {
                        let after: u64 = *version.lock().expect("a lock");
                        assert!(
                            (before..=after).contains(&number),
                            "{} of {} to {}",
                            number,
                            before,
                            after
                        );
                    }
                }
            })
        })
        .collect();
    for thread in threads {
        thread.join().expect("a thread");
    }
}

#[test]
fn what_holds_for_no_time_is_asked_for_once_in_a_text() {
    let files = Files::default();
    files.put("late.js", None);
    let mut maps = files.maps(1 << 20);
    maps.set_none_for(Duration::ZERO);
    maps.set_retry_after(Duration::ZERO);
    let trace = "f@gone.js:1:7\nf@late.js:1:7\n";
    assert_eq!(rewritten(&mut maps, trace), trace);
    assert_eq!(files.asked(), ["gone.js", "late.js"]);
}

#[test]
fn the_loader_is_asked_for_urls_and_paths_without_query_and_fragment() {
    let files = Files::default();
    let mut maps = files.maps(1 << 20);
    // What was put under a URL with a query has a place of its own from then on.
    maps.insert("a.js?v=1", &map_of("a.ts")).expect("a map");
    maps.forget("a.js?v=1").expect("room");
    for url in ["a.js?v=1", "b.js#x", "[native code]", "<anonymous>"] {
        assert_eq!(source_of(&mut maps, url), None);
        assert_eq!(rewritten(&mut maps, url), url);
    }
    assert_eq!(files.asked(), ["a.js", "b.js"]);
}
