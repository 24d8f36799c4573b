//! Each growth of each call of the crate for Rust refused in turn, by refuse.c: memory MAP OUTER. The call says that it is out of
//! memory, or answers as with ample memory, and what it was given can be used and freed. Prints `memory` and how many were refused.
use smap::{ComposeOptions, Error, SourceMap, Table};
use std::{env, fs};

extern "C" {
    fn refuse_growth(nth: u64) -> u64;
}

/// Asks with each growth refused in turn, until none is, and gives how many there were.
fn refused<T>(what: &str, mut call: impl FnMut() -> Result<T, Error>) -> u64 {
    for nth in 1.. {
        unsafe { refuse_growth(nth) };
        let answer = call();
        let grown = unsafe { refuse_growth(0) };
        match answer {
            Err(Error::OutOfMemory) if grown >= nth => (),
            Ok(_) if grown < nth => return nth - 1,
            Ok(_) => (),
            Err(error) => panic!("{what}: {error} at growth {nth} of {grown}"),
        }
    }
    unreachable!()
}

fn main() -> Result<(), Box<dyn std::error::Error>> {
    let words: Vec<String> = env::args().skip(1).collect();
    let (bytes, outer_bytes) = (fs::read(&words[0])?, fs::read(&words[1])?);
    let wrong = br#"{"version":3,"sources":["a.js"],"mappings":"AACA,ECAA"}"#;
    let (map, outer) = (SourceMap::from_slice(&bytes)?, SourceMap::from_slice(&outer_bytes)?);
    let why = match SourceMap::from_slice(wrong) {
        Err(Error::Refused(refused)) => refused,
        other => panic!("{other:?}"),
    };
    let trace = b"f@a.js:65:80\n  at a.js:1:1\n";
    let mut count = refused("reading", || SourceMap::from_slice(&bytes));
    count += refused("a refusal", || match SourceMap::from_slice(wrong) {
        Err(Error::Refused(refused)) if refused.to_string() == why.to_string() => Ok(()),
        Err(error) => Err(error),
        Ok(_) => panic!("a wrong map is read"),
    });
    count += refused("a reason", || why.explain(wrong));
    count += refused("mappings", || map.mappings().map(|mappings| mappings.count()));
    count += refused("a text", || map.to_vec());
    count += refused("bytes", || map.bytes_by_source("f()"));
    count += refused("a fit", || map.fit("f()"));
    count += refused("originals", || map.originals().map(|originals| originals.generated(0, 0, 0).count()));
    count += refused("two maps", || outer.compose(0, &map));
    count += refused("one map", || map.compose(0, &map));
    count += refused("all maps", || {
        outer.compose_all(ComposeOptions::default(), |name| Ok(name.ends_with(".js").then_some(&bytes)))
    });
    count += refused("a table", Table::new);
    count += refused("a map in a table", || {
        let given = SourceMap::from_slice(&bytes)?;
        Table::new()?.insert("a.js", given)
    });
    count += refused("a loader", || {
        let given = bytes.clone();
        let mut table = Table::with_loader(move |_| Ok(Some(given.clone())))?;
        table.rewrite(&trace[..], Vec::new())
    });
    let mut table = Table::new()?;
    table.insert("a.js", SourceMap::from_slice(&bytes)?)?;
    let mut told = Vec::new();
    table.rewrite(&trace[..], &mut told)?;
    for _ in 0..2 {
        count += refused("a trace", || {
            let mut to = Vec::new();
            table.rewrite(&trace[..], &mut to)?;
            assert_eq!(to, told);
            Ok(())
        });
        count += refused("places", || table.rewrite_anywhere(&trace[..], Vec::new()));
    }
    println!("memory {count}");
    Ok(())
}
