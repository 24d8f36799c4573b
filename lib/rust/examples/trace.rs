//! Looks one place of a map up, and rewrites a trace with it:
//!
//!     cargo run --example trace MAP LINE COLUMN
//!     cargo run --example trace MAP URL < TRACE
//!
//! The line and the column count from 1, and URL is that which the frames of the trace name.

use smap::{ReadOptions, SourceMap, Table};
use std::error::Error;
use std::{env, fs, io, process};

fn main() -> Result<(), Box<dyn Error>> {
    let words: Vec<String> = env::args().skip(1).collect();
    match &words[..] {
        [map, line, column] => look_up(map, line.parse()?, column.parse()?),
        [map, url] => rewrite(map, url),
        _ => {
            eprintln!("usage: trace MAP LINE COLUMN, or trace MAP URL < TRACE");
            process::exit(2);
        }
    }
}

fn look_up(path: &str, line: u32, column: u32) -> Result<(), Box<dyn Error>> {
    let map = SourceMap::from_slice(&fs::read(path)?)?;
    let token = map.lookup(line.wrapping_sub(1), column.wrapping_sub(1));
    let original = token.and_then(|token| Some((token.get_source()?, token.get_src()?)));
    match (original, token.and_then(|token| token.get_name())) {
        (None, _) => println!("none"),
        (Some((source, (line, column))), None) => {
            println!("{}:{}:{}", source, line + 1, column + 1)
        }
        (Some((source, (line, column))), Some(name)) => {
            println!("{}:{}:{} {}", source, line + 1, column + 1, name)
        }
    }
    Ok(())
}

fn rewrite(path: &str, url: &str) -> Result<(), Box<dyn Error>> {
    let map = ReadOptions::new().with_base(url).read(&fs::read(path)?)?;
    let mut table = Table::new()?;
    table.insert(url, map)?;
    let counts = table.rewrite(io::stdin().lock(), io::stdout().lock())?;
    eprintln!(
        "{} of {} frames were rewritten",
        counts.mapped, counts.frames
    );
    Ok(())
}
