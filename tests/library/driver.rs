//! What tests/try-rust asks of the crate for Rust, in the words of driver.c beside this, and with what that prints:
//!   look MAP, from MAP             a line for each LINE COLUMN of standard input, from 0
//!   refuse FILE.., why FILE        what is said of files that are refused
//!   mappings MAP, show MAP, version -
//!   bytes MAP GENERATED
//!   compose OUTER SOURCE INNER
//!   all OUTER LESS SOURCE INNER..  where LESS is prune, bare, both or none
//!   chain FOLDER OUTER LESS
//!   rewrite URL MAP, load URL MAP, anywhere URL MAP
//!   threads MAP MAP
//!   again MAP COUNT                KiB of memory that are held more at the end
use smap::{ComposeOptions, Error, ReadOptions, Refused, SourceMap, Table, Token};
use std::io::{stdin, stdout, Read, Write};
use std::path::Path;
use std::{env, fs, io, thread};

type Done = Result<(), Box<dyn std::error::Error>>;

fn opened(path: &str) -> Result<SourceMap, Box<dyn std::error::Error>> {
    Ok(SourceMap::from_slice(&fs::read(path)?)?)
}

fn line_of(map: &SourceMap, token: Option<Token<'_>>) -> String {
    let token = match token {
        Some(token) => token,
        None => return "none".to_string(),
    };
    let (source, line, column) = match (token.get_src_id(), token.get_src()) {
        (Some(source), Some((line, column))) => (source, line, column),
        _ => return "unmapped".to_string(),
    };
    let named = token.get_name().map_or(String::new(), |name| format!(" name {name}"));
    let ignored = if map.ignore_list().any(|index| index == source) {
        " ignored"
    } else {
        ""
    };
    let source = token.get_source().unwrap_or("(no name)");
    format!("{source}:{}:{}{named}{ignored}", u64::from(line) + 1, u64::from(column) + 1)
}

fn look(map: &str, is_after: bool) -> Done {
    let map = opened(map)?;
    let mut asked = String::new();
    stdin().read_to_string(&mut asked)?;
    let mut to = stdout().lock();
    for position in asked.lines() {
        let (line, column) = position.split_once(' ').ok_or("no position")?;
        let (line, column) = (line.parse()?, column.parse()?);
        let token = if is_after {
            map.lookup_after(line, column)
        } else {
            map.lookup(line, column)
        };
        writeln!(to, "{}", line_of(&map, token))?;
    }
    Ok(())
}

fn mappings(map: &str) -> Done {
    let map = opened(map)?;
    let mut to = stdout().lock();
    for token in map.mappings()? {
        let (line, column) = token.get_dst();
        writeln!(
            to,
            "{}:{} {}",
            u64::from(line) + 1,
            u64::from(column) + 1,
            line_of(&map, Some(token))
        )?;
    }
    Ok(())
}

fn refused(bytes: &[u8]) -> Result<Refused, Box<dyn std::error::Error>> {
    match SourceMap::from_slice(bytes) {
        Err(Error::Refused(refused)) => Ok(refused),
        _ => Err("a map is not refused".into()),
    }
}

fn refuse(paths: &[&str]) -> Done {
    for path in paths {
        let bytes = fs::read(path)?;
        let refused = refused(&bytes)?;
        let reason = refused.explain(&bytes)?.ok_or("no reason")?;
        print!("refused: {path}: {refused}\n{}", reason.text);
    }
    Ok(())
}

fn why(path: &str) -> Done {
    let bytes = fs::read(path)?;
    let reason = refused(&bytes)?.explain(&bytes)?.ok_or("no reason")?;
    let shown = |number: Option<i64>| number.map_or("-".to_string(), |number| number.to_string());
    let is_below = matches!((reason.value, reason.least), (Some(value), Some(least)) if value < least);
    let limit = if is_below { reason.least } else { reason.most };
    let column = reason.column.map(|column| column as i64);
    print!("{} {} {}\n{}", shown(reason.value), shown(limit), shown(column), reason.text);
    Ok(())
}

fn bytes_by_source(map: &str, generated: &str) -> Done {
    let bytes = opened(map)?.bytes_by_source(fs::read(generated)?)?;
    bytes.sources.iter().for_each(|count| print!("{count} "));
    println!("{}", bytes.unmapped);
    Ok(())
}

fn fitted(map: &str, generated: &str) -> Done {
    let fit = opened(map)?.fit(fs::read(generated)?)?;
    let counts = [fit.mappings, fit.past, fit.inside, fit.compared, fit.outside, fit.same];
    print!("{}", u32::from(fit.fits));
    counts.iter().for_each(|count| print!(" {count}"));
    println!();
    Ok(())
}

fn options(less: &str) -> ComposeOptions {
    ComposeOptions {
        prune: matches!(less, "prune" | "both"),
        no_content: matches!(less, "bare" | "both"),
        debug_id: false,
    }
}

fn compose(outer: &str, source: &str, inner: &str) -> Done {
    let (outer, inner) = (opened(outer)?, opened(inner)?);
    match outer.compose(source.parse()?, &inner) {
        Err(Error::Refused(refused)) => println!("refused {}", refused.to_string().split(' ').next().unwrap_or("")),
        other => stdout().write_all(&other?)?,
    }
    Ok(())
}

fn all(outer: &str, less: &str, inners: &[&str]) -> Done {
    let outer = opened(outer)?;
    let mut named = Vec::new();
    for pair in inners.chunks(2) {
        named.push((outer.get_source(pair[0].parse()?).ok_or("no source")?, pair[1]));
    }
    let load = |name: &str| match named.iter().find(|(source, _)| *source == name) {
        Some((_, path)) => fs::read(path).map(Some),
        None => Ok(None),
    };
    stdout().write_all(&outer.compose_all(options(less), load)?)?;
    Ok(())
}

fn chain(folder: &str, outer: &str, less: &str) -> Done {
    let mut asked = Vec::new();
    let load = |name: &str| {
        asked.push(name.to_string());
        let path = Path::new(folder).join(format!("{name}.map"));
        if path.exists() {
            fs::read(path).map(Some)
        } else {
            Ok(None)
        }
    };
    stdout().write_all(&opened(outer)?.compose_all(options(less), load)?)?;
    eprint!("{}", asked.join(" "));
    Ok(())
}

fn rewrite(how: &str, url: &str, map: &str) -> Done {
    let (asked, path) = (url.to_string(), map.to_string());
    let mut table = match how {
        "load" => Table::with_loader(move |url| if url == asked { fs::read(&path).map(Some) } else { Ok(None) })?,
        _ => Table::new()?,
    };
    if how != "load" {
        let mut options = ReadOptions::new();
        if url.contains("://") {
            options = options.with_base(url);
        }
        table.insert(url, options.read(&fs::read(map)?)?)?;
    }
    let (from, to) = (stdin().lock(), stdout().lock());
    let counts = if how == "anywhere" {
        table.rewrite_anywhere(from, to)?
    } else {
        table.rewrite(from, to)?
    };
    eprintln!(
        "lines {} frames {} mapped {} hidden {}",
        counts.lines, counts.frames, counts.mapped, counts.hidden
    );
    Ok(())
}

fn sum_of(map: &SourceMap) -> u64 {
    let mut sum: u64 = 0;
    for (line, column) in (0..200).flat_map(|line| (0..500).map(move |column| (line, column))) {
        let place = map.lookup(line, column).map_or(0, |token| {
            1 + u64::from(token.get_src_line().unwrap_or(0)) * 7 + u64::from(token.get_src_col().unwrap_or(0))
        });
        sum = sum.wrapping_mul(31).wrapping_add(place);
    }
    sum
}

fn threads(paths: [&str; 2]) -> Done {
    let maps = [opened(paths[0])?, opened(paths[1])?];
    let alone = [sum_of(&maps[0]), sum_of(&maps[1])];
    let running = maps.map(|map| thread::spawn(move || sum_of(&map)));
    for (thread, alone) in running.into_iter().zip(alone) {
        let sum = thread.join().map_err(|_| "a thread failed")?;
        println!("{}", if sum == alone { "same" } else { "other" });
    }
    Ok(())
}

fn held() -> io::Result<i64> {
    let pages = fs::read_to_string("/proc/self/statm")?;
    Ok(pages.split(' ').nth(1).and_then(|count| count.parse().ok()).unwrap_or(0) * 4)
}

fn again(path: &str, count: usize) -> Done {
    let bytes = fs::read(path)?;
    drop(SourceMap::from_slice(&bytes)?);
    let before = held()?;
    for _ in 0..count {
        SourceMap::from_slice(&bytes)?.mappings()?.count();
    }
    println!("{}", held()? - before);
    Ok(())
}

fn main() -> Done {
    let words: Vec<String> = env::args().skip(1).collect();
    let words: Vec<&str> = words.iter().map(String::as_str).collect();
    match words[..] {
        ["look", map] => look(map, false),
        ["from", map] => look(map, true),
        ["mappings", map] => mappings(map),
        ["refuse", ref paths @ ..] => refuse(paths),
        ["why", path] => why(path),
        ["bytes", map, generated] => bytes_by_source(map, generated),
        ["fit", map, generated] => fitted(map, generated),
        ["version", _] => Ok(print!("{}", smap::version())),
        ["show", map] => Ok(stdout().write_all(&opened(map)?.to_vec()?)?),
        ["compose", outer, source, inner] => compose(outer, source, inner),
        ["all", outer, less, ref inners @ ..] => all(outer, less, inners),
        ["chain", folder, outer, less] => chain(folder, outer, less),
        ["rewrite" | "load" | "anywhere", url, map] => rewrite(words[0], url, map),
        ["threads", first, second] => threads([first, second]),
        ["again", map, count] => again(map, count.parse()?),
        _ => Err("no such command".into()),
    }
}
