//! Maps that are asked for when a text or a look-up names them: one loop for all.

use crate::compose::standing_at;
use crate::error::{Error, Refused};
use crate::library::{self, Known, Reading, Rewriting, Stop};
use crate::maps::Found;
use crate::rewriting::RewriteOptions;
use crate::sys;
use crate::table::TraceCounts;
use crate::urls::read_in;
use std::collections::HashMap;
use std::io::{self, ErrorKind, Read, Write};
use std::path::PathBuf;
use std::time::{Duration, Instant};

const LF: u8 = b'\n';

/// How many bytes are read at once.
const PIECE: usize = 65_536;

/// So many bytes are written at most, if nothing else is said.
const USUAL_OUTPUT: u64 = 1_073_741_824;

/// No failure holds for longer.
const LONGEST_RETRY: Duration = Duration::from_secs(600);

/// Of so many URLs it is kept how often they failed in a row, and of so many why.
const MOST_FAILING: usize = 4096;
const MOST_REFUSALS: usize = 100;

pub(crate) type Loader =
    Box<dyn FnMut(&str, Reading) -> Result<Option<library::Map>, Error> + Send>;

/// The maps that were put into a table, which stay, and beside it a store of those that a loader gave.
pub(crate) struct Engine {
    pub table: library::Table,
    pub store: library::Store,
    pub how: Reading,
    pub most_output: u64,
    /// For how long a first failure holds: for ever where there is none.
    pub retry_after: Option<Duration>,
    /// For how long it holds that there is no map: for ever where there is none.
    pub none_for: Option<Duration>,
    load: Option<Loader>,
    begun: Instant,
    /// How often in a row those failed that failed last.
    failures: HashMap<Vec<u8>, u32>,
    refusals: Vec<(String, Error)>,
}

/// A loader of the bytes of map files.
pub(crate) fn reading<L, B>(mut load: L) -> Loader
where
    L: FnMut(&str) -> io::Result<Option<B>> + Send + 'static,
    B: AsRef<[u8]>,
{
    Box::new(move |url: &str, how| match load(url)? {
        Some(bytes) => standing_at(url, bytes.as_ref(), how).map(Some),
        None => Ok(None),
    })
}

/// A loader of the map files in a folder, of the URLs with a prefix.
pub(crate) fn folder_of(prefix: String, folder: PathBuf) -> Result<Loader, Error> {
    if !prefix.ends_with('/') || prefix.starts_with('*') {
        return Err(Refused::prefix().into());
    }
    let mut is_told = false;
    Ok(reading(move |url| {
        read_in(&folder, &prefix, url, &mut is_told)
    }))
}

impl Engine {
    /// Without maps. Those that the loader gives count for at most so many bytes together, or are one.
    pub(crate) fn new(most_bytes: u64, load: Option<Loader>) -> Result<Engine, Error> {
        Ok(Engine {
            table: library::Table::new()?,
            store: library::Store::new(most_bytes)?,
            how: Reading::USUAL,
            most_output: USUAL_OUTPUT,
            retry_after: None,
            none_for: None,
            load,
            begun: Instant::now(),
            failures: HashMap::new(),
            refusals: Vec::new(),
        })
    }

    /// Why maps could not be had, of the first URLs.
    pub(crate) fn refusals(&self) -> &[(String, Error)] {
        &self.refusals
    }

    /// Forgets how often a URL failed in a row, or how often all did.
    pub(crate) fn forgive(&mut self, url: Option<&[u8]>) {
        match url {
            Some(url) => {
                self.failures.remove(url);
            }
            None => self.failures.clear(),
        }
    }

    /// Rewrites a text, which is passed over once. Where more would come out than may, the lines that
    /// fit are written.
    pub(crate) fn rewrite<R: Read, W: Write>(
        &mut self,
        options: RewriteOptions,
        mut reader: R,
        mut writer: W,
    ) -> Result<TraceCounts, Error> {
        let mut text = Rewriting::new(&sys::smap_rewriting_options {
            hide_ignored: options.hide_ignored && !options.anywhere,
            anywhere: options.anywhere,
            strip_ansi: options.strip_ansi,
            asks: self.load.is_some(),
            most: u64::MAX,
            most_output: self.most_output,
        })?;
        let mut piece = vec![0; PIECE];
        loop {
            let count = match reader.read(&mut piece) {
                Err(error) if error.kind() == ErrorKind::Interrupted => continue,
                other => other?,
            };
            match piece.get(..count).unwrap_or(&piece) {
                [] => text.end()?,
                read => text.give(read)?,
            }
            let ran = self.run(&mut text);
            let made = text.text();
            let whole = match ran {
                Ok(()) => made.len(),
                Err(_) => made
                    .iter()
                    .rposition(|byte| *byte == LF)
                    .map_or(0, |at| at + 1),
            };
            writer.write_all(&made[..whole])?;
            writer.flush()?;
            ran?;
            text.clear();
            if count == 0 {
                return Ok(TraceCounts::of(&text.counts()));
            }
        }
    }

    /// Goes on with a text as far as it was given, at one time: what holds for no time holds for that.
    fn run(&mut self, text: &mut Rewriting) -> Result<(), Error> {
        let now = self.now();
        loop {
            match text.run(&mut self.table, &mut self.store, now)? {
                Stop::Done => return Ok(()),
                Stop::Wanted => self.want(&text.url())?,
            };
        }
    }

    /// The same, if a mapping answers.
    pub(crate) fn found(
        &mut self,
        url: &str,
        position: (u32, u32),
        is_after: bool,
    ) -> Result<Option<Found>, Error> {
        let found = self.look_up(url.as_bytes(), position, is_after)?;
        Ok(found.and_then(|found| Found::of(position.0, found)))
    }

    /// What answers at a position in the map of a URL.
    fn look_up(
        &mut self,
        url: &[u8],
        position: (u32, u32),
        is_after: bool,
    ) -> Result<Option<library::Found>, Error> {
        if let Some(found) = self.table.look_up(url, position, is_after) {
            return Ok(Some(found));
        }
        let now = self.settle(url)?;
        self.store.look_up(url, now, position, is_after)
    }

    /// The map that the store has of a URL, and the names that came with it.
    pub(crate) fn map(
        &mut self,
        url: &[u8],
    ) -> Result<Option<(library::Map, Option<library::Names>)>, Error> {
        let now = self.settle(url)?;
        match self.store.map(url, now)? {
            Some(map) => Ok(Some((map, self.store.names(url, now)?))),
            None => Ok(None),
        }
    }

    /// Asks for the map of a URL or path of which nothing is known, and says at which time something is.
    fn settle(&mut self, url: &[u8]) -> Result<u64, Error> {
        let now = self.now();
        if self.store.ask(url, now)? == Known::Wanted && library::is_location(library::cut(url)) {
            self.want(url)?;
        }
        Ok(now)
    }

    /// Asks for the map of a URL of which nothing is known, and puts what comes.
    fn want(&mut self, url: &[u8]) -> Result<(), Error> {
        let key = self.store.key(url);
        let name = std::str::from_utf8(library::cut(key)).ok();
        let loaded = match (&mut self.load, name) {
            (Some(load), Some(name)) => load(name, self.how),
            _ => Ok(None),
        };
        match loaded {
            Ok(Some(map)) => {
                self.failures.remove(key);
                self.store.put(key, &map, None)
            }
            Ok(None) => {
                self.failures.remove(key);
                let until = self.none_for.map(|time| self.after(time));
                self.store.put_none(key, false, until)
            }
            Err(Error::OutOfMemory) => Err(Error::OutOfMemory),
            Err(error) => {
                let until = self.retry_of(key).map(|time| self.after(time));
                if self.refusals.len() < MOST_REFUSALS {
                    let name = name.unwrap_or_default().to_string();
                    self.refusals.push((name, error));
                }
                self.store.put_none(key, true, until)
            }
        }
    }

    /// For how long it holds that a URL failed once more: twice as long as the last time.
    fn retry_of(&mut self, key: &[u8]) -> Option<Duration> {
        let first = self.retry_after?;
        if self.failures.len() >= MOST_FAILING && !self.failures.contains_key(key) {
            self.failures.clear();
        }
        let times = self.failures.entry(key.to_vec()).or_default();
        let time = first.saturating_mul(1 << (*times).min(16));
        *times = times.saturating_add(1);
        Some(time.min(LONGEST_RETRY.max(first)))
    }

    /// The time since this one was made, in nanoseconds.
    fn now(&self) -> u64 {
        nanoseconds(self.begun.elapsed())
    }

    /// When this time is over, which is not now.
    fn after(&self, time: Duration) -> u64 {
        self.now().saturating_add(nanoseconds(time).max(1))
    }
}

fn nanoseconds(time: Duration) -> u64 {
    u64::try_from(time.as_nanos()).unwrap_or(u64::MAX)
}

#[cfg(test)]
mod tests {
    use super::*;

    #[test]
    fn a_failure_holds_twice_as_long_up_to_ten_minutes() {
        for (first, times) in [(30, [30, 60, 120, 240, 480, 600, 600]), (1000, [1000; 7])] {
            let mut engine = Engine::new(0, None).expect("an engine");
            engine.retry_after = Some(Duration::from_secs(first));
            for time in times {
                assert_eq!(engine.retry_of(b"a.js"), Some(Duration::from_secs(time)));
            }
            for _ in 0..100 {
                engine.retry_of(b"a.js");
            }
            assert_eq!(engine.retry_of(b"b.js"), Some(Duration::from_secs(first)));
            engine.forgive(Some(b"a.js"));
            assert_eq!(engine.retry_of(b"a.js"), Some(Duration::from_secs(first)));
        }
    }
}
