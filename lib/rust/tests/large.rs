//! What takes much memory, or time.
use smap::{Error, SourceMap, Table};
use std::io::{self, BufReader, Read};

#[test]
fn a_gibibyte_is_written_if_nothing_is_said() {
    let name = "n".repeat(4_000_000);
    let map = format!(
        r#"{{"version":3,"sources":["{}"],"mappings":"AAEA"}}"#,
        name
    );
    let mut table = Table::new().expect("a table");
    table
        .insert(
            "a.js",
            SourceMap::from_slice(map.as_bytes()).expect("a map"),
        )
        .expect("a place");
    // A line at a time, of which each comes to 4,000,007 bytes: 268 of them are 1,072,001,876.
    let line = b"f@a.js:1:1\n";
    let lines = io::repeat(0).take(300 * line.len() as u64);
    struct Lines<R>(R);
    impl<R: Read> Read for Lines<R> {
        fn read(&mut self, to: &mut [u8]) -> io::Result<usize> {
            let count = self.0.read(&mut to[..11])?;
            to[..count].copy_from_slice(&b"f@a.js:1:1\n"[..count]);
            Ok(count)
        }
    }
    match table.rewrite(Lines(BufReader::with_capacity(11, lines)), io::sink()) {
        Err(Error::Refused(refused)) => assert_eq!(
            (refused.to_string().as_str(), refused.lines()),
            ("X5 LongOutput", Some(268))
        ),
        other => panic!("{:?}", other),
    }
}
