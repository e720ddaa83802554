//! A plain program to compare with: it splits the same records, looks up each subscriber in a map, and writes one
//! line a record. It decides nothing.
use std::collections::BTreeMap;
use std::io::{self, BufRead, Write};

fn main() -> io::Result<()> {
    let mut subscribers: BTreeMap<Vec<u8>, u64> = BTreeMap::new();
    let mut input = io::stdin().lock();
    // Standard output is written at each line end.
    let mut output = io::stdout().lock();
    let mut record = Vec::new();
    let mut number: u64 = 0;
    while input.read_until(b'\n', &mut record)? > 0 {
        number += 1;
        let mut fields = record.trim_ascii_end().split(|octet| *octet == b',');
        let word = fields.next().unwrap_or_default();
        match word {
            b"register" | b"insert" => {
                let imsi = fields.next().unwrap_or_default();
                match subscribers.get_mut(imsi) {
                    Some(last) => *last = number,
                    None => {
                        subscribers.insert(imsi.to_vec(), number);
                    }
                }
                writeln!(output, "accepted {number}")?;
            }
            b"call" => {
                let imsi = fields.nth(1).unwrap_or_default();
                let last = subscribers.get(imsi).copied().unwrap_or_default();
                writeln!(output, "front {last} with {} fields more", fields.count())?;
            }
            _ => writeln!(output, "published {number}")?,
        }
        record.clear();
    }
    Ok(())
}
