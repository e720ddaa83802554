//! Reads the scripts of `bench/workload.py`: the words of docs/SCRIPT.md that it writes.
use crate::data::{Address, Event, Imsi, Record, Row, Update};
use std::io::{self, BufRead, Error, Lines};

pub struct Script<R>(Lines<R>);

enum Read {
    Update(Update),
    Publish,
    Call(Event),
}

impl<R: BufRead> Script<R> {
    pub fn new(input: R) -> Script<R> {
        Script(input.lines())
    }

    /// None at the end.
    fn read(&mut self) -> io::Result<Option<Read>> {
        let Some(line) = self.0.next().transpose()? else {
            return Ok(None);
        };
        let read =
            read(&line).ok_or_else(|| Error::other(format!("no record of a workload: {line}")));
        read.map(Some)
    }

    /// The updates up to the next publication. None if there is none.
    pub fn batch(&mut self) -> io::Result<Option<Vec<Update>>> {
        let mut batch = Vec::new();
        while let Some(read) = self.read()? {
            match read {
                Read::Update(update) => batch.push(update),
                Read::Publish => return Ok(Some(batch)),
                Read::Call(_) => return Err(Error::other("a call among updates")),
            }
        }
        Ok(None)
    }

    /// The next calls, up to a publication or the end.
    pub fn calls(&mut self) -> io::Result<Vec<Event>> {
        let mut calls = Vec::new();
        while let Some(Read::Call(event)) = self.read()? {
            calls.push(event);
        }
        Ok(calls)
    }
}

fn read(line: &str) -> Option<Read> {
    let mut fields = line.split(',');
    Some(match fields.next()? {
        "publish" => Read::Publish,
        "register" => Read::Update(Update::Register(imsi(fields.next()?)?)),
        "cancel" => Read::Update(Update::Cancel(imsi(fields.next()?)?)),
        "insert" => {
            let imsi = imsi(fields.next()?)?;
            let mut record = Record::default();
            fields.try_for_each(|item| read_item(item, &mut record))?;
            Read::Update(Update::Insert(imsi, record))
        }
        "call" => Read::Call(call(fields)?),
        _ => return None,
    })
}

fn call<'a>(mut fields: impl Iterator<Item = &'a str>) -> Option<Event> {
    let (_dp, imsi, basic) = (fields.next()?, imsi(fields.next()?)?, fields.next()?);
    Some(Event {
        imsi,
        destination: address(fields.next()?)?,
        is_bearer: basic.starts_with('b'),
        basic: u8::from_str_radix(basic.get(1..)?, 16).ok()?,
    })
}

fn read_item(item: &str, record: &mut Record) -> Option<()> {
    let mut parts = item.split(':');
    match parts.next()? {
        "o" => record.o.push(row(parts)?),
        "t" => record.vt.push(row(parts)?),
        "oc" => {
            let numbers = parts.nth(1)?.strip_prefix("e/")?.strip_suffix('/')?;
            for number in numbers.split('+') {
                record.numbers.push(address(number)?);
            }
        }
        _ => return None,
    }
    Some(())
}

fn row<'a>(mut parts: impl Iterator<Item = &'a str>) -> Option<Row> {
    Some(Row {
        dp: parts.next()?.parse().ok()?,
        key: parts.next()?.parse().ok()?,
        scf: address(parts.next()?)?,
        is_release: parts.next()? == "1",
    })
}

fn imsi(digits: &str) -> Option<Imsi> {
    Some((digits.len() as u64) << 56 | digits.parse::<u64>().ok()?)
}

fn address(digits: &str) -> Option<Address> {
    let (mut octets, length) = ([0; 9], digits.len() / 2);
    for (place, octet) in octets.get_mut(..length)?.iter_mut().enumerate() {
        *octet = u8::from_str_radix(digits.get(2 * place..2 * place + 2)?, 16).ok()?;
    }
    Some(Address {
        octets,
        length: length as u8,
    })
}
