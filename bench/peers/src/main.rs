//! `peers NAME WORD..` answers the words of the protocol in `bench/README.md` with the store of that name, over a
//! script on standard input.
mod block;
mod data;
mod fast_hash;
mod harness;
mod left_right;
mod script;
mod slot;
mod stores;

use crate::block::Block;
use crate::script::Script;
use crate::slot::Slot;
use crate::stores::Store;
use std::env;
use std::io::{self, BufReader, Error};

fn main() -> io::Result<()> {
    let words: Vec<_> = env::args().skip(1).collect();
    let [name, word, numbers @ ..] = &words[..] else {
        return Err(Error::other("the words are NAME WORD N.."));
    };
    let numbers: Result<Vec<u64>, _> = numbers.iter().map(|number| number.parse()).collect();
    let numbers = numbers.map_err(Error::other)?;
    match name.as_str() {
        "lock-tree" => answer::<stores::maps::LockTree>(word, &numbers),
        "dashmap" => answer::<stores::maps::DashMapStore>(word, &numbers),
        "leftright-hash" => answer::<stores::maps::LeftRight<Block>>(word, &numbers),
        "leftright-flat72" => answer::<stores::maps::LeftRight<Slot>>(word, &numbers),
        "urcu-qsbr" => answer::<stores::urcu_qsbr::Urcu>(word, &numbers),
        #[cfg(feature = "library")]
        "libwenqolo" => answer::<stores::library::Library>(word, &numbers),
        _ => Err(Error::other("no such store")),
    }
}

fn answer<S: Store>(word: &str, numbers: &[u64]) -> io::Result<()> {
    let mut script = Script::new(BufReader::new(io::stdin()));
    match (word, numbers) {
        ("each", []) => harness::publish_each::<S>(&mut script),
        ("run", [readers, rounds]) => harness::run::<S>(&mut script, *readers as usize, *rounds),
        _ => Err(Error::other("these are no words of the protocol")),
    }
}
