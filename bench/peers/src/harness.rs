//! Answers the words of the protocol with one of the stores.
use crate::data::{Event, STABLE, Update, said, weighed};
use crate::script::Script;
use crate::stores::{Prepared, Reader, Store, Writer};
use std::io::{self, BufRead, Write};
use std::sync::Barrier;
use std::thread;
use std::time::Instant;

fn nanoseconds_since(begin: Instant) -> u64 {
    begin.elapsed().as_nanos() as u64
}

fn prepared<W: Writer>(updates: Vec<Update>) -> Vec<W::Update> {
    updates.into_iter().filter_map(Prepared::of).collect()
}

fn prepared_calls<R: Reader>(events: Vec<Event>) -> Vec<R::Call> {
    events.into_iter().map(R::Call::from).collect()
}

/// The sum of what the decisions of calls say, with these bits of the service key. It is a function of its own, so that
/// the loop has all registers.
#[inline(never)]
fn sum_of<R: Reader>(reader: &mut R, calls: &[R::Call], key_bits: u32) -> u64 {
    (0..).zip(calls).fold(0, |sum: u64, (place, call)| {
        sum.wrapping_add(weighed(said(&reader.decide(call), key_bits), place))
    })
}

/// Prints the nanoseconds of each publication of the script, and the sum of the calls behind it.
pub fn publish_each<S: Store>(script: &mut Script<impl BufRead>) -> io::Result<()> {
    let (mut writer, mut readers) = S::open(1);
    let mut lines = String::new();
    while let Some(updates) = script.batch()? {
        let mut batch = prepared::<S::Writer>(updates);
        let begin = Instant::now();
        writer.publish(&mut batch);
        let nanoseconds = nanoseconds_since(begin);
        let calls = prepared_calls::<S::Reader>(script.calls()?);
        readers[0].enter();
        let sum = sum_of(&mut readers[0], &calls, u32::MAX);
        readers[0].leave();
        lines += &format!("{nanoseconds} {sum:016x}\n");
    }
    write!(io::stdout(), "{lines}")
}

/// Makes the publications of the script up to one of nothing. Returns the nanoseconds within them.
fn publish_all<W: Writer>(writer: &mut W, script: &mut Script<impl BufRead>) -> io::Result<u64> {
    let mut nanoseconds = 0;
    while let Some(updates) = script.batch()? {
        let is_last = updates.is_empty();
        let mut batch = prepared::<W>(updates);
        let begin = Instant::now();
        writer.publish(&mut batch);
        nanoseconds += nanoseconds_since(begin);
        if is_last {
            break;
        }
    }
    Ok(nanoseconds)
}

/// Fills a store by the script, has readers decide its calls so many times, and a writer make its further publications
/// beside them. Prints what each took, and the sum of the calls in the end.
pub fn run<S: Store>(
    script: &mut Script<impl BufRead + Send>,
    readers: usize,
    rounds: u64,
) -> io::Result<()> {
    // One reader more looks at the data in the end.
    let (mut writer, mut sessions) = S::open(readers + 1);
    publish_all(&mut writer, script)?;
    let calls = &prepared_calls::<S::Reader>(script.calls()?);
    let start = &Barrier::new(readers + 1);
    let (last, sessions) = sessions.split_last_mut().expect("one reader more");
    let read = |session: &mut S::Reader| {
        session.enter();
        start.wait();
        let begin = Instant::now();
        let sum = (0..rounds).fold(0_u64, |sum, _| {
            sum.wrapping_add(sum_of(session, calls, STABLE))
        });
        let nanoseconds = nanoseconds_since(begin);
        session.leave();
        (nanoseconds, sum)
    };
    let (read, publishing) = thread::scope(|scope| {
        let reading: Vec<_> = sessions
            .iter_mut()
            .map(|session| scope.spawn(move || read(session)))
            .collect();
        start.wait();
        let publishing = publish_all(&mut writer, script);
        let read: Vec<_> = reading
            .into_iter()
            .map(|thread| thread.join().expect("a thread ends without a panic"))
            .collect();
        (read, publishing)
    });
    let mut output = io::stdout().lock();
    for (nanoseconds, sum) in read {
        writeln!(output, "reader {nanoseconds} {sum:016x}")?;
    }
    let probes = prepared_calls::<S::Reader>(script.calls()?);
    last.enter();
    let data = sum_of(last, &probes, u32::MAX);
    last.leave();
    writeln!(output, "writer {} {data:016x}", publishing?)
}
