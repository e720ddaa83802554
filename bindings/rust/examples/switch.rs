//! A switch to begin with, over the crate `camel`: a writer, two call-control threads, receipts over a queue of the
//! switch's own, a location update of which the HLR splits the data, a publication that is held and tried again, a
//! restart, the data of a call kept from detection point 2 to 4, and the end. It does what switch.c does, and prints
//! the same. It ends with status 1 at the first call that does not do what is expected.
//!
//! In bindings/rust: `CAMEL_LIB_DIR=FOLDER cargo run --example switch`, with the whole path of libwenqolo.a's folder.
use camel::{
    Address, Answer, Argument, BasicService, Cause, Error, Event, Imsi, MAX_UPDATES, MapFault,
    OnFailure, Operation, Outcome, PreparedUpdate, Profile, Receipt, Session, Store, Update,
    UpdateParts, Withdrawal,
};
use std::sync::{Arc, Mutex};
use std::thread;

const THREADS: usize = 2;
const CALLS: u64 = 10_000;

/// What went wrong, in words.
type Outcomes<T> = Result<T, Box<dyn std::error::Error + Send + Sync>>;

/// Fails if a call does not fail with this error.
fn expect<T>(what: &str, result: Result<T, Error>, wanted: Error) -> Outcomes<()> {
    match result {
        Err(error) if error == wanted => Ok(()),
        Err(error) => Err(format!("{what}: {error}, and not {wanted}").into()),
        Ok(_) => Err(format!("{what}: it went through, and not {wanted}").into()),
    }
}

/// One receipt on its way to a thread: the writer puts it there, and the thread takes it.
#[derive(Clone, Default)]
struct Queue(Arc<Mutex<Option<Receipt>>>);

impl Queue {
    /// Puts a receipt in the place of one that was not taken, since a later receipt says more.
    fn put(&self, receipt: Receipt) -> Outcomes<()> {
        *self.0.lock().map_err(|_| "a thread panicked")? = Some(receipt);
        Ok(())
    }

    fn take(&self) -> Outcomes<Option<Receipt>> {
        Ok(self.0.lock().map_err(|_| "a thread panicked")?.take())
    }
}

/// A call-control thread: its session, what comes from the writer, the call that it decides, and how many triggered.
fn decide_calls(session: &mut Session, queue: &Queue, event: &Event) -> Outcomes<u64> {
    let (mut front, mut triggered) = (0, 0);
    for _ in 0..CALLS {
        if let Some(receipt) = queue.take()? {
            session.learn(&receipt)?;
        }
        let answer = session.decide(event)?;
        if answer.front < front {
            return Err("a session went back".into());
        }
        front = answer.front;
        triggered += u64::from(answer.outcome.is_trigger());
    }
    Ok(triggered)
}

fn destination() -> Result<Address, Error> {
    Address::new(&[0x91, 0x34, 0x61, 0x05])
}

fn set_up_of(imsi: Imsi) -> Result<Event, Error> {
    Ok(Event::collected_info(
        imsi,
        BasicService::Tele(0x11),
        destination()?,
    ))
}

fn failure_of(imsi: Imsi) -> Result<Event, Error> {
    Ok(Event::route_select_failure(
        imsi,
        BasicService::Tele(0x11),
        destination()?,
        Cause::new(1)?,
    ))
}

fn say(what: &str, answer: &Answer) {
    print!("{what}: front {}, ", answer.front);
    match answer.outcome {
        Outcome::NoTrigger(reason) => println!("no trigger, reason {}", reason.code()),
        Outcome::Trigger {
            dp,
            key,
            scf,
            on_failure,
        } => {
            let handling = if on_failure == OnFailure::Release {
                "release"
            } else {
                "continue"
            };
            println!(
                "DP {}, service key {key}, gsmSCF {scf}, {handling}",
                dp.number()
            );
        }
    }
}

/// The IMSIs 262010000000001 and 262010000000002, in TBCD octets as the dialogues with the HLR have them.
const IMSI: &[u8] = &[0x62, 0x02, 0x01, 0x00, 0x00, 0x00, 0x00, 0xf1];
const OTHER: &[u8] = &[0x62, 0x02, 0x01, 0x00, 0x00, 0x00, 0x00, 0xf2];

/// What the HLR sends of a subscriber, in two operations of one dialogue, each as it comes in a TCAP invoke: rows at 2
/// and 4, and at 4 only for a destination that begins with 4316.
#[rustfmt::skip]
const ROWS: &[u8] = &[
    0x30, 0x2f, 0xad, 0x2d,                         // InsertSubscriberDataArg, vlrCamelSubscriptionInfo [13]
    0xa0, 0x2b, 0x30, 0x26,                         // o-CSI [0], its o-BcsmCamelTDPDataList
    0x30, 0x11, 0x0a, 0x01, 0x02, 0x02, 0x01, 0x64, // a row: detection point 2, serviceKey 100,
    0x80, 0x06, 0x91, 0x94, 0x71, 0x16, 0x00, 0x00, // gsmSCF-Address [0],
    0x81, 0x01, 0x00,                               // defaultCallHandling [1] continueCall
    0x30, 0x11, 0x0a, 0x01, 0x04, 0x02, 0x01, 0x65, // a row: detection point 4, serviceKey 101,
    0x80, 0x06, 0x91, 0x94, 0x71, 0x16, 0x00, 0x00, // gsmSCF-Address [0],
    0x81, 0x01, 0x01,                               // defaultCallHandling [1] releaseCall
    0x80, 0x01, 0x03,                               // camelCapabilityHandling [0]: phase 3
];
#[rustfmt::skip]
const CRITERIA: &[u8] = &[
    0x30, 0x15, 0xad, 0x13,                         // InsertSubscriberDataArg, vlrCamelSubscriptionInfo [13]
    0xa4, 0x11, 0x30, 0x0f, 0x0a, 0x01, 0x04,       // o-BcsmCamelTDP-CriteriaList [4]: detection point 4,
    0xa0, 0x0a, 0x80, 0x01, 0x01,                   // destinationNumberCriteria [0], matchType [0] enabling,
    0xa1, 0x05, 0x04, 0x03, 0x91, 0x34, 0x61,       // destinationNumberList [1]
];

/// What an argument of the HLR brings, in the dialogue of an IMSI.
fn decode(imsi: Imsi, argument: &[u8]) -> Result<PreparedUpdate, MapFault> {
    PreparedUpdate::from_map(Operation::InsertSubscriberData, Some(imsi), argument)
}

/// A location update: a Register, which empties the record, and behind it what the HLR sends in the dialogue, as one
/// Insert. Both are accepted, or neither is. The HLR is answered by the first error, or once both are published. Here
/// both operations have come in one TCAP message; `event_loop.rs` also takes one after the other.
fn update_location(store: &mut Store, imsi: Imsi) -> Outcomes<()> {
    let register = PreparedUpdate::new(&Update::Register { imsi })?;
    let insert = decode(imsi, ROWS)?.join(&decode(imsi, CRITERIA)?)?;
    let updates = [register, insert];
    store.submit_all(&updates)?;
    store.publish()?;
    if let UpdateParts::Insert {
        counts,
        capabilities,
        ..
    } = updates[1].parts()?
    {
        println!(
            "a location update: rows {}, criteria {}, CAMEL phase {}",
            counts.o,
            counts.o_criteria,
            capabilities.o.unwrap_or(1)
        );
    }
    Ok(())
}

/// Publishes, and hands each thread the receipt.
fn publish_to(store: &mut Store, queues: &[Queue]) -> Outcomes<()> {
    let receipt = store.publish()?;
    queues.iter().try_for_each(|queue| queue.put(receipt))
}

/// Runs the call-control threads, each with its session, and gives back the sessions.
fn run_calls(store: &mut Store, sessions: Vec<Session>, imsi: Imsi) -> Outcomes<Vec<Session>> {
    let event = set_up_of(imsi)?;
    let queues: Vec<_> = sessions.iter().map(|_| Queue::default()).collect();
    publish_to(store, &queues)?;
    let threads: Vec<_> = (sessions.into_iter().zip(queues.iter().cloned()))
        .map(|(mut session, queue)| {
            thread::spawn(move || {
                decide_calls(&mut session, &queue, &event).map(|triggered| (session, triggered))
            })
        })
        .collect();
    let mut sessions = Vec::new();
    for (number, thread) in threads.into_iter().enumerate() {
        let (session, triggered) = thread.join().map_err(|_| "a thread ended by a panic")??;
        println!("thread {number}: {CALLS} calls, {triggered} triggered");
        sessions.push(session);
    }
    Ok(sessions)
}

/// A look lets the first publication through, and holds up the second one.
fn hold_publications(store: &mut Store, session: &mut Session, other: Imsi) -> Outcomes<()> {
    let look = session.look()?;
    store.submit(&Update::Register { imsi: other })?;
    store.publish()?;
    store.submit(&Update::Cancel { imsi: other })?;
    expect("a publication behind a look", store.publish(), Error::Held)?;
    if !store.holders()?.eq([THREADS]) {
        return Err("another session holds the publication up".into());
    }
    look.leave();
    store.publish()?;
    println!("a publication was held, and made again");
    Ok(())
}

/// What goes through a restart: of each record the IMSI, and the argument that makes it, all of one front. A switch has
/// them in a file.
fn dump(session: &mut Session) -> Outcomes<Vec<(Imsi, Argument)>> {
    let look = session.look()?;
    let mut records = Vec::new();
    for imsi in look.imsis()? {
        let argument = look.encode_record(imsi)?;
        records.push((imsi, argument.ok_or("there is no record to encode")?));
    }
    Ok(records)
}

/// A store opens empty. Restored from the records of the one before, it knows each subscriber.
fn restart(session: &mut Session, imsi: Imsi) -> Outcomes<()> {
    let records = dump(session)?;
    let (mut restored, mut sessions) =
        Store::open(1, MAX_UPDATES, Profile::One, camel::random_seed())?;
    for (imsi, argument) in &records {
        let register = PreparedUpdate::new(&Update::Register { imsi: *imsi })?;
        restored.submit_all(&[register, decode(*imsi, argument)?])?;
    }
    restored.publish()?;
    println!("records that go through a restart: {}", records.len());
    let answer = sessions[0].decide(&set_up_of(imsi)?)?;
    say("set-up after the restart", &answer);
    Ok(())
}

/// A call keeps the record of its set-up, whatever the HLR sends meanwhile.
fn keep_data(store: &mut Store, session: &mut Session, imsi: Imsi) -> Outcomes<()> {
    let (set_up, failure) = (set_up_of(imsi)?, failure_of(imsi)?);
    let (answer, kept) = session.set_up(&set_up)?;
    let kept = kept.ok_or("there is no record to keep")?;
    say("set-up", &answer);
    let what = Withdrawal {
        everything: true,
        ..Withdrawal::default()
    };
    store.submit(&Update::Delete { imsi, what })?;
    store.publish()?;
    say(
        "route select failure, by the data of the set-up",
        &kept.decide(session, &failure)?,
    );
    say("the same by a new look", &session.decide(&failure)?);
    Ok(())
}

fn main() -> Outcomes<()> {
    let (mut store, mut sessions) =
        Store::open(THREADS + 1, MAX_UPDATES, Profile::One, camel::random_seed())?;
    let mut own = sessions.pop().ok_or("there is no session")?;
    let (imsi, other) = (Imsi::from_tbcd(IMSI)?, Imsi::from_tbcd(OTHER)?);
    update_location(&mut store, imsi)?;
    let refused = store.submit_map(Operation::InsertSubscriberData, Some(other), ROWS);
    expect(
        "data of a subscriber who is not registered",
        refused.map_err(Error::from),
        Error::UnidentifiedSubscriber,
    )?;
    let sessions = run_calls(&mut store, sessions, imsi)?;
    hold_publications(&mut store, &mut own, other)?;
    restart(&mut own, imsi)?;
    keep_data(&mut store, &mut own, imsi)?;

    let look = own.look()?;
    let Err(closing) = store.close() else {
        return Err("the store ended behind a look".into());
    };
    expect(
        "an end behind a look",
        Err::<(), _>(closing.why()),
        Error::Held,
    )?;
    look.leave();
    closing.close().map_err(|closing| closing.why())?;
    expect("a look behind the end", own.look(), Error::NoLook)?;
    drop((own, sessions));
    println!("the store has ended");
    Ok(())
}
