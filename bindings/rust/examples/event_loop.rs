//! A switch with one event loop, over the crate `camel`: event_loop.c in Rust, which says what it reads and prints. It
//! has writer and session in one thread, and each handler leaves the store published. It takes the data of a subscriber
//! from one dialogue with the HLR at a time; what comes in another one waits for its end, and so do calls.
//!
//! In bindings/rust: `CAMEL_LIB_DIR=FOLDER cargo run --example event_loop`, with the whole path of libwenqolo.a's
//! folder.
use camel::{
    Address, Answer, BasicService, Cause, Error, Imsi, MAX_UPDATES, Operation, Outcome,
    PreparedUpdate, Profile, Reason, Session, Store, Update,
};
use std::collections::BTreeMap;
use std::{io, mem, slice, str};

/// A call: its called number, and the record of its set-up, which decides its later detection points.
struct Call {
    called: Address,
    kept: Option<camel::Subscriber>,
}

/// What may have to wait: an operation of the HLR, or a SETUP.
struct Event {
    operation: Option<Operation>,
    /// The number of the dialogue, or of the call.
    number: u32,
    /// The argument, or the called number.
    octets: Vec<u8>,
}

impl Event {
    fn name(&self) -> &'static str {
        match self.operation {
            None => "set-up",
            Some(Operation::InsertSubscriberData) => "insert",
            Some(Operation::DeleteSubscriberData) => "delete",
            Some(Operation::CancelLocation) => "cancel",
        }
    }

    /// Says what the HLR is answered, by the number of the error.
    fn answer(&self, answered: Result<(), Error>) {
        let (name, number) = (self.name(), self.number);
        match answered {
            Ok(()) => println!("    {name} {number}: done"),
            Err(error) => println!("    {name} {number}: refused {}", error.code()),
        }
    }
}

const LOCATION_UPDATE: u32 = 0;
/// So many octets of a called number count.
const LONGEST: usize = 20;

/// What the switch has of a subscriber beside the store.
struct Subscriber {
    imsi: Imsi,
    /// The next access sends updateLocation (TS 23.007).
    is_unconfirmed: bool,
    /// An updateLocation is to be sent once no dialogue is current.
    wants_update: bool,
    /// The dialogue whose data are taken: the location update, which may be a restoreData, or one that the HLR began
    /// and that has published something. The next three are of it.
    current: Option<u32>,
    /// A Register goes before its next operation.
    registers: bool,
    /// An InsertSubscriberData, also if it was refused.
    has_come: bool,
    /// The operations that are published, as one Insert.
    insert: Option<PreparedUpdate>,
    /// In their order.
    waiting: Vec<Event>,
    calls: BTreeMap<u32, Call>,
}

/// How a dialogue ends: well; by an error which says that there is no subscription; by any other one, or an abort.
#[derive(PartialEq)]
enum End {
    Well,
    Gone,
    Broken,
}

impl Subscriber {
    fn new(imsi: Imsi) -> Subscriber {
        Subscriber {
            imsi,
            is_unconfirmed: true,
            wants_update: false,
            current: None,
            registers: false,
            has_come: false,
            insert: None,
            waiting: Vec::new(),
            calls: BTreeMap::new(),
        }
    }

    /// The update of an operation: of an InsertSubscriberData one Insert, with what the dialogue has brought before.
    fn update_of(&self, operation: Operation, argument: &[u8]) -> Result<PreparedUpdate, Error> {
        let next = PreparedUpdate::from_map(operation, Some(self.imsi), argument)?;
        match &self.insert {
            Some(before) if operation == Operation::InsertSubscriberData => before.join(&next),
            _ => Ok(next),
        }
    }

    /// The current dialogue is from now on the one of this number, or none.
    fn turn_to(&mut self, number: Option<u32>) {
        self.insert = None;
        self.registers = number == Some(LOCATION_UPDATE);
        self.has_come = false;
        self.current = number;
    }

    /// The switch sends updateLocation. Its end does not confirm the data if anything makes them unconfirmed from here.
    fn begin_update(&mut self) {
        self.turn_to(Some(LOCATION_UPDATE));
        self.is_unconfirmed = false;
        self.wants_update = false;
        println!("    updateLocation");
    }

    /// Whether an event waits for the end of the current dialogue, all of whose operations are one Insert: it would
    /// undo another operation, and before its last one a call may meet rows without their criteria.
    fn waits(&self, event: &Event) -> bool {
        let is_of_current = event.operation.is_some() && self.current == Some(event.number);
        let is_cancel = event.operation == Some(Operation::CancelLocation);
        self.current.is_some() && !is_of_current && !is_cancel
    }

    /// Drops what waits of a dialogue or of a call. Returns whether there was any.
    fn drop_waiting(&mut self, is_call: bool, number: u32) -> bool {
        let count = self.waiting.len();
        let is_other =
            |event: &Event| event.number != number || is_call != event.operation.is_none();
        self.waiting.retain(is_other);
        self.waiting.len() < count
    }

    /// Either side clears a call, which may wait.
    fn on_clear(&mut self, number: u32) {
        self.drop_waiting(true, number);
        self.calls.remove(&number);
    }

    /// A call finds no way before it is answered.
    fn on_failure(&mut self, by: &mut Session, number: u32, cause: Cause) -> Result<(), Error> {
        let Some(call) = self.calls.remove(&number) else {
            return Ok(());
        };
        let basic = BasicService::Tele(0x11);
        let event = camel::Event::route_select_failure(self.imsi, basic, call.called, cause);
        if let Some(kept) = &call.kept {
            say("failure", number, &kept.decide(by, &event)?);
        }
        Ok(())
    }
}

struct Loop {
    store: Store,
    session: Session,
}

impl Loop {
    fn new() -> Result<Loop, Error> {
        let (store, mut sessions) =
            Store::open(1, MAX_UPDATES, Profile::One, camel::random_seed())?;
        let session = sessions.remove(0);
        Ok(Loop { store, session })
    }

    /// An operation, or a SETUP or a call for a roaming number. If the data are unconfirmed, a call waits for a
    /// location update.
    fn on_event(&mut self, subscriber: &mut Subscriber, event: Event) {
        let is_call = event.operation.is_none();
        if is_call && subscriber.is_unconfirmed && subscriber.current.is_none() {
            subscriber.begin_update();
        }
        if !subscriber.waits(&event) {
            self.handle(subscriber, &event);
            return;
        }
        println!("    {} {}: waits", event.name(), event.number);
        subscriber.waiting.push(event);
    }

    /// The subscriber asks for a location update.
    fn on_update(&mut self, subscriber: &mut Subscriber) {
        subscriber.wants_update = true;
        self.take_up(subscriber);
    }

    /// The end of a dialogue. Unless it is a good one, the data are unconfirmed, but not by a dialogue that brought
    /// nothing. A location update has failed if they are at its end.
    fn on_end(&mut self, subscriber: &mut Subscriber, number: u32, end: End) {
        let is_current = subscriber.current == Some(number);
        let is_update = is_current && number == LOCATION_UPDATE;
        let has_failed = is_update && self.end_update(subscriber, &end).is_err();
        let is_waiting = subscriber.drop_waiting(false, number);
        subscriber.is_unconfirmed |= is_waiting || has_failed || (is_current && end != End::Well);
        if is_update {
            let how = if subscriber.is_unconfirmed {
                "failed"
            } else {
                "done"
            };
            println!("    location update: {how}");
        }
        if is_current {
            subscriber.turn_to(None);
        }
        self.take_up(subscriber);
    }

    /// Publishes updates, and the session shows them from here on. What the HLR is answered as refused is never shown.
    fn commit(&mut self, updates: &[PreparedUpdate]) -> Result<(), Error> {
        let session = slice::from_mut(&mut self.session);
        Ok(self.store.commit(updates, session)?)
    }

    /// Publishes an operation, the first one of a location update behind a Register. What comes behind a
    /// DeleteSubscriberData is not joined to what came before.
    fn publish(
        &mut self,
        subscriber: &mut Subscriber,
        operation: Operation,
        argument: &[u8],
    ) -> Result<(), Error> {
        let imsi = subscriber.imsi;
        let mut updates = Vec::new();
        if subscriber.registers {
            updates.push(PreparedUpdate::new(&Update::Register { imsi })?);
        }
        updates.push(subscriber.update_of(operation, argument)?);
        self.commit(&updates)?;
        let is_insert = operation == Operation::InsertSubscriberData;
        subscriber.registers = false;
        subscriber.insert = updates.pop().filter(|_| is_insert);
        Ok(())
    }

    /// Takes an operation, and answers the HLR. If memory is refused, nothing of it is shown, and it is tried once
    /// more: a switch does so by a timer, and answers the HLR if that fails too. `Error::Held` does not come here,
    /// since each handler leaves its look.
    fn take(&mut self, subscriber: &mut Subscriber, operation: Operation, event: &Event) {
        let mut published = self.publish(subscriber, operation, &event.octets);
        if published == Err(Error::OutOfMemory) {
            published = self.publish(subscriber, operation, &event.octets);
        }
        if published.is_ok() {
            subscriber.current = Some(event.number);
        }
        subscriber.has_come |= operation == Operation::InsertSubscriberData;
        event.answer(published);
    }

    /// Takes a CancelLocation. What a location update still brings is refused then: it has no record.
    fn cancel(&mut self, subscriber: &mut Subscriber, event: &Event) {
        let update = subscriber.update_of(Operation::CancelLocation, &event.octets);
        let cancelled = update.and_then(|update| self.commit(&[update]));
        if cancelled.is_ok() {
            subscriber.is_unconfirmed = true;
            subscriber.registers = false;
        }
        event.answer(cancelled);
    }

    /// Decides a set-up, and keeps the record for the later detection points. Without memory for it these are not
    /// asked.
    fn set_up(&mut self, imsi: Imsi, octets: &[u8]) -> Result<(Answer, Call), Error> {
        let called = Address::new(&octets[..octets.len().min(LONGEST)])?;
        let event = camel::Event::collected_info(imsi, BasicService::Tele(0x11), called);
        let (answer, kept) = match self.session.set_up(&event) {
            Err(Error::OutOfMemory) => (self.session.decide(&event)?, None),
            decided => decided?,
        };
        Ok((answer, Call { called, kept }))
    }

    /// Takes a SETUP. No call is set up by unconfirmed data, since the record may have only a part of what the HLR
    /// sends, or without a record, as there is none if all data of the first location update were refused.
    fn decide(&mut self, subscriber: &mut Subscriber, event: &Event) {
        let number = event.number;
        if !subscriber.is_unconfirmed {
            match self.set_up(subscriber.imsi, &event.octets) {
                Ok((answer, _)) if answer.outcome == Outcome::NoTrigger(Reason::Unknown) => {
                    subscriber.is_unconfirmed = true;
                }
                Ok((answer, call)) => {
                    say("set-up", number, &answer);
                    subscriber.calls.insert(number, call);
                }
                Err(error) => println!("    set-up {number}: refused {}", error.code()),
            }
        }
        if subscriber.is_unconfirmed {
            println!("    set-up {number}: released with cause 41"); // temporary failure (Q.850)
        }
    }

    fn handle(&mut self, subscriber: &mut Subscriber, event: &Event) {
        match event.operation {
            None => self.decide(subscriber, event),
            Some(Operation::CancelLocation) => self.cancel(subscriber, event),
            Some(operation) => self.take(subscriber, operation, event),
        }
    }

    /// Takes up what does not wait any more.
    fn take_up(&mut self, subscriber: &mut Subscriber) {
        if subscriber.wants_update && subscriber.current.is_none() {
            subscriber.begin_update();
        }
        for event in mem::take(&mut subscriber.waiting) {
            if subscriber.waits(&event) {
                subscriber.waiting.push(event);
            } else {
                self.handle(subscriber, &event);
            }
        }
    }

    /// Without a subscription there is no record. If all went well and nothing came, the subscriber has no CSI. If an
    /// InsertSubscriberData was refused, the record that was there stays.
    fn end_update(&mut self, subscriber: &Subscriber, end: &End) -> Result<(), Error> {
        let imsi = subscriber.imsi;
        let update = match end {
            End::Gone => Update::Cancel { imsi },
            End::Well if subscriber.registers && !subscriber.has_come => Update::Register { imsi },
            End::Well | End::Broken => return Ok(()),
        };
        self.commit(&[PreparedUpdate::new(&update)?])
    }
}

fn say(what: &str, number: u32, answer: &Answer) {
    print!("    {what} {number}: front {}, ", answer.front);
    match answer.outcome {
        Outcome::NoTrigger(reason) => println!("no trigger, reason {}", reason.code()),
        Outcome::Trigger { dp, key, .. } => println!("DP {}, service key {key}", dp.number()),
    }
}

/// How a dialogue ends by an error (TS 29.002): unknownSubscriber, unknownEquipment or roamingNotAllowed, or any other
/// one, as systemFailure (34), by which there may be a subscription.
fn end_of(error: u32) -> End {
    match error {
        1 | 7 | 8 => End::Gone,
        _ => End::Broken,
    }
}

type Fault = Box<dyn std::error::Error>;

fn event_of(operation: Option<Operation>, number: u32, digits: &str) -> Result<Event, Fault> {
    let pairs = digits.as_bytes().chunks(2).map(str::from_utf8);
    let octets = pairs.map(|pair| Ok(u8::from_str_radix(pair?, 16)?));
    Ok(Event {
        operation,
        number,
        octets: octets.collect::<Result<_, Fault>>()?,
    })
}

/// A line: an event, and the number of its dialogue or call. A word says what the octets, the cause or the error is
/// that comes last. At the guard timer of a dialogue the switch aborts it.
fn on_line(switch: &mut Loop, subscriber: &mut Subscriber, line: &str) -> Result<(), Fault> {
    let words: Vec<&str> = line.split_whitespace().collect();
    let word = |at: usize| words.get(at).copied().unwrap_or_default();
    let number = words.get(1).map_or(Ok(0), |digits| digits.parse())?;
    let operation = match word(0) {
        "insert" => Some(Operation::InsertSubscriberData),
        "delete" => Some(Operation::DeleteSubscriberData),
        "cancel" => Some(Operation::CancelLocation),
        _ => None,
    };
    match word(0) {
        "set-up" | "insert" | "delete" | "cancel" => {
            switch.on_event(subscriber, event_of(operation, number, word(3))?);
        }
        "update" => switch.on_update(subscriber),
        "end" => switch.on_end(subscriber, number, End::Well),
        "error" => switch.on_end(subscriber, number, end_of(word(3).parse()?)),
        "abort" | "timer" => switch.on_end(subscriber, number, End::Broken),
        "reset" => subscriber.is_unconfirmed = true,
        "failure" => {
            let cause = Cause::of_octet(word(3).parse()?);
            subscriber.on_failure(&mut switch.session, number, cause)?
        }
        "clear" => subscriber.on_clear(number),
        "restart" => {
            *switch = Loop::new()?;
            *subscriber = Subscriber::new(subscriber.imsi);
        }
        _ => return Err(format!("no event: {line}").into()),
    }
    Ok(())
}

fn main() -> Result<(), Fault> {
    let mut switch = Loop::new()?;
    let mut subscriber = Subscriber::new("262010000000001".parse()?);
    for line in io::stdin().lines() {
        let line = line?;
        if line.starts_with(' ') {
            continue;
        }
        println!("{line}");
        if !line.is_empty() && !line.starts_with('#') {
            on_line(&mut switch, &mut subscriber, &line)?;
        }
    }
    Ok(())
}
