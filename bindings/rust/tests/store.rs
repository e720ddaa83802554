//! What the crate makes of the library's handles: looks that are left, stores that come back, sessions that are told.
use camel::{
    Address, Answer, BasicService, CallType, Cause, Closing, Counts, Csis, Decisions,
    DetectionPoint, Error, Event, Imsi, Imsis, MAX_SESSIONS, MAX_UPDATES, OCriteria, OnFailure,
    Outcome, PreparedUpdate, Profile, Reason, Receipt, Rejected, Row, Session, Store, Subscriber,
    Update,
};
use shared::{ROWS, busy, event, event_of, imsi, inserted, other_imsi, prepared, register, scf};
use std::{mem, thread};

mod shared;

/// Lists with one row, for calls that are not forwarded.
fn insert(key: u32) -> Update {
    let csis = Csis {
        o: Some(vec![Row::new(2, key, scf()).with_handling(32)]),
        o_criteria: Some(vec![
            OCriteria::new(2).with_call_type(CallType::NotForwarded),
        ]),
        ..Csis::default()
    };
    Update::Insert { imsi: imsi(), csis }
}

/// A store of which two updates are published, and two sessions that learnt it.
fn open() -> (Store, Session, Session) {
    let (mut store, mut sessions) =
        Store::open(2, MAX_UPDATES, Profile::One, camel::random_seed()).unwrap();
    store.submit(&Update::Register { imsi: imsi() }).unwrap();
    store.submit(&insert(5)).unwrap();
    let receipt = store.publish().unwrap();
    let (mut one, mut two) = (sessions.remove(0), sessions.remove(0));
    one.learn(&receipt).unwrap();
    two.learn(&receipt).unwrap();
    (store, one, two)
}

fn trigger(front: u64, key: u32) -> Result<Answer, Error> {
    let outcome = Outcome::Trigger {
        dp: DetectionPoint::CollectedInfo,
        key,
        scf: scf(),
        on_failure: OnFailure::Release,
    };
    Ok(Answer { front, outcome })
}

fn no_trigger(front: u64, reason: Reason) -> Result<Answer, Error> {
    let outcome = Outcome::NoTrigger(reason);
    Ok(Answer { front, outcome })
}

#[test]
fn a_store_is_opened_in_its_ranges() {
    let opened = |sessions, limit| {
        Store::open(sessions, limit, Profile::Two, 1).map(|(_, sessions)| sessions.len())
    };
    assert_eq!(opened(64, 1), Ok(64));
    assert_eq!(opened(1, MAX_UPDATES), Ok(1));
    for (sessions, limit) in [(0, 1), (65, 1), (usize::MAX, 1), (1, MAX_UPDATES + 1)] {
        let refused = opened(sessions, limit);
        assert_eq!(refused, Err(Error::Malformed), "{sessions} {limit}");
    }
}

#[test]
fn a_receipt_is_of_its_store() {
    let (store, mut session, _) = open();
    let (other, mut of_other, _) = open();
    let receipt = other.receipt().unwrap();
    assert_eq!(receipt.front(), 2);
    assert_eq!(session.learn(&receipt), Err(Error::OtherStore));
    assert_eq!(of_other.learn(&receipt), Ok(()));
    assert_eq!(session.learn(&store.receipt().unwrap()), Ok(()));
    drop(other);
    assert_eq!(of_other.learn(&receipt), Err(Error::NoLook));
}

#[test]
fn a_store_that_is_held_comes_back() {
    let (store, mut session, mut other) = open();
    let look = session.look().unwrap();
    let closing = store.close().unwrap_err().close().unwrap_err();
    assert_eq!(closing.why(), Error::Held);
    assert_eq!(other.decide(&event()), Err(Error::NoLook));
    assert_eq!(look.decide(&event()), trigger(2, 5));
    look.leave();
    assert!(closing.close().is_ok());
    assert!(matches!(session.look(), Err(Error::NoLook)));
}

#[test]
fn a_look_keeps_its_data_when_its_store_goes() {
    fn close(store: Store) -> Result<(), Error> {
        store.close()?;
        Ok(())
    }
    let ends: [fn(Store); 3] = [
        drop,
        |store| drop(store.close().unwrap_err()),
        |store| assert_eq!(close(store), Err(Error::Held)),
    ];
    for end in ends {
        let (mut store, mut session, mut other) = open();
        let look = session.look().unwrap();
        store.submit(&insert(6)).unwrap();
        store.publish().unwrap();
        end(store);
        assert_eq!(look.decide(&event()), trigger(2, 5));
        assert_eq!(other.decide(&event()), Err(Error::NoLook));
        drop(look);
        assert_eq!(session.decide(&event()), Err(Error::NoLook));
    }
}

#[test]
fn looks_hold_the_second_publication_up() {
    let (mut store, mut sessions) = Store::open(64, MAX_UPDATES, Profile::One, 1).unwrap();
    let register = Update::Register { imsi: imsi() };
    let looks: Vec<_> = sessions
        .iter_mut()
        .step_by(21)
        .map(|session| session.look().unwrap())
        .collect();
    store.submit(&register).unwrap();
    store.submit(&register).unwrap();
    assert_eq!(store.holders().unwrap().count(), 0);
    store.publish().unwrap();
    for _ in 0..3 {
        store.submit(&register).unwrap();
        assert_eq!(store.publish(), Err(Error::Held));
    }
    assert_eq!(store.publish(), Err(Error::Held));
    assert!(store.holders().unwrap().eq([0, 21, 42, 63]));
    let counts = store.counts().unwrap();
    assert_eq!((counts.subscribers, counts.published), (1, 2));
    assert_eq!((counts.pending, counts.held), (3, 4));
    drop(looks);
    assert_eq!(store.holders().unwrap().bits(), 0);
    assert_eq!(store.publish().map(|receipt| receipt.front()), Ok(5));
}

#[test]
fn a_look_that_is_forgotten_is_left_by_the_next_call() {
    let calls: [fn(&mut Store, &mut [Session]); 5] = [
        |_, sessions| _ = sessions[0].decide(&event()).unwrap(),
        |store, sessions| sessions[0].learn(&store.receipt().unwrap()).unwrap(),
        |_, sessions| sessions[0].look().unwrap().leave(),
        |store, sessions| store.publish_to(sessions).unwrap(),
        |store, sessions| store.commit(&[prepared(insert(6))], sessions).unwrap(),
    ];
    for call in calls {
        let (mut store, one, two) = open();
        let mut sessions = [one, two];
        mem::forget(sessions[0].look().unwrap());
        store.publish().unwrap();
        assert_eq!(store.publish(), Err(Error::Held));
        call(&mut store, &mut sessions);
        assert!(store.publish_to(&mut sessions).is_ok());
        mem::forget(sessions[0].look().unwrap());
        drop(sessions);
        assert!(store.close().is_ok());
    }
}

#[test]
fn sessions_that_cannot_learn_stay_as_they_are() {
    let (mut store, one, two) = open();
    let (_other, foreign, _) = open();
    let (_many, mut many) = Store::open(MAX_SESSIONS, 1, Profile::One, 1).unwrap();
    let updates = [prepared(insert(7))];
    let rejected = |error| Err(Rejected { error, at: None });
    let mut sessions = [one, two, foreign];
    store.submit(&insert(6)).unwrap();
    for _ in 0..sessions.len() {
        assert_eq!(store.publish_to(&mut sessions), Err(Error::OtherStore));
        let committed = store.commit(&updates, &mut sessions);
        assert_eq!(committed, rejected(Error::OtherStore));
        sessions.rotate_left(1);
    }
    let [one, two, foreign] = sessions;
    many.push(foreign);
    assert_eq!(store.publish_to(&mut many), Err(Error::Malformed));
    let committed = store.commit(&updates, &mut many);
    assert_eq!(committed, rejected(Error::Malformed));
    let mut sessions = [one, two];
    assert_eq!(store.publish_to(&mut sessions), Ok(()));
    for session in &mut sessions {
        assert_eq!(session.decide(&event()), trigger(3, 6));
    }
}

#[test]
fn updates_are_committed_to_sessions_or_not_shown() {
    let (mut store, one, two) = open();
    let mut sessions = [one, two];
    let mut updates = vec![register(imsi()), inserted(imsi(), ROWS)];
    store.submit(&Update::ClearAll).unwrap();
    assert_eq!(store.commit(&updates, &mut sessions), Ok(()));
    updates.push(inserted(other_imsi(), ROWS));
    let (error, at) = (Error::UnidentifiedSubscriber, Some(2));
    let committed = store.commit(&updates, &mut sessions);
    assert_eq!(committed, Err(Rejected { error, at }));
    for session in &mut sessions {
        let answer = session.decide(&event()).unwrap();
        assert!(answer.front == 4 && answer.outcome.is_trigger());
    }
}

#[test]
fn a_call_keeps_the_record_of_its_set_up() {
    let (mut store, one, two) = open();
    let mut sessions = [one, two];
    let (answer, by_set_up) = sessions[0].set_up(&event()).unwrap();
    assert_eq!(Ok(answer), trigger(2, 5));
    let look = sessions[1].look().unwrap();
    store.submit(&insert(6)).unwrap();
    store.publish().unwrap();
    let (answer, by_look) = look.set_up(&event()).unwrap();
    assert_eq!(Ok(answer), trigger(2, 5));
    let by_keep = look.keep(imsi()).unwrap();
    look.leave();
    store.publish_to(&mut sessions).unwrap();
    assert_eq!(sessions[0].decide(&event()), trigger(3, 6));
    let (answer, unknown) = sessions[0].set_up(&event_of(other_imsi())).unwrap();
    assert_eq!(Ok(answer), no_trigger(3, Reason::Unknown));
    assert!(unknown.is_none() && matches!(sessions[0].keep(other_imsi()), Ok(None)));
    assert!(store.close().is_ok());
    let [mut session, _] = sessions;
    for kept in [by_set_up, by_look, by_keep] {
        let kept = kept.unwrap();
        assert_eq!(kept.decide(&mut session, &event()), trigger(2, 5));
        assert_eq!(
            kept.decide(&mut session, &busy()),
            no_trigger(2, Reason::NoCsi)
        );
    }
}

#[test]
fn decisions_are_counted_by_detection_point_and_reason() {
    let (_store, mut session, other) = open();
    let (tele, emergency) = (BasicService::Tele(0x11), BasicService::Tele(0x12));
    let destination = Address::new(&[0x81]).unwrap();
    let failed = Event::route_select_failure(imsi(), tele, destination, Cause::of_octet(0x80));
    let emergency = Event::collected_info(imsi(), emergency, destination);
    let dp = DetectionPoint::CollectedInfo;
    let cases = [
        (event_of(other_imsi()), dp, Reason::Unknown),
        (emergency, dp, Reason::Emergency),
        (failed, DetectionPoint::RouteSelectFailure, Reason::NotArmed),
        (busy(), DetectionPoint::Busy, Reason::NoCsi),
        (event().forwarded(), dp, Reason::Criteria),
    ];
    for (times, (event, _, reason)) in cases.iter().enumerate() {
        for _ in 0..=times {
            assert_eq!(session.decide(event), no_trigger(2, *reason));
        }
    }
    let (_, kept) = session.set_up(&event()).unwrap();
    session.look().unwrap().decide(&event()).unwrap();
    kept.unwrap().decide(&mut session, &event()).unwrap();
    let decisions = session.decisions().unwrap();
    for (times, (_, dp, reason)) in cases.into_iter().enumerate() {
        let counted = decisions.not_triggered(dp, reason);
        assert_eq!(counted, times as u64 + 1, "{reason:?}");
    }
    assert_eq!((decisions.triggered(dp), decisions.at(dp)), (3, 11));
    assert_eq!(decisions.total(), 18);
    assert_eq!(other.decisions().unwrap().total(), 0);
}

#[test]
fn handles_move_between_threads() {
    fn is_send<T: Send>() {}
    fn is_read<T: Send + Sync>() {}
    fn is_shared<T: Copy + Send + Sync>() {}
    is_send::<(Closing, Update, Event, Imsis)>();
    is_read::<(Subscriber, PreparedUpdate)>();
    is_shared::<(Receipt, Counts, Decisions, Imsi, Answer)>();
    let (store, mut session, mut other) = open();
    let receipt = store.receipt().unwrap();
    let ended = thread::spawn(move || {
        session.learn(&receipt).unwrap();
        (session.decide(&event()), store.close().is_ok())
    });
    assert_eq!(ended.join().unwrap(), (trigger(2, 5), true));
    assert_eq!(other.learn(&receipt), Err(Error::NoLook));
}

#[test]
fn threads_share_updates_and_a_record() {
    let (_store, mut session, _) = open();
    let kept = session.keep(imsi()).unwrap().unwrap();
    let updates = [register(imsi()), inserted(imsi(), ROWS)];
    let by_one = || {
        let (mut store, mut sessions) = Store::open(1, MAX_UPDATES, Profile::One, 1).unwrap();
        for front in 1..=100 {
            store.commit(&updates, &mut sessions).unwrap();
            let answer = sessions[0].decide(&event()).unwrap();
            assert!(answer.front == 2 * front && answer.outcome.is_trigger());
            assert_eq!(kept.decide(&mut sessions[0], &event()), trigger(2, 5));
        }
    };
    thread::scope(|scope| {
        for _ in 0..4 {
            scope.spawn(by_one);
        }
    });
}
