//! Updates as values and as octets: what they are, how they are joined, and that several are submitted together or not
//! at all.
use camel::{
    CapabilityHandling, Csis, Error, Imsi, ItemCounts, MAX_UPDATES, MapFault, OCriteria, Operation,
    Outcome, PreparedUpdate, Profile, Reason, Rejected, Row, Session, Store, TCriteria, Update,
    UpdateParts, Withdrawal,
};
use shared::{CRITERIA, ROWS, event, imsi, inserted, other_imsi, prepared, register, scf};

mod shared;

/// A DeleteSubscriberDataArg with camelSubscriptionInfoWithdraw, and a CancelLocationArg, both with the IMSI.
const DELETE: &[u8] = &[
    0x30, 0x0c, 0x80, 0x08, 0x62, 0x02, 0x01, 0x00, 0x00, 0x00, 0x00, 0xf1, 0x89, 0x00,
];
const CANCEL: &[u8] = &[
    0xa3, 0x0a, 0x04, 0x08, 0x62, 0x02, 0x01, 0x00, 0x00, 0x00, 0x00, 0xf1,
];

fn open() -> (Store, Session) {
    let (store, mut sessions) = Store::open(1, MAX_UPDATES, Profile::One, 1).unwrap();
    (store, sessions.remove(0))
}

/// What is decided of an event over all that is pending.
fn published(store: &mut Store, session: &mut Session, event: camel::Event) -> Outcome {
    session.learn(&store.publish().unwrap()).unwrap();
    session.decide(&event).unwrap().outcome
}

#[test]
fn an_update_says_what_it_is() {
    let imsi = imsi();
    let rows = |count| Some(vec![Row::new(3, 1, scf()); count]);
    let csis = Csis {
        o: rows(1),
        o_criteria: Some(vec![OCriteria::new(3); 2]),
        vt: rows(3),
        t_criteria: Some(vec![TCriteria::new(3); 4]),
    };
    let counts = ItemCounts {
        o: 1,
        o_criteria: 2,
        vt: 3,
        t_criteria: 4,
    };
    let what = Withdrawal {
        vt: true,
        ..Withdrawal::default()
    };
    let capabilities = CapabilityHandling::default();
    for (update, parts) in [
        (Update::Register { imsi }, UpdateParts::Register { imsi }),
        (
            Update::Insert { imsi, csis },
            UpdateParts::Insert {
                imsi,
                counts,
                capabilities,
            },
        ),
        (
            Update::Delete { imsi, what },
            UpdateParts::Delete { imsi, what },
        ),
        (Update::Cancel { imsi }, UpdateParts::Cancel { imsi }),
        (Update::ClearAll, UpdateParts::ClearAll),
    ] {
        assert_eq!(prepared(update).parts(), Ok(parts));
    }
}

/// The parts of an Insert of ROWS and so many CRITERIA.
fn parts_of_dialogue(o_criteria: u8) -> UpdateParts {
    let counts = ItemCounts {
        o: 1,
        o_criteria,
        ..ItemCounts::default()
    };
    let (o, vt) = (Some(3), None);
    UpdateParts::Insert {
        imsi: imsi(),
        counts,
        capabilities: CapabilityHandling { o, vt },
    }
}

#[test]
fn inserts_of_a_dialogue_are_joined() {
    let (mut store, mut session) = open();
    let mut of_key_5 = ROWS.to_vec();
    of_key_5[15] = 5;
    let rows = inserted(imsi(), &of_key_5).join(&inserted(imsi(), ROWS));
    let rows = rows.unwrap();
    assert_eq!(rows.parts(), Ok(parts_of_dialogue(0)));
    let insert = rows.join(&inserted(imsi(), CRITERIA)).unwrap();
    assert_eq!(insert.parts(), Ok(parts_of_dialogue(1)));
    for (next, error) in [
        (register(imsi()), Error::NoInsert),
        (inserted(other_imsi(), ROWS), Error::OtherSubscriber),
        (inserted(imsi(), CRITERIA), Error::UnexpectedDataValue),
    ] {
        assert_eq!(insert.join(&next).map(|_| ()), Err(error));
    }
    store.submit_all(&[register(imsi()), insert]).unwrap();
    let unmet = published(&mut store, &mut session, event());
    assert_eq!(unmet, Outcome::NoTrigger(Reason::Criteria));
    let met = published(&mut store, &mut session, event().forwarded());
    assert!(matches!(met, Outcome::Trigger { key: 9, .. }));
}

#[test]
fn octets_are_what_the_hlr_sends() {
    let (mut store, mut session) = open();
    store.submit(&Update::Register { imsi: imsi() }).unwrap();
    for (operation, argument, reason) in [
        (Operation::InsertSubscriberData, ROWS, None),
        (Operation::DeleteSubscriberData, DELETE, Some(Reason::NoCsi)),
        (Operation::CancelLocation, CANCEL, Some(Reason::Unknown)),
    ] {
        store.submit_map(operation, Some(imsi()), argument).unwrap();
        match published(&mut store, &mut session, event()) {
            Outcome::Trigger { key, .. } => assert_eq!((key, reason), (9, None)),
            Outcome::NoTrigger(why) => assert_eq!(Some(why), reason),
        }
    }
    let register = Update::Register {
        imsi: Imsi::from_tbcd(&CANCEL[4..]).unwrap(),
    };
    store.submit(&register).unwrap();
    assert_eq!(
        store.submit_map(Operation::CancelLocation, None, CANCEL),
        Ok(())
    );
}

#[test]
fn a_fault_has_its_place() {
    let (mut store, _) = open();
    let cut = &ROWS[..ROWS.len() - 1];
    let (insert, cancel) = (Operation::InsertSubscriberData, Operation::CancelLocation);
    for (operation, imsi, argument, error, place) in [
        (insert, Some(imsi()), cut, Error::MalformedOctets, Some(2)),
        (insert, Some(imsi()), &[], Error::MissingField, Some(0)),
        (insert, None, ROWS, Error::NoImsi, Some(0)),
        (
            cancel,
            Some(other_imsi()),
            CANCEL,
            Error::OtherImsi,
            Some(2),
        ),
    ] {
        let fault = MapFault { error, place };
        let refused = PreparedUpdate::from_map(operation, imsi, argument);
        assert_eq!(store.submit_map(operation, imsi, argument), Err(fault));
        assert_eq!(refused.map(|_| ()), Err(fault));
    }
    let (error, place) = (Error::UnidentifiedSubscriber, None);
    let fault = MapFault { error, place };
    assert_eq!(store.submit_map(insert, Some(imsi()), ROWS), Err(fault));
    assert_eq!(fault.to_string(), "the IMSI has no record (5)");
    let place = Some(2);
    let text = MapFault { error, place }.to_string();
    assert_eq!(text, "the IMSI has no record (5) at octet 2");
    assert_eq!((Error::from(fault), fault.code()), (error, 5));
}

#[test]
fn operations_have_their_codes() {
    for code in 0..=255 {
        let operation = Operation::of_code(code);
        assert_eq!(operation.is_some(), [3, 7, 8].contains(&code));
        assert!(operation.is_none_or(|operation| operation.code() == code));
    }
}

#[test]
fn a_list_that_came_has_items() {
    let (mut store, _) = open();
    let list = |at: usize| Csis {
        o: (at == 0).then(Vec::new),
        o_criteria: (at == 1).then(Vec::new),
        vt: (at == 2).then(Vec::new),
        t_criteria: (at == 3).then(Vec::new),
    };
    for at in 0..4 {
        let (imsi, csis) = (imsi(), list(at));
        let insert = Update::Insert { imsi, csis };
        let refused = PreparedUpdate::try_from(&insert);
        assert_eq!(refused.map(|_| ()), Err(Error::DataMissing));
        assert_eq!(store.submit(&insert), Err(Error::DataMissing));
    }
}

#[test]
fn updates_are_accepted_together_or_not_at_all() {
    let (mut store, mut session) = open();
    let mut updates = vec![register(imsi()), inserted(imsi(), ROWS)];
    assert_eq!(store.submit_all(&updates), Ok(()));
    updates.push(inserted(other_imsi(), ROWS));
    let (error, at) = (Error::UnidentifiedSubscriber, Some(2));
    let rejected = Rejected { error, at };
    assert_eq!(store.submit_all(&updates), Err(rejected));
    assert_eq!(
        rejected.to_string(),
        "the IMSI has no record (5) at update 2"
    );
    assert_eq!(store.submit_prepared(&updates[2]), Err(error));
    assert_eq!(store.submit_all(&[]), Ok(()));
    assert_eq!(store.counts().unwrap().pending, 2);
    assert!(published(&mut store, &mut session, event()).is_trigger());
    store.submit_prepared(&prepared(Update::ClearAll)).unwrap();
    store.drop_pending().unwrap();
    assert!(published(&mut store, &mut session, event()).is_trigger());
    assert_eq!(store.counts().unwrap().published, 2);
}
