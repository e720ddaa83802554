//! IMSIs, addresses, rows, criteria and records: what is made, what is refused, and what a store gives back.
use camel::{
    Address, BasicService, CallType, Cause, Criteria, Csis, Error, Event, Imsi, IsdnAddress,
    MAX_ARGUMENT, MatchType, NumberCriterion, OCriteria, Outcome, PreparedUpdate, Profile, Reason,
    Row, Session, Store, TCriteria, Update,
};
use shared::{POINTS, imsi, inserted, other_imsi, register, scf};

mod shared;

#[test]
fn an_imsi_gives_its_digits_back() {
    for count in 5..=15 {
        let digits = &"012345678901234"[..count];
        let imsi = Imsi::from_digits(digits).unwrap();
        assert_eq!(&*imsi.digits(), digits);
        assert_eq!(imsi.to_string(), digits);
        assert_eq!(format!("{imsi:?}"), format!("Imsi({digits})"));
        assert_eq!(imsi.tbcd().len(), count.div_ceil(2));
        assert_eq!(Imsi::from_tbcd(&imsi.tbcd()), Ok(imsi));
    }
    let imsi = Imsi::from_digits("26201").unwrap();
    assert_eq!(*imsi.tbcd(), [0x62, 0x02, 0xf1]);
    assert_eq!(format!("[{imsi:>7}]"), "[  26201]");
    assert_eq!("26201".parse(), Ok(imsi));
    assert_eq!("2620a".parse::<Imsi>(), Err(Error::Malformed));
    assert_eq!(Imsi::from_tbcd(&[0x62, 0x02]), Err(Error::Malformed));
    let imsis = ["00001", "99999", "000001", "000002"];
    let imsis = imsis.map(|digits| Imsi::from_digits(digits).unwrap());
    assert!(imsis.is_sorted_by(|one, next| one < next));
}

#[test]
fn an_address_is_its_octets() {
    for count in 0..=21 {
        let octets = vec![0x91; count];
        let (address, number) = (Address::new(&octets), IsdnAddress::new(&octets));
        let made = |most| match count {
            count if (1..=most).contains(&count) => Ok(&octets[..]),
            _ => Err(&Error::Malformed),
        };
        assert_eq!(address.as_ref().map(Address::octets), made(20));
        assert_eq!(number.as_ref().map(IsdnAddress::octets), made(9));
    }
    assert_eq!(scf().to_string(), "919471");
    assert_eq!(Address::try_from(scf().octets()), Ok(Address::from(scf())));
    assert_ne!(Address::new(&[0x91, 0x94, 0x72]), Ok(Address::from(scf())));
}

#[test]
fn causes_have_seven_bits() {
    assert_eq!(Cause::new(127).map(Cause::value), Ok(127));
    assert_eq!(Cause::new(128), Err(Error::Malformed));
    assert_eq!(Cause::of_octet(0x91).value(), 17);
}

#[test]
fn lists_have_their_room() {
    let malformed = |is_refused: bool| is_refused.then_some(Error::Malformed);
    let (numbers, lengths) = ([scf(); 11], [1; 4]);
    for (number_count, length_count) in [(10, 3), (11, 3), (10, 4)] {
        let lists = (&numbers[..number_count], &lengths[..length_count]);
        let criterion = NumberCriterion::new(MatchType::Enabling, lists.0, lists.1);
        assert_eq!(criterion.err(), malformed(number_count + length_count > 13));
    }
    let (services, causes) = ([BasicService::Tele(0x11); 6], [Cause::of_octet(16); 6]);
    let (o, t) = (OCriteria::new(4), TCriteria::new(13));
    for count in 5..=6 {
        let (services, causes) = (&services[..count], &causes[..count]);
        let of_o = [o.with_basic(services), o.with_causes(causes)];
        let of_t = [t.with_basic(services), t.with_causes(causes)];
        assert_eq!(of_o.map(Result::err), [malformed(count > 5); 2]);
        assert_eq!(of_t.map(Result::err), [malformed(count > 5); 2]);
    }
}

/// Rows of both CSIs, and criteria: at 4 met by a forwarded call of the services to what is not listed.
fn all_lists() -> Csis {
    let listed = [&[0x91, 0x21][..], &[0xa1, 0x43, 0xf5]];
    let listed = listed.map(|octets| IsdnAddress::new(octets).unwrap());
    let number = NumberCriterion::new(MatchType::Inhibiting, &listed, &[3, 15]).unwrap();
    let (busy, other) = (Cause::of_octet(17), Cause::of_octet(31));
    let o_criteria = OCriteria::new(4)
        .with_number(number)
        .with_call_type(CallType::Forwarded)
        .with_basic(&[BasicService::Tele(0x10), BasicService::Bearer(0x18)])
        .and_then(|criteria| criteria.with_causes(&[busy, other]));
    let t_criteria = TCriteria::new(13)
        .with_basic(&[BasicService::Tele(0x60)])
        .and_then(|criteria| criteria.with_causes(&[busy]));
    let continues = Row::new(3, 8, scf());
    Csis {
        o: Some(vec![Row::new(4, 7, scf()).with_handling(1), continues]),
        o_criteria: Some(vec![o_criteria.unwrap()]),
        vt: Some(vec![
            Row::new(13, 0x7fff_ffff, scf()),
            Row::new(12, 9, scf()),
        ]),
        t_criteria: Some(vec![t_criteria.unwrap()]),
    }
}

/// A session that sees these lists of its one subscriber.
fn session_of(csis: Csis) -> (Store, Session) {
    let (mut store, mut sessions) = Store::open(1, 9, Profile::Two, 1).unwrap();
    let insert = Update::Insert { imsi: imsi(), csis };
    let updates = [register(imsi()), PreparedUpdate::new(&insert).unwrap()];
    store.commit(&updates, &mut sessions).unwrap();
    (store, sessions.remove(0))
}

#[test]
fn a_store_gives_back_what_came() {
    let csis = all_lists();
    let (_store, mut session) = session_of(csis.clone());
    let kept = session.keep(imsi()).unwrap().unwrap();
    for dp in POINTS {
        let mut rows = csis.o.iter().chain(&csis.vt).flatten().copied();
        let mut of_o = csis.o_criteria.iter().flatten().copied();
        let mut of_t = csis.t_criteria.iter().flatten().copied();
        let row = rows.find(|row| row.dp() == dp.number());
        let of_o = of_o.find(|entry| entry.dp() == dp.number());
        let of_t = of_t.find(|entry| entry.dp() == dp.number());
        let criteria = of_o.map(Criteria::O).or(of_t.map(Criteria::T));
        assert_eq!(criteria.is_some(), [4, 13].contains(&dp.number()));
        assert_eq!(session.row(imsi(), dp), Ok(row));
        assert_eq!(session.criteria(imsi(), dp), Ok(criteria));
        assert_eq!(kept.row(dp), Ok(row));
        let look = session.look().unwrap();
        assert_eq!(look.row(imsi(), dp), Ok(row));
        assert_eq!(look.criteria(imsi(), dp), Ok(criteria));
        assert_eq!(look.row(other_imsi(), dp), Ok(None));
    }
}

/// What a session decides of an event: the service key, or why there is none.
fn decided(session: &mut Session, event: &Event) -> Result<u32, Reason> {
    match session.decide(event).unwrap().outcome {
        Outcome::Trigger { key, .. } => Ok(key),
        Outcome::NoTrigger(reason) => Err(reason),
    }
}

#[test]
fn each_field_of_an_event_is_asked() {
    let (_store, mut session) = session_of(all_lists());
    let (tele, bearer) = (BasicService::Tele, BasicService::Bearer);
    let (free, listed) = (&[0x91, 0x31, 0x54][..], &[0xa1, 0x43, 0x65][..]);
    let unmet = Err(Reason::Criteria);
    for (basic, destination, cause, is_forwarded, wanted) in [
        (tele(0x11), free, 17, true, Ok(7)),
        (bearer(0x19), free, 31, true, Ok(7)),
        (tele(0x61), free, 17, true, unmet),
        (bearer(0x11), free, 17, true, unmet),
        (tele(0x11), listed, 17, true, unmet),
        (tele(0x11), &free[..2], 17, true, Ok(7)),
        (tele(0x11), &[0x91, 0x31, 0xf4], 17, true, unmet),
        (tele(0x11), free, 18, true, unmet),
        (tele(0x11), free, 17, false, unmet),
    ] {
        let (destination, cause) = (Address::new(destination).unwrap(), Cause::of_octet(cause));
        let event = Event::route_select_failure(imsi(), basic, destination, cause);
        let event = if is_forwarded {
            event.forwarded()
        } else {
            event
        };
        assert_eq!(decided(&mut session, &event), wanted, "{event:?}");
    }
    for (event, wanted) in [
        (
            Event::busy(imsi(), tele(0x61), Cause::of_octet(17)),
            Ok(0x7fff_ffff),
        ),
        (Event::busy(imsi(), tele(0x61), Cause::of_octet(18)), unmet),
        (Event::busy(imsi(), tele(0x11), Cause::of_octet(17)), unmet),
        (Event::terminating_attempt(imsi(), bearer(0x61)), Ok(9)),
        (
            Event::no_answer(imsi(), tele(0x61), Cause::of_octet(17)),
            Err(Reason::NotArmed),
        ),
    ] {
        assert_eq!(decided(&mut session, &event), wanted, "{event:?}");
    }
}

#[test]
fn records_are_listed_and_encoded() {
    let (mut store, session) = session_of(all_lists());
    let mut sessions = [session];
    let look = sessions[0].look().unwrap();
    let argument = look.encode_record(imsi()).unwrap().unwrap();
    let mut imsis = look.imsis().unwrap();
    assert_eq!(look.encode_record(other_imsi()), Ok(None));
    look.leave();
    let lists_of = |session: &mut Session| {
        let look = session.look().unwrap();
        POINTS.map(|dp| {
            (
                look.row(imsi(), dp).unwrap(),
                look.criteria(imsi(), dp).unwrap(),
            )
        })
    };
    let lists = lists_of(&mut sessions[0]);
    for update in [Update::ClearAll, Update::Register { imsi: imsi() }] {
        store.submit(&update).unwrap();
    }
    store.publish_to(&mut sessions).unwrap();
    assert_ne!(
        sessions[0].encode_record(imsi()),
        Ok(Some(argument.clone()))
    );
    store
        .commit(&[inserted(imsi(), &argument)], &mut sessions)
        .unwrap();
    assert_eq!(
        sessions[0].encode_record(imsi()),
        Ok(Some(argument.clone()))
    );
    assert_eq!(lists_of(&mut sessions[0]), lists);
    assert_eq!(sessions[0].imsis().unwrap().count(), 1);
    assert!(store.close().is_ok());
    assert!(matches!(sessions[0].imsis(), Err(Error::NoLook)));
    assert_eq!(
        [imsis.next(), imsis.next(), imsis.next()],
        [Some(imsi()), None, None]
    );

    assert!(argument[0] == 0x30 && argument.len() < MAX_ARGUMENT);
    let text = argument.to_string();
    assert!(text.starts_with("30") && text.len() == 2 * argument.len());
    assert_eq!(format!("{argument:?}"), format!("Argument({text})"));
    assert_eq!(argument.as_ref(), &*argument);
}
