//! All that handles hold is freed when they are dropped. It is a program of its own, so that no other test asks for
//! memory meanwhile.
use camel::{Error, MAX_UPDATES, Profile, Store, Update};
use shared::{CRITERIA, ROWS, event, imsi, inserted, register};

mod shared;

/// What `mallinfo2` of the GNU C library returns.
#[repr(C)]
struct Mallinfo2 {
    counts: [usize; 10],
}

/// The place of the octets that are in use.
const IN_USE: usize = 7;

unsafe extern "C" {
    safe fn mallinfo2() -> Mallinfo2;
}

/// The life of a store, whose data a look holds to the end.
fn live() {
    let (mut store, mut sessions) = Store::open(2, MAX_UPDATES, Profile::One, 1).unwrap();
    let joined = inserted(imsi(), ROWS).join(&inserted(imsi(), CRITERIA));
    let updates = [register(imsi()), joined.unwrap()];
    store.commit(&updates, &mut sessions).unwrap();
    let [one, two] = &mut sessions[..] else {
        panic!("there are two")
    };
    let look = one.look().unwrap();
    let _held = (look.keep(imsi()), look.imsis(), look.set_up(&event()));
    store.submit(&Update::ClearAll).unwrap();
    store.publish().unwrap();
    drop(store);
    assert_eq!(two.decide(&event()), Err(Error::NoLook));
}

#[test]
fn what_is_dropped_is_freed() {
    let in_use = || mallinfo2().counts[IN_USE];
    // Behind the first ones malloc has what it keeps for itself.
    (0..100).for_each(|_| live());
    let before = in_use();
    (0..1000).for_each(|_| live());
    assert!(in_use() < before + 1000, "one octet for each life");
}
