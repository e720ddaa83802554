//! A hash table of userspace RCU, in its qsbr flavour: readers take no lock and write nothing shared.
use super::{Change, Prepared, Reader, Store, Writer};
use crate::block::{Block, decide};
use crate::data::{Event, Imsi, Outcome, Update};
use crate::fast_hash::FastState;
use std::alloc::{Layout, alloc, dealloc, handle_alloc_error};
use std::ffi::{c_int, c_ulong, c_void};
use std::hash::BuildHasher;
use std::{ptr, slice};

/// So many replaced subscribers wait for one grace period together.
const RETIRED_AT_ONCE: usize = 4096;

/// The table grows by itself and counts its subscribers. If it had only the lengths of its chains to go by, it would
/// grow far too much.
const AUTO_RESIZE_ACCOUNTING: c_int = 3;

#[repr(C)]
struct Node {
    next: *mut Node,
    reverse_hash: c_ulong,
}

#[repr(C)]
struct Iterator {
    node: *mut Node,
    next: *mut Node,
}

/// The head of a subscriber. The octets of its block follow.
#[repr(C)]
pub struct Subscriber {
    node: Node,
    imsi: Imsi,
    length: usize,
}

type Match = extern "C" fn(*mut Node, *const c_void) -> c_int;

#[link(name = "urcu-qsbr")]
unsafe extern "C" {
    static urcu_qsbr_flavor: c_void;
    fn urcu_qsbr_register_thread();
    fn urcu_qsbr_unregister_thread();
    fn urcu_qsbr_thread_online();
    fn urcu_qsbr_thread_offline();
    fn urcu_qsbr_quiescent_state();
    fn urcu_qsbr_synchronize_rcu();
}

#[link(name = "urcu-cds")]
unsafe extern "C" {
    fn _cds_lfht_new(
        size: c_ulong,
        least: c_ulong,
        most: c_ulong,
        flags: c_int,
        memory: *const c_void,
        flavor: *const c_void,
        attributes: *mut c_void,
    ) -> *mut c_void;
    fn cds_lfht_lookup(
        table: *mut c_void,
        hash: c_ulong,
        is: Match,
        key: *const c_void,
        found: *mut Iterator,
    );
    fn cds_lfht_add_replace(
        table: *mut c_void,
        hash: c_ulong,
        is: Match,
        key: *const c_void,
        node: *mut Node,
    ) -> *mut Node;
    fn cds_lfht_del(table: *mut c_void, node: *mut Node) -> c_int;
}

extern "C" fn has_imsi(node: *mut Node, imsi: *const c_void) -> c_int {
    // SAFETY: each node of the table is the head of a subscriber, and each key an IMSI.
    unsafe { c_int::from((*node.cast::<Subscriber>()).imsi == *imsi.cast()) }
}

/// A thread is registered once, and while it is online the writer waits for its quiescent states.
struct Registered;

impl Drop for Registered {
    fn drop(&mut self) {
        // SAFETY: the thread is registered.
        unsafe { urcu_qsbr_unregister_thread() };
    }
}

thread_local! {
    static REGISTERED: Registered = {
        // SAFETY: this is run once in each thread.
        unsafe { urcu_qsbr_register_thread() };
        Registered
    };
}

fn go_online() {
    // SAFETY: the thread is registered first.
    REGISTERED.with(|_| unsafe { urcu_qsbr_thread_online() });
}

fn go_offline() {
    // SAFETY: the thread is registered first.
    REGISTERED.with(|_| unsafe { urcu_qsbr_thread_offline() });
}

/// The table. The library knows each thread by itself.
#[derive(Clone, Copy)]
pub struct Session(*mut c_void);

// SAFETY: the functions of the table may be called by threads side by side, each of which is registered.
unsafe impl Send for Session {}

pub struct UrcuWriter {
    table: Session,
    retired: Vec<*mut Subscriber>,
}

// SAFETY: only the writer frees what is retired.
unsafe impl Send for UrcuWriter {}

pub struct Urcu;

/// A subscriber that is not in the table, or the IMSI of one to be removed.
type Made = Change<*mut Subscriber>;

fn layout_of(length: usize) -> Layout {
    let size = size_of::<Subscriber>() + length;
    Layout::from_size_align(size, align_of::<Subscriber>()).expect("a block is small")
}

fn subscriber_of(imsi: Imsi, block: &[u8]) -> *mut Subscriber {
    let layout = layout_of(block.len());
    // SAFETY: the room has the head and so many octets behind it.
    unsafe {
        let made = alloc(layout).cast::<Subscriber>();
        if made.is_null() {
            handle_alloc_error(layout);
        }
        let node = Node {
            next: ptr::null_mut(),
            reverse_hash: 0,
        };
        let length = block.len();
        made.write(Subscriber { node, imsi, length });
        ptr::copy_nonoverlapping(block.as_ptr(), made.add(1).cast(), length);
        made
    }
}

impl Session {
    #[inline]
    fn find(self, imsi: Imsi) -> *mut Subscriber {
        let (hash, key) = (
            FastState::default().hash_one(imsi),
            (&raw const imsi).cast(),
        );
        let mut found = Iterator {
            node: ptr::null_mut(),
            next: ptr::null_mut(),
        };
        // SAFETY: the thread is online, and tells no quiescent state before it has looked at what is found.
        unsafe { cds_lfht_lookup(self.0, hash, has_imsi, key, &mut found) };
        found.node.cast()
    }
}

impl Store for Urcu {
    type Reader = Session;
    type Writer = UrcuWriter;

    fn open(readers: usize) -> (UrcuWriter, Vec<Session>) {
        let (memory, flavor) = (ptr::null(), &raw const urcu_qsbr_flavor);
        // SAFETY: the flavour is that of the functions which are called here.
        let table = unsafe {
            _cds_lfht_new(
                1,
                1,
                0,
                AUTO_RESIZE_ACCOUNTING,
                memory,
                flavor,
                ptr::null_mut(),
            )
        };
        let table = Session(table);
        let retired = Vec::new();
        (UrcuWriter { table, retired }, vec![table; readers])
    }
}

impl Reader for Session {
    type Call = Event;

    fn enter(&mut self) {
        go_online();
    }

    fn leave(&mut self) {
        go_offline();
    }

    #[inline]
    fn decide(&mut self, event: &Event) -> Outcome {
        let found = self.find(event.imsi);
        // SAFETY: what is found stays until the quiescent state.
        unsafe {
            let block = (!found.is_null())
                .then(|| slice::from_raw_parts(found.add(1).cast(), (*found).length));
            let outcome = decide(block, event);
            urcu_qsbr_quiescent_state();
            outcome
        }
    }
}

impl Prepared for Made {
    fn of(update: Update) -> Option<Made> {
        Some(match Change::<Block>::of(update)? {
            Change::Put(imsi, block) => Change::Put(imsi, subscriber_of(imsi, block.octets())),
            Change::Remove(imsi) => Change::Remove(imsi),
        })
    }
}

impl Writer for UrcuWriter {
    type Update = Made;

    fn publish(&mut self, batch: &mut Vec<Made>) {
        let table = self.table.0;
        go_online();
        // SAFETY: the thread is online, and each subscriber is put once.
        unsafe {
            for prepared in batch.drain(..) {
                let out: *mut Node = match prepared {
                    Change::Put(imsi, made) => {
                        let hash = FastState::default().hash_one(imsi);
                        cds_lfht_add_replace(
                            table,
                            hash,
                            has_imsi,
                            (&raw const imsi).cast(),
                            made.cast(),
                        )
                    }
                    Change::Remove(imsi) => {
                        let node: *mut Node = self.table.find(imsi).cast();
                        let is_out = !node.is_null() && cds_lfht_del(table, node) == 0;
                        if is_out { node } else { ptr::null_mut() }
                    }
                };
                if !out.is_null() {
                    self.retired.push(out.cast());
                }
            }
            urcu_qsbr_quiescent_state();
            if self.retired.len() >= RETIRED_AT_ONCE {
                self.free_retired();
            }
        }
        go_offline();
    }
}

impl UrcuWriter {
    /// A reader may still look at a subscriber that is no longer in the table.
    ///
    /// # Safety
    ///
    /// The thread is registered, and holds nothing of the table.
    unsafe fn free_retired(&mut self) {
        // SAFETY: after the grace period no thread has what was taken out before.
        unsafe {
            urcu_qsbr_synchronize_rcu();
            for subscriber in self.retired.drain(..) {
                dealloc(subscriber.cast(), layout_of((*subscriber).length));
            }
        }
    }
}
