//! What `camel.h` declares. `scripts/ffi` makes this file of it.
use super::{Imsis, Octets, Session, Status, Store, Subscriber, Update};
use std::ffi::c_void;

pub const ABI_VERSION: u32 = 4;
pub const MAX_ARGUMENT: usize = 1198;
pub const NO_OCTET: u64 = 18446744073709551615;
pub const UPDATE_REGISTER: u8 = 1;
pub const UPDATE_INSERT: u8 = 2;
pub const UPDATE_DELETE: u8 = 3;
pub const UPDATE_CANCEL: u8 = 4;
pub const UPDATE_CLEAR_ALL: u8 = 5;

pub type Address = Octets<20>;
pub type IsdnAddress = Octets<9>;

structures! {
    pub struct Receipt {
        pub store: u64,
        pub front: u64,
    }
    pub struct Imsi {
        pub number: u64,
    }
    pub struct BasicService {
        pub is_bearer: bool,
        pub code: u8,
    }
    pub struct Row {
        pub dp: u8,
        pub key: u32,
        pub scf: IsdnAddress,
        pub handling: u32,
    }
    pub struct BasicServices {
        pub count: u8,
        pub services: [BasicService; 5],
    }
    pub struct Causes {
        pub count: u8,
        pub causes: [u8; 5],
    }
    pub struct NumberCriterion {
        pub is_enabling: bool,
        pub number_count: u8,
        pub length_count: u8,
        pub lengths: [u8; 3],
        pub numbers: [IsdnAddress; 10],
    }
    pub struct Criteria {
        pub dp: u8,
        pub has_number: bool,
        pub number: NumberCriterion,
        pub basic: BasicServices,
        pub has_call_type: bool,
        pub is_forwarded: bool,
        pub causes: Causes,
    }
    pub struct Withdrawal {
        pub o: bool,
        pub vt: bool,
        pub everything: bool,
    }
    pub struct Event {
        pub imsi: Imsi,
        pub destination: Address,
        pub basic: BasicService,
        pub dp: u8,
        pub is_forwarded: bool,
        pub cause: u8,
    }
    pub struct Answer {
        pub front: u64,
        pub key: u32,
        pub scf: IsdnAddress,
        pub dp: u8,
        pub is_release: bool,
        pub is_trigger: bool,
        pub reason: u8,
    }
    pub struct Counts {
        pub subscribers: u64,
        pub published: u64,
        pub pending: u64,
        pub held: u64,
    }
    pub struct Decisions {
        pub by: [[u64; 6]; 15],
    }
    pub struct UpdateParts {
        pub imsi: Imsi,
        pub kind: u8,
        pub o_rows: u8,
        pub o_criteria: u8,
        pub vt_rows: u8,
        pub t_criteria: u8,
        pub has_o_capability: bool,
        pub has_vt_capability: bool,
        pub o_capability: u32,
        pub vt_capability: u32,
        pub withdrawal: Withdrawal,
    }
    pub struct Argument {
        pub count: u16,
        pub octets: [u8; 1198],
    }
    pub struct CsiLists {
        pub rows: *const Row,
        pub row_count: usize,
        pub criteria: *const Criteria,
        pub criteria_count: usize,
        pub has_rows: bool,
        pub has_criteria: bool,
    }
    pub struct Lists {
        pub o: CsiLists,
        pub vt: CsiLists,
    }
}

sizes! {
    Receipt Imsi Address IsdnAddress BasicService Row BasicServices Causes NumberCriterion Criteria
    CsiLists Lists Withdrawal Event Answer Counts Decisions UpdateParts Argument Store
}

unsafe extern "C" {
    pub fn camel_abi_version() -> u32;
    pub fn camel_layouts(sizes: *mut u32, size_count: usize) -> u32;
    pub fn camel_imsi_of_tbcd_nonnull(
        octets: *const u8,
        octet_count: usize,
        imsi: *mut Imsi,
    ) -> Status;
    pub fn camel_imsi_of_digits_nonnull(
        digits: *const u8,
        digit_count: usize,
        imsi: *mut Imsi,
    ) -> Status;
    pub fn camel_address_of_nonnull(
        octets: *const u8,
        octet_count: usize,
        address: *mut Address,
    ) -> Status;
    pub fn camel_isdn_address_of_nonnull(
        octets: *const u8,
        octet_count: usize,
        address: *mut IsdnAddress,
    ) -> Status;
    pub fn camel_open_version(
        abi_version: u32,
        store: *mut Store,
        sessions: *mut Session,
        session_count: usize,
        limit: u64,
        profile: u8,
        seed: u64,
    ) -> Status;
    pub fn camel_submit_change_nonnull(
        store: *mut Store,
        kind: u8,
        imsi: *const Imsi,
        withdrawal: *const Withdrawal,
        lists: *const Lists,
    ) -> Status;
    pub fn camel_submit_map_nonnull(
        store: *mut Store,
        operation: u8,
        imsi: *const Imsi,
        argument: *const u8,
        argument_octet_count: usize,
        place: *mut u64,
    ) -> Status;
    pub fn camel_update_of_nonnull(
        kind: u8,
        imsi: *const Imsi,
        withdrawal: *const Withdrawal,
        lists: *const Lists,
        update: *mut Update,
    ) -> Status;
    pub fn camel_update_of_map_nonnull(
        operation: u8,
        imsi: *const Imsi,
        argument: *const u8,
        argument_octet_count: usize,
        update: *mut Update,
        place: *mut u64,
    ) -> Status;
    pub fn camel_submit_all_nonnull(
        store: *mut Store,
        updates: *const Update,
        update_count: usize,
        rejected: *mut usize,
    ) -> Status;
    pub fn camel_publish_to_nonnull(
        store: *mut Store,
        sessions: *mut Session,
        session_count: usize,
    ) -> Status;
    pub fn camel_commit_nonnull(
        store: *mut Store,
        updates: *const Update,
        update_count: usize,
        sessions: *mut Session,
        session_count: usize,
        rejected: *mut usize,
    ) -> Status;
    pub fn camel_update_join(
        one: *const Update,
        next: *const Update,
        joined: *mut Update,
    ) -> Status;
    pub fn camel_update_parts_of(update: *const Update, parts: *mut UpdateParts) -> Status;
    pub fn camel_drop_pending(store: *mut Store) -> Status;
    pub fn camel_holders(store: *mut Store, sessions: *mut u64) -> Status;
    pub fn camel_counts_of(store: *const Store, counts: *mut Counts) -> Status;
    pub fn camel_receipt_of(store: *const Store, receipt: *mut Receipt) -> Status;
    pub fn camel_learn(session: *mut Session, receipt: *const Receipt) -> Status;
    pub fn camel_decide(session: *mut Session, event: *const Event, answer: *mut Answer) -> Status;
    pub fn camel_decisions_of(session: *const Session, decisions: *mut Decisions) -> Status;
    pub fn camel_look(session: *mut Session) -> Status;
    pub fn camel_leave(session: *mut Session) -> Status;
    pub fn camel_row_at(
        session: *mut Session,
        imsi: *const Imsi,
        dp: u8,
        row: *mut Row,
        is_there: *mut bool,
    ) -> Status;
    pub fn camel_criteria_at(
        session: *mut Session,
        imsi: *const Imsi,
        dp: u8,
        criteria: *mut Criteria,
        is_there: *mut bool,
    ) -> Status;
    pub fn camel_keep(
        session: *mut Session,
        imsi: *const Imsi,
        subscriber: *mut Subscriber,
        is_there: *mut bool,
    ) -> Status;
    pub fn camel_decide_kept(
        session: *mut Session,
        subscriber: *const Subscriber,
        event: *const Event,
        answer: *mut Answer,
    ) -> Status;
    pub fn camel_kept_row_at(
        subscriber: *const Subscriber,
        dp: u8,
        row: *mut Row,
        is_there: *mut bool,
    ) -> Status;
    pub fn camel_set_up(
        session: *mut Session,
        event: *const Event,
        answer: *mut Answer,
        subscriber: *mut Subscriber,
        is_there: *mut bool,
    ) -> Status;
    pub fn camel_imsis_of(session: *mut Session, imsis: *mut Imsis) -> Status;
    pub fn camel_next_imsi(imsis: *mut Imsis, imsi: *mut Imsi, is_there: *mut bool) -> Status;
    pub fn camel_encode_record(
        session: *mut Session,
        imsi: *const Imsi,
        argument: *mut Argument,
        is_there: *mut bool,
    ) -> Status;
    pub fn camel_close(store: *mut Store) -> Status;
    pub fn camel_empty(handle: *mut c_void);
}
