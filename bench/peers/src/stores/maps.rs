//! The peers that are maps: a tree behind a lock, shards with a lock each, and two copies of a hash map.
use super::{Change, Kept, Reader, Store, Writer};
use crate::block::Block;
use crate::data::{Event, Imsi, Outcome, Reason};
use crate::fast_hash::FastState;
use crate::left_right::{self, Apply};
use dashmap::DashMap;
use std::collections::BTreeMap;
use std::collections::hash_map::{Entry, HashMap};
use std::marker::PhantomData;
use std::sync::{Arc, Mutex, PoisonError};

/// One lock round a tree. What it answers is taken for right.
#[derive(Clone, Default)]
pub struct LockTree(Arc<Mutex<BTreeMap<Imsi, Block>>>);

impl Store for LockTree {
    type Reader = LockTree;
    type Writer = LockTree;

    fn open(readers: usize) -> (LockTree, Vec<LockTree>) {
        let store = LockTree::default();
        (store.clone(), vec![store; readers])
    }
}

impl Reader for LockTree {
    type Call = Event;

    #[inline]
    fn decide(&mut self, event: &Event) -> Outcome {
        let tree = self.0.lock().unwrap_or_else(PoisonError::into_inner);
        Block::decide(tree.get(&event.imsi), event)
    }
}

impl Writer for LockTree {
    type Update = Change<Block>;

    fn publish(&mut self, batch: &mut Vec<Change<Block>>) {
        let mut tree = self.0.lock().unwrap_or_else(PoisonError::into_inner);
        for change in batch.drain(..) {
            match change {
                Change::Put(imsi, block) => tree.insert(imsi, block),
                Change::Remove(imsi) => tree.remove(&imsi),
            };
        }
    }
}

/// A map of shards, each with a lock. The updates of a batch are seen one by one.
#[derive(Clone, Default)]
pub struct DashMapStore(Arc<DashMap<Imsi, Block, FastState>>);

impl Store for DashMapStore {
    type Reader = DashMapStore;
    type Writer = DashMapStore;

    fn open(readers: usize) -> (DashMapStore, Vec<DashMapStore>) {
        let store = DashMapStore::default();
        (store.clone(), vec![store; readers])
    }
}

impl Reader for DashMapStore {
    type Call = Event;

    #[inline]
    fn decide(&mut self, event: &Event) -> Outcome {
        let block = self.0.get(&event.imsi).ok_or(Reason::Unknown)?;
        Block::decide(Some(block.value()), event)
    }
}

impl Writer for DashMapStore {
    type Update = Change<Block>;

    fn publish(&mut self, batch: &mut Vec<Change<Block>>) {
        for change in batch.drain(..) {
            match change {
                Change::Put(imsi, block) => drop(self.0.insert(imsi, block)),
                Change::Remove(imsi) => drop(self.0.remove(&imsi)),
            }
        }
    }
}

/// Left-right publication of a hash map, with records that it keeps as blocks or in its own slots.
pub struct LeftRight<R>(PhantomData<R>);

type Subscribers<R> = HashMap<Imsi, R, FastState>;

impl<R: Kept> Apply<Change<R>> for Subscribers<R> {
    fn apply(&mut self, change: &Change<R>) {
        match change {
            Change::Put(imsi, record) => match self.entry(*imsi) {
                Entry::Occupied(mut entry) => entry.get_mut().clone_from(record),
                Entry::Vacant(entry) => drop(entry.insert(record.clone())),
            },
            Change::Remove(imsi) => drop(self.remove(imsi)),
        }
    }
}

impl<R: Kept> Store for LeftRight<R> {
    type Reader = left_right::Reader<Subscribers<R>>;
    type Writer = left_right::Writer<Subscribers<R>, Change<R>>;

    fn open(readers: usize) -> (Self::Writer, Vec<Self::Reader>) {
        left_right::open(readers)
    }
}

impl<R: Kept> Reader for left_right::Reader<Subscribers<R>> {
    type Call = Event;

    #[inline]
    fn decide(&mut self, event: &Event) -> Outcome {
        self.look(|subscribers| R::decide(subscribers.get(&event.imsi), event))
    }
}

impl<R: Kept> Writer for left_right::Writer<Subscribers<R>, Change<R>> {
    type Update = Change<R>;

    fn publish(&mut self, batch: &mut Vec<Change<R>>) {
        left_right::Writer::publish(self, batch);
    }
}
