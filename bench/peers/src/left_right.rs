//! Left-right publication: two copies of a value, a log of operations, and an epoch for each reader.
//!
//! A reader makes its epoch odd, reads which copy is live, looks at it, and makes its epoch even. A publication waits
//! until the readers have left the copy that was live before the last one, brings it up to date by the log, and makes
//! it the live one.
use std::cell::UnsafeCell;
use std::hint;
use std::sync::Arc;
use std::sync::atomic::{AtomicU64, AtomicUsize, Ordering};
use std::thread;

pub trait Apply<Operation> {
    /// Changes one of the copies. Each operation is applied to both.
    fn apply(&mut self, operation: &Operation);
}

/// Has cache lines of its own, with the neighbour that processors fetch too.
#[repr(align(128))]
struct Apart<T>(T);

/// Odd while its reader looks.
type Epoch = Arc<Apart<AtomicU64>>;

struct Copies<T> {
    live: Apart<AtomicUsize>,
    sides: [UnsafeCell<T>; 2],
}

// SAFETY: readers share the live side, which asks for `T: Sync`. Only the writer changes the other one, after all
// readers have left it, which asks for `T: Send`.
unsafe impl<T: Send + Sync> Sync for Copies<T> {}

pub struct Reader<T> {
    copies: Arc<Copies<T>>,
    epoch: Epoch,
}

pub struct Writer<T, Operation> {
    copies: Arc<Copies<T>>,
    live: usize,
    /// The epochs of all readers, and what each was after the last publication.
    epochs: Vec<(Epoch, u64)>,
    /// What the copy that is not live lacks.
    log: Vec<Operation>,
}

/// A writer and readers of two empty copies.
pub fn open<T: Default, Operation>(readers: usize) -> (Writer<T, Operation>, Vec<Reader<T>>) {
    let copies = Arc::new(Copies {
        live: Apart(AtomicUsize::new(0)),
        sides: Default::default(),
    });
    let epochs: Vec<Epoch> = (0..readers)
        .map(|_| Arc::new(Apart(AtomicU64::new(0))))
        .collect();
    let reader = |epoch: &Epoch| Reader {
        copies: copies.clone(),
        epoch: epoch.clone(),
    };
    let readers = epochs.iter().map(reader).collect();
    let epochs = epochs.into_iter().map(|epoch| (epoch, 0)).collect();
    (
        Writer {
            copies,
            live: 0,
            epochs,
            log: Vec::new(),
        },
        readers,
    )
}

/// Makes the epoch even when a look ends, in whichever way.
struct Leave<'a> {
    epoch: &'a AtomicU64,
    even: u64,
}

impl Drop for Leave<'_> {
    #[inline]
    fn drop(&mut self) {
        self.epoch.store(self.even, Ordering::Release);
    }
}

impl<T> Reader<T> {
    /// A reader has one look at a time, since its epoch counts no looks within looks.
    #[inline]
    pub fn look<R>(&mut self, at: impl FnOnce(&T) -> R) -> R {
        let epoch = &self.epoch.0;
        let even = epoch.load(Ordering::Relaxed);
        epoch.swap(even + 1, Ordering::SeqCst);
        let _leave = Leave {
            epoch,
            even: even + 2,
        };
        let live = self.copies.live.0.load(Ordering::SeqCst);
        // SAFETY: either the writer reads the odd epoch after its last publication, and changes no side before the look
        // ends; or it read the epoch before the swap, and then `live` is the side that it made live before it read.
        at(unsafe { &*self.copies.sides[live].get() })
    }
}

impl<T: Apply<Operation>, Operation> Writer<T, Operation> {
    /// Each look that begins afterwards sees all operations of the batch, and each look sees all or none of them. The
    /// batch is left empty.
    pub fn publish(&mut self, batch: &mut Vec<Operation>) {
        self.wait_for_readers();
        let stale = 1 - self.live;
        // SAFETY: no reader is in the side that is not live, and none comes into it before it is. There is one writer.
        let side = unsafe { &mut *self.copies.sides[stale].get() };
        self.log
            .iter()
            .chain(&*batch)
            .for_each(|operation| side.apply(operation));
        self.log.clear();
        self.log.append(batch);
        self.make_live(stale);
    }

    fn wait_for_readers(&self) {
        for (epoch, seen) in &self.epochs {
            let mut turns = 0_u32;
            while seen % 2 == 1 && epoch.0.load(Ordering::Acquire) == *seen {
                turns += 1;
                // A reader whose processor is taken away is waited for without one.
                if turns < 64 {
                    hint::spin_loop()
                } else {
                    thread::yield_now()
                }
            }
        }
    }

    fn make_live(&mut self, side: usize) {
        self.live = side;
        self.copies.live.0.store(side, Ordering::SeqCst);
        for (epoch, seen) in &mut self.epochs {
            *seen = epoch.0.load(Ordering::SeqCst);
        }
    }
}

#[cfg(test)]
mod tests {
    use super::*;

    const PUBLICATIONS: u64 = 20_000;

    /// Two counts that each batch leaves equal.
    #[derive(Default)]
    struct Counts([u64; 2]);

    impl Apply<usize> for Counts {
        fn apply(&mut self, place: &usize) {
            self.0[*place] += 1;
        }
    }

    fn look_until_all(mut reader: Reader<Counts>) {
        let mut seen = 0;
        while seen < PUBLICATIONS {
            let [first, second] = reader.look(|counts| counts.0);
            assert_eq!(first, second);
            assert!(first >= seen);
            seen = first;
        }
    }

    /// Looks beside publications: each sees whole batches, and never fewer than the one before it.
    #[test]
    fn looks_see_whole_batches() {
        let (mut writer, readers) = open::<Counts, usize>(2);
        thread::scope(|scope| {
            for reader in readers {
                scope.spawn(|| look_until_all(reader));
            }
            for _ in 0..PUBLICATIONS {
                writer.publish(&mut vec![0, 1]);
            }
        });
    }
}
