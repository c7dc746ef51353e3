//! Kinds of links and bells.

use crate::site::{Kind, Letter, Net, Wants, LINK};
use std::cell::UnsafeCell;
use std::mem::MaybeUninit;
use std::sync::atomic::{AtomicUsize, Ordering};
use std::sync::Arc;

/// Channels.
pub struct Channels;

impl Net for Channels {
    type Sender = crossbeam_channel::Sender<Letter>;
    type Receiver = crossbeam_channel::Receiver<Letter>;
    type Ringer = crossbeam_channel::Sender<u32>;
    type Bell = crossbeam_channel::Receiver<u32>;
    fn link() -> (Self::Sender, Self::Receiver) {
        crossbeam_channel::bounded(LINK)
    }
    fn bell(_: usize, capacity: usize) -> (Self::Ringer, Self::Bell) {
        crossbeam_channel::bounded(capacity)
    }
    #[inline]
    fn send(link: &mut Self::Sender, letter: Letter) {
        link.try_send(letter).ok().unwrap()
    }
    #[inline]
    fn take(link: &mut Self::Receiver) -> Letter {
        link.try_recv().unwrap()
    }
    #[inline]
    fn ring(bell: &mut Self::Ringer, place: u32, _: Kind) {
        bell.try_send(place).unwrap()
    }
    #[inline]
    fn wait(bell: &mut Self::Bell, _: impl FnOnce() -> Wants) -> u32 {
        bell.recv().unwrap()
    }
}

/// A ring with one producer and one consumer, as rtrb's. The counts only grow.
pub struct Slots {
    head: Padded,
    tail: Padded,
    slots: [UnsafeCell<MaybeUninit<Letter>>; LINK],
}

#[repr(align(64))]
struct Padded(AtomicUsize);

// A slot is the producer's or the consumer's, by head and tail.
unsafe impl Sync for Slots {}

impl Drop for Slots {
    fn drop(&mut self) {
        for at in *self.head.0.get_mut()..*self.tail.0.get_mut() {
            unsafe { self.slots[at % LINK].get_mut().assume_init_drop() }
        }
    }
}

pub struct Producer(Arc<Slots>);
pub struct Consumer(Arc<Slots>);

impl Producer {
    #[inline]
    fn push(&mut self, letter: Letter) -> Result<(), Letter> {
        let tail = self.0.tail.0.load(Ordering::Relaxed);
        if tail - self.0.head.0.load(Ordering::Acquire) == LINK {
            return Err(letter);
        }
        unsafe { (*self.0.slots[tail % LINK].get()).write(letter) };
        self.0.tail.0.store(tail + 1, Ordering::Release);
        Ok(())
    }
}

impl Consumer {
    #[inline]
    fn pop(&mut self) -> Option<Letter> {
        let head = self.0.head.0.load(Ordering::Relaxed);
        if self.0.tail.0.load(Ordering::Acquire) == head {
            return None;
        }
        let letter = unsafe { (*self.0.slots[head % LINK].get()).assume_init_read() };
        self.0.head.0.store(head + 1, Ordering::Release);
        Some(letter)
    }
}

/// Rings, with channels for bells.
pub struct Rings;

impl Net for Rings {
    type Sender = Producer;
    type Receiver = Consumer;
    type Ringer = crossbeam_channel::Sender<u32>;
    type Bell = crossbeam_channel::Receiver<u32>;
    fn link() -> (Producer, Consumer) {
        let slots = Arc::new(Slots {
            head: Padded(AtomicUsize::new(0)),
            tail: Padded(AtomicUsize::new(0)),
            slots: [const { UnsafeCell::new(MaybeUninit::uninit()) }; LINK],
        });
        (Producer(slots.clone()), Consumer(slots))
    }
    fn bell(_: usize, capacity: usize) -> (Self::Ringer, Self::Bell) {
        crossbeam_channel::bounded(capacity)
    }
    #[inline]
    fn send(link: &mut Producer, letter: Letter) {
        link.push(letter).ok().unwrap()
    }
    #[inline]
    fn take(link: &mut Consumer) -> Letter {
        link.pop().unwrap()
    }
    #[inline]
    fn ring(bell: &mut Self::Ringer, place: u32, _: Kind) {
        bell.try_send(place).unwrap()
    }
    #[inline]
    fn wait(bell: &mut Self::Bell, _: impl FnOnce() -> Wants) -> u32 {
        bell.recv().unwrap()
    }
}
