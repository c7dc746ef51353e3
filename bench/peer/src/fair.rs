//! A fair lock by hand: a ticket lock. Whoever draws first has the lock first, so of two sites that want the same edge
//! again and again neither has two meals while the other one waits with its ticket.

use std::cell::UnsafeCell;
use std::hint;
use std::ops::{Deref, DerefMut};
use std::sync::atomic::{AtomicUsize, Ordering};
use std::sync::Mutex;
use std::thread::{self, Thread};

/// The number of checks before a thread sleeps. Before each it pauses twice as long as before the last one: about a
/// hundred pauses in all, as many as a mutex of std makes.
///
/// It does not yield the processor in between, as parking_lot does. A thread with a ticket stops all behind it, and
/// beside other work a thread that has yielded comes back late: a run on a busy machine took 10 to 100 times as long.
const CHECKS: u32 = 6;

/// A lock for at most `MOST` threads, each with at most one ticket at a time.
pub struct Fair<T, const MOST: usize> {
    /// The next ticket that is drawn.
    next: AtomicUsize,
    /// The ticket whose turn it is.
    serving: AtomicUsize,
    /// The number of threads that sleep.
    asleep: AtomicUsize,
    /// By the remainder of a ticket: the thread that sleeps with it, or slept last with such a one. No two threads that
    /// wait have the same remainder.
    beds: [Mutex<Option<Thread>>; MOST],
    inside: UnsafeCell<T>,
}

// Only the thread whose turn it is reaches what is inside.
unsafe impl<T: Send, const MOST: usize> Sync for Fair<T, MOST> {}

/// A place in the queue. If it is dropped and not waited for, all tickets after it wait for ever.
#[must_use]
pub struct Ticket(usize);

impl<T, const MOST: usize> Fair<T, MOST> {
    pub fn new(inside: T) -> Self {
        Fair {
            next: AtomicUsize::new(0),
            serving: AtomicUsize::new(0),
            asleep: AtomicUsize::new(0),
            beds: [const { Mutex::new(None) }; MOST],
            inside: UnsafeCell::new(inside),
        }
    }

    #[inline]
    pub fn draw(&self) -> Ticket {
        Ticket(self.next.fetch_add(1, Ordering::Relaxed))
    }

    /// Waits for the turn of the ticket.
    #[inline]
    pub fn wait(&self, ticket: Ticket) -> Guard<'_, T, MOST> {
        let ticket = ticket.0;
        if self.serving.load(Ordering::Acquire) != ticket {
            self.wait_long(ticket);
        }
        Guard { lock: self, ticket }
    }

    #[cold]
    fn wait_long(&self, ticket: usize) {
        for check in 0..CHECKS {
            (0..2 << check).for_each(|_| hint::spin_loop());
            if self.serving.load(Ordering::Acquire) == ticket {
                return;
            }
        }
        *self.beds[ticket % MOST].lock().unwrap() = Some(thread::current());
        // This, the check below, and the store and the load in `unlock` have one order, in which either the check finds
        // the turn, or the thread that unlocks finds the sleeper.
        self.asleep.fetch_add(1, Ordering::SeqCst);
        while self.serving.load(Ordering::SeqCst) != ticket {
            thread::park();
        }
        self.asleep.fetch_sub(1, Ordering::Relaxed);
    }

    #[inline]
    fn unlock(&self, ticket: usize) {
        self.serving.store(ticket + 1, Ordering::SeqCst);
        if self.asleep.load(Ordering::SeqCst) > 0 {
            self.wake(ticket + 1);
        }
    }

    #[cold]
    fn wake(&self, ticket: usize) {
        // The handle stays there. If it were taken out, it might be that of a later ticket, whose thread would then
        // sleep for ever. A thread that is woken too early checks, and sleeps again.
        let sleeper = self.beds[ticket % MOST].lock().unwrap().clone();
        if let Some(thread) = sleeper {
            thread.unpark();
        }
    }

    pub fn into_inner(self) -> T {
        self.inside.into_inner()
    }
}

/// The lock, held. It is unlocked when this is dropped.
pub struct Guard<'a, T, const MOST: usize> {
    lock: &'a Fair<T, MOST>,
    ticket: usize,
}

impl<T, const MOST: usize> Deref for Guard<'_, T, MOST> {
    type Target = T;
    #[inline]
    fn deref(&self) -> &T {
        unsafe { &*self.lock.inside.get() }
    }
}

impl<T, const MOST: usize> DerefMut for Guard<'_, T, MOST> {
    #[inline]
    fn deref_mut(&mut self) -> &mut T {
        unsafe { &mut *self.lock.inside.get() }
    }
}

impl<T, const MOST: usize> Drop for Guard<'_, T, MOST> {
    #[inline]
    fn drop(&mut self) {
        self.lock.unlock(self.ticket);
    }
}

#[cfg(test)]
mod tests {
    use super::*;
    use std::sync::atomic::AtomicBool;
    use std::sync::Barrier;
    use std::time::Duration;

    const THREADS: usize = 8;
    const TIMES: usize = 2_000;

    /// More threads than processors, which add to a plain number without losing anything.
    #[test]
    fn one_at_a_time() {
        let lock = Fair::<usize, THREADS>::new(0);
        let (taken, gate) = (AtomicBool::new(false), Barrier::new(THREADS));
        thread::scope(|scope| {
            for _ in 0..THREADS {
                scope.spawn(|| {
                    gate.wait();
                    for _ in 0..TIMES {
                        let mut count = lock.wait(lock.draw());
                        assert!(!taken.swap(true, Ordering::Relaxed), "two have the lock");
                        *count += 1;
                        taken.store(false, Ordering::Relaxed);
                    }
                });
            }
        });
        assert_eq!(lock.into_inner(), THREADS * TIMES);
    }

    /// The lock is held for so long after the tickets were drawn, and the threads begin to wait last one first.
    fn order_after(held: Duration) -> Vec<usize> {
        let lock = Fair::<Vec<usize>, { THREADS + 1 }>::new(Vec::new());
        let first = lock.wait(lock.draw());
        let tickets: Vec<_> = (0..THREADS).map(|_| lock.draw()).collect();
        thread::scope(|scope| {
            for (place, ticket) in tickets.into_iter().enumerate().rev() {
                let lock = &lock;
                scope.spawn(move || lock.wait(ticket).push(place));
            }
            thread::sleep(held);
            drop(first);
        });
        lock.into_inner()
    }

    #[test]
    fn first_come_first_served() {
        for _ in 0..200 {
            assert_eq!(order_after(Duration::ZERO), (0..THREADS).collect::<Vec<_>>());
        }
    }

    #[test]
    fn sleepers_are_served_in_order_too() {
        assert_eq!(order_after(Duration::from_millis(200)), (0..THREADS).collect::<Vec<_>>());
    }

    /// Two threads by turns: a wake-up that is lost would stop both.
    #[test]
    fn two_sleep_by_turns() {
        let lock = Fair::<usize, 2>::new(0);
        thread::scope(|scope| {
            for _ in 0..2 {
                scope.spawn(|| {
                    for _ in 0..300 {
                        let mut count = lock.wait(lock.draw());
                        thread::sleep(Duration::from_micros(100));
                        *count += 1;
                    }
                });
            }
        });
        assert_eq!(lock.into_inner(), 600);
    }
}
