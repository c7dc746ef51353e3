//! Waiting for a meal, as a thread or as a task, with a limit of time or none.
//!
//! Those who wait for one worker form a queue, and whoever makes its meal possible begins it for the first of them and
//! wakes it; so nobody wakes up to find that a fork was given away again. Whoever gives up leaves the queue. By the rules
//! what its worker has asked for cannot be withdrawn: the worker stays hungry, and its meal goes to the next who comes, or
//! ends at once.
//!
//! With patience a worker may have put off requests when nobody is there for it any more. So after a meal it nudges the
//! first in the queue of a neighbour, who looks whether it is idle, and then makes it hear all requests. While it goes
//! on, that thread looks again from time to time, and nobody else is nudged.

use super::helping::{Taker, Todo};
use super::meals::{AsyncMeal, Got, Held, Meal};
use super::sites::{bit, Place, Seat, State};
use super::{lock, OpenTable, Stage};
use crate::table::WorkerId;
use crate::{Error, Result};
use std::cell::RefCell;
use std::future::Future;
use std::pin::Pin;
use std::sync::atomic::{AtomicU64, AtomicU8, Ordering};
use std::sync::{Arc, Mutex, MutexGuard};
use std::task::{Context, Poll, Waker};
use std::thread::Thread;
use std::time::{Duration, Instant};

// How long a thread that waits looks for its meal before it sleeps.
const SPIN: Duration = Duration::from_nanos(400);

// When a thread looks again at a neighbour that goes on. The system makes it some 50 microseconds more.
const WATCH: Duration = Duration::from_micros(20);

// Who waits for a meal.
pub(super) struct Waiter {
    // Changes under the lock of the seat.
    fate: AtomicU8,
    // The neighbours at which it is to look, as bits: they have put requests off, and maybe nobody comes for them now.
    nudged_by: AtomicU64,
    wake: Wake,
}

enum Wake {
    Thread(Thread),
    Task(Mutex<Option<Waker>>),
}

#[derive(Clone, Copy, PartialEq, Eq)]
enum Fate {
    Waits,
    Eats,
    SentAway,
}

impl Waiter {
    fn new(wake: Wake) -> Waiter {
        Waiter { fate: AtomicU8::new(Fate::Waits as u8), nudged_by: AtomicU64::new(0), wake }
    }

    fn fate(&self) -> Fate {
        [Fate::Waits, Fate::Eats, Fate::SentAway][usize::from(self.fate.load(Ordering::Acquire))]
    }

    pub fn serve(&self) {
        self.fate.store(Fate::Eats as u8, Ordering::Release);
    }

    pub fn send_away(&self) {
        self.fate.store(Fate::SentAway as u8, Ordering::Release);
    }

    pub fn nudge(&self, by: u64) {
        self.nudged_by.fetch_or(by, Ordering::SeqCst);
    }

    fn takes_nudges(&self) -> u64 {
        self.nudged_by.swap(0, Ordering::SeqCst)
    }

    // Looks for its fate for some time.
    fn spin(&self, time: Duration) {
        let mut begun = None;
        while self.fate() == Fate::Waits && begun.get_or_insert_with(Instant::now).elapsed() < time {
            std::hint::spin_loop();
        }
    }

    pub fn wake(&self) {
        match &self.wake {
            Wake::Thread(thread) => thread.unpark(),
            Wake::Task(waker) => {
                let waker = lock(waker).take();
                // A waker is a caller's code. If it panics, the visits that are left are done all the same.
                let wakes = move || waker.map(Waker::wake);
                drop(std::panic::catch_unwind(std::panic::AssertUnwindSafe(wakes)));
            }
        }
    }
}

thread_local! {
    // The tables at which this thread eats.
    static EATS_AT: RefCell<Vec<u64>> = const { RefCell::new(Vec::new()) };
    // A thread waits for one meal at a time, so it needs one of these.
    static ME: Arc<Waiter> = Arc::new(Waiter::new(Wake::Thread(std::thread::current())));
}

pub(super) fn leaves_meal_at(mark: u64) {
    EATS_AT.with(|it| it.borrow_mut().retain(|at| *at != mark));
}

#[derive(Clone, Copy)]
enum Until {
    Now,
    Then(Instant),
    Ever,
}

impl Until {
    fn after(time: Duration) -> Until {
        Instant::now().checked_add(time).map_or(Until::Ever, Until::Then)
    }

    // Sleeps until this thread is woken, for a time at most. Returns false if there is no time left.
    fn sleep(self, at_most: Duration) -> bool {
        let left = match self {
            Until::Now => Duration::ZERO,
            Until::Then(then) => then.saturating_duration_since(Instant::now()),
            Until::Ever => Duration::MAX,
        };
        match left.min(at_most) {
            Duration::ZERO => return false,
            Duration::MAX => std::thread::park(),
            time => std::thread::park_timeout(time),
        }
        true
    }
}

impl<T: Send, S: Send> OpenTable<T, S> {
    /// Waits for the forks of a worker, and calls `job` with the values of its edges.
    ///
    /// If the job panics, the meal ends, the panic goes on, and the edges of the worker are poisoned.
    ///
    /// # Errors
    ///
    /// In each case `job` is not called.
    /// - `Closed` if the table is closed, or is closed while this waits.
    /// - `InMeal` if this thread eats at this table: it would wait for itself.
    /// - `OtherTable` if the worker is of another table.
    /// - `Poisoned` if a job of the worker or of a neighbour panicked.
    /// - `Gone` if the table is broken, since an allocation of the library failed.
    pub fn eat<R>(&self, worker: WorkerId, job: impl FnOnce(&mut Meal<'_, T, S>) -> R) -> Result<R> {
        Ok(job(&mut self.lock(worker)?))
    }

    /// Waits for the forks of a worker. The meal ends when what is returned is dropped, on this thread.
    ///
    /// # Errors
    ///
    /// Those of [`OpenTable::eat`].
    pub fn lock(&self, worker: WorkerId) -> Result<Meal<'_, T, S>> {
        // It is never `None` without a limit.
        self.meal(worker, Until::Ever)?.ok_or(Error::Gone)
    }

    /// Eats if all forks can be had without waiting: those that are idle at neighbours are fetched. Returns `None` if they
    /// can't be had.
    ///
    /// If a neighbour is seen to eat or to wait, nothing is asked for. If one is quicker, the worker has asked already, and
    /// by the rules that can't be withdrawn: it has its turn later, in an empty meal, or for the next who comes for it.
    ///
    /// # Errors
    ///
    /// Those of [`OpenTable::eat`].
    pub fn try_eat<R>(&self, worker: WorkerId, job: impl FnOnce(&mut Meal<'_, T, S>) -> R) -> Result<Option<R>> {
        Ok(self.meal(worker, Until::Now)?.map(|mut meal| job(&mut meal)))
    }

    /// The same with a guard.
    ///
    /// # Errors
    ///
    /// Those of [`OpenTable::eat`].
    pub fn try_lock(&self, worker: WorkerId) -> Result<Option<Meal<'_, T, S>>> {
        self.meal(worker, Until::Now)
    }

    /// Eats if the forks come in time, or returns `None`. Then the worker has asked, as with [`OpenTable::try_eat`].
    ///
    /// # Errors
    ///
    /// Those of [`OpenTable::eat`].
    pub fn try_eat_for<R>(
        &self,
        worker: WorkerId,
        time: Duration,
        job: impl FnOnce(&mut Meal<'_, T, S>) -> R,
    ) -> Result<Option<R>> {
        Ok(self.meal(worker, Until::after(time))?.map(|mut meal| job(&mut meal)))
    }

    /// The same with a guard.
    ///
    /// # Errors
    ///
    /// Those of [`OpenTable::eat`].
    pub fn try_lock_for(&self, worker: WorkerId, time: Duration) -> Result<Option<Meal<'_, T, S>>> {
        self.meal(worker, Until::after(time))
    }

    /// Returns a future of the meal, which needs no runtime of its own. If it is dropped before it is ready, the worker
    /// may have asked, as with [`OpenTable::try_eat`].
    ///
    /// The meal may go to other threads. So nobody notices if a task that has it asks for another one at this table, and
    /// waits for itself.
    pub fn lock_async(&self, worker: WorkerId) -> LockFuture<'_, T, S> {
        LockFuture { open: self, worker, waiter: None }
    }

    pub(super) fn is_in_meal(&self) -> bool {
        EATS_AT.with(|it| it.borrow().contains(&self.mark))
    }

    fn meal(&self, worker: WorkerId, until: Until) -> Result<Option<Meal<'_, T, S>>> {
        let seat = self.seat(worker)?;
        if self.is_in_meal() {
            return Err(Error::InMeal);
        }
        let got = match self.leave(self.hold(seat, until))? {
            Some(it) => it,
            None => return Ok(None),
        };
        EATS_AT.with(|it| it.borrow_mut().push(self.mark));
        let meal = Meal::new(Held::new(self, seat, got));
        meal.unless_poisoned()?;
        Ok(Some(meal))
    }

    fn state_if_open<'a>(&self, seat: &'a Seat<T, S>) -> Result<MutexGuard<'a, State<T, S>>> {
        let state = lock(&seat.state);
        if self.stage() >= Stage::Closing { Err(self.refusal()) } else { Ok(state) }
    }

    // Waits until the worker eats for this thread.
    fn hold(&self, seat: &Seat<T, S>, until: Until) -> Result<Option<Got<T, S>>> {
        let mut todo = Todo::default();
        let mut state = self.state_if_open(seat)?;
        if let Until::Now = until {
            self.attend(seat, &mut state, &mut todo, Taker::Nobody)?;
            if self.is_taken(seat, &state) {
                drop(state);
                self.finish(&mut todo)?;
                return Ok(None);
            }
            state.is_hurried = true;
        }
        let taker = if state.queue.is_empty() { Taker::Me } else { Taker::Nobody };
        if self.attend(seat, &mut state, &mut todo, taker)? {
            let got = Got::take(&mut state);
            drop(state);
            return self.finish_with(&mut todo, seat, got).map(Some);
        }
        let me = ME.with(Arc::clone);
        me.fate.store(Fate::Waits as u8, Ordering::Relaxed);
        me.nudged_by.store(0, Ordering::Relaxed);
        state.queue.push_back(me.clone());
        drop(state);
        todo.caller = Some(me.clone());
        self.finish(&mut todo)?;
        self.sleep(seat, &me, until)
    }

    // If what is left to do fails, the meal has to end.
    fn finish_with(&self, todo: &mut Todo, seat: &Seat<T, S>, got: Got<T, S>) -> Result<Got<T, S>> {
        match self.finish(todo) {
            Ok(()) => Ok(got),
            Err(error) => {
                got.put_back(&mut lock(&seat.state));
                Err(error)
            }
        }
    }

    // Somebody is at the worker, or one of the forks that are not here is at a neighbour that eats or asks.
    fn is_taken(&self, seat: &Seat<T, S>, state: &State<T, S>) -> bool {
        let is_busy = |n: u32| self.seats[n as usize].is_busy.load(Ordering::Relaxed);
        let mut missing = seat.places.iter().enumerate().filter(|it| state.forks >> it.0 & 1 == 0);
        state.eats || !state.queue.is_empty() || missing.any(|it| is_busy(it.1.neighbour))
    }

    fn sleep(&self, seat: &Seat<T, S>, me: &Arc<Waiter>, until: Until) -> Result<Option<Got<T, S>>> {
        if let Until::Now = until {
            return self.give_up(seat, me);
        }
        me.spin(SPIN);
        // The neighbours that have nudged this thread, and at which it is still to look.
        let mut watched = 0;
        loop {
            match me.fate() {
                Fate::Waits => {}
                Fate::Eats => return Ok(Some(Got::take(&mut lock(&seat.state)))),
                Fate::SentAway => return Err(self.refusal()),
            }
            watched |= me.takes_nudges();
            if watched != 0 {
                watched = self.look(seat, watched)?;
                if watched == 0 {
                    continue;
                }
            }
            if !until.sleep(if watched == 0 { Duration::MAX } else { WATCH }) {
                return self.give_up(seat, me);
            }
        }
    }

    // Waits no more. The worker stays hungry, unless it eats already.
    pub(super) fn give_up(&self, seat: &Seat<T, S>, me: &Arc<Waiter>) -> Result<Option<Got<T, S>>> {
        let mut state = lock(&seat.state);
        match me.fate() {
            Fate::Eats => return Ok(Some(Got::take(&mut state))),
            Fate::Waits => state.queue.retain(|it| !Arc::ptr_eq(it, me)),
            Fate::SentAway => return Err(self.refusal()),
        }
        let is_alone = state.queue.is_empty();
        drop(state);
        if self.manner.patience > 0 {
            // It may have been nudged. If nobody is left, nobody can be.
            self.hurry(seat, is_alone)?;
        }
        Ok(None)
    }

    // Makes neighbours hear this worker that have put off its request, and at which nobody eats or waits now; if it is for
    // good, also later.
    fn hurry(&self, seat: &Seat<T, S>, for_good: bool) -> Result<()> {
        let lacking = {
            let mut state = lock(&seat.state);
            state.is_hurried |= for_good;
            state.lacking()
        };
        seat.places_of(lacking).try_for_each(|place| self.press(place, for_good))
    }

    // Looks at the neighbours that have nudged this worker, and makes them hear it. One that has begun a meal since it
    // nudged, or since the last look, may go on and be between two meals: if it had to hear, its forks would move after
    // each. So it is returned, to be looked at again, and nudges nobody till then. If this worker eats before that, the
    // neighbour has given its fork, and so has heard all who asked.
    fn look(&self, seat: &Seat<T, S>, nudgers: u64) -> Result<u64> {
        let lacking = lock(&seat.state).lacking();
        let mut again = 0;
        for place in seat.places_of(lacking).filter(|it| nudgers >> it.neighbour & 1 == 1) {
            let mut state = lock(&self.seats[place.neighbour as usize].state);
            let goes_on = state.has_nudged && state.looked != state.ate;
            state.looked = state.ate;
            drop(state);
            if goes_on {
                again |= bit(place.neighbour);
            } else {
                self.press(place, false)?;
            }
        }
        Ok(again)
    }

    fn press(&self, place: &Place, for_good: bool) -> Result<()> {
        let mut todo = Todo::default();
        let other = &self.seats[place.neighbour as usize];
        let mut state = lock(&other.state);
        self.drain(other, &mut state).map_err(|it| self.broken(it))?;
        state.has_nudged = false;
        if for_good || state.is_idle() {
            state.urgent |= state.put_off & bit(place.there);
        }
        self.attend(other, &mut state, &mut todo, Taker::Nobody)?;
        drop(state);
        self.finish(&mut todo)
    }
}

/// A future of a meal: see [`OpenTable::lock_async`].
#[must_use = "a future does nothing unless it is awaited"]
pub struct LockFuture<'a, T: Send, S: Send = ()> {
    open: &'a OpenTable<T, S>,
    worker: WorkerId,
    waiter: Option<Arc<Waiter>>,
}

type Ready<'a, T, S> = Poll<Result<AsyncMeal<'a, T, S>>>;

impl<'a, T: Send, S: Send> LockFuture<'a, T, S> {
    fn ready(&mut self, seat: &'a Seat<T, S>, got: Got<T, S>) -> Ready<'a, T, S> {
        self.waiter = None;
        let meal = AsyncMeal::new(Held::new(self.open, seat, got));
        Poll::Ready(meal.unless_poisoned().map(|()| meal))
    }

    // The first time: eats, or is put into the queue.
    fn begin(&mut self, seat: &'a Seat<T, S>, context: &Context<'_>) -> Result<Option<Got<T, S>>> {
        let open = self.open;
        let mut todo = Todo::default();
        let mut state = open.state_if_open(seat)?;
        let taker = if state.queue.is_empty() { Taker::Me } else { Taker::Nobody };
        if open.attend(seat, &mut state, &mut todo, taker)? {
            let got = Got::take(&mut state);
            drop(state);
            return open.finish_with(&mut todo, seat, got).map(Some);
        }
        let me = Arc::new(Waiter::new(Wake::Task(Mutex::new(Some(context.waker().clone())))));
        state.queue.push_back(me.clone());
        todo.caller = Some(me.clone());
        self.waiter = Some(me);
        drop(state);
        open.finish(&mut todo)?;
        Ok(None)
    }

    // In the queue: looks whether the meal has begun.
    fn look(&mut self, seat: &'a Seat<T, S>, me: &Waiter) -> Result<Option<Got<T, S>>> {
        if me.fate() == Fate::Waits && me.takes_nudges() != 0 {
            // A task has no clock, so it does not look again.
            self.open.hurry(seat, false)?;
        }
        match me.fate() {
            Fate::Waits => Ok(None),
            Fate::Eats => Ok(Some(Got::take(&mut lock(&seat.state)))),
            Fate::SentAway => {
                self.waiter = None;
                Err(self.open.refusal())
            }
        }
    }
}

impl<'a, T: Send, S: Send> Future for LockFuture<'a, T, S> {
    type Output = Result<AsyncMeal<'a, T, S>>;

    fn poll(mut self: Pin<&mut Self>, context: &mut Context<'_>) -> Poll<Self::Output> {
        let open = self.open;
        let seat = open.seat(self.worker)?;
        if self.waiter.is_none() {
            if let Some(got) = open.leave(self.begin(seat, context))? {
                return self.ready(seat, got);
            }
        }
        let me = match self.waiter.clone() {
            Some(it) => it,
            None => return Poll::Ready(Err(open.refusal())),
        };
        // First the waker, then the look: whoever decides the fate wakes after it.
        if let Wake::Task(waker) = &me.wake {
            *lock(waker) = Some(context.waker().clone());
        }
        match open.leave(self.look(seat, &me))? {
            Some(got) => self.ready(seat, got),
            None => Poll::Pending,
        }
    }
}

impl<T: Send, S: Send> Drop for LockFuture<'_, T, S> {
    fn drop(&mut self) {
        if let (Some(me), Ok(seat)) = (self.waiter.take(), self.open.seat(self.worker)) {
            if let Ok(Some(got)) = self.open.leave(self.open.give_up(seat, &me)) {
                lock(&seat.state).empty += 1;
                drop(Held::new(self.open, seat, got));
            }
        }
    }
}
