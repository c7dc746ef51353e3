//! Helping: whoever puts a letter does for its receiver what the rules then allow.
//!
//! A call does its own event under its own seat's lock, lets go of it, and then visits each receiver of a letter: takes
//! that lock, takes the letters, gives and asks, and begins the meal of the thread that waits there. So a fork that is
//! idle is fetched by the eater, and nobody is woken for it. Nothing is lost: whoever pushed a letter visits its
//! receiver afterwards, so when no thread is inside the library, each inbox is empty and no site has an event left but to
//! grow hungry, which nobody wants, or to end a meal, which its eater will do.

use super::sites::{bit, take_lowest, Seat, State};
use super::waiting::Waiter;
use super::{lock, OpenTable, Stage};
use crate::{Error, Kind, Result};
use std::sync::atomic::Ordering;
use std::sync::Arc;

// What is left to do once no lock is held.
#[derive(Default)]
pub(super) struct Todo {
    // Workers that got a letter, and those of which the first in the queue is to look at a neighbour, as bits.
    pub visit: u64,
    pub nudge: u64,
    // Those that may have got their last fork. They are visited before the others.
    pub first: u64,
    // The neighbours at which those that are nudged are to look.
    pub nudgers: u64,
    pub wake: Vec<Arc<Waiter>>,
    // Whoever has come for a meal in this call, and has to wait unless all that it lacks is idle.
    pub caller: Option<Arc<Waiter>>,
    renew: bool,
    all_finished: bool,
}

// Who is at a seat while it is attended.
#[derive(Clone, Copy, PartialEq, Eq)]
pub(super) enum Taker {
    // Nobody but those in the queue.
    Nobody,
    // The caller, who takes the next meal itself.
    Me,
}

impl<T: Send, S: Send> OpenTable<T, S> {
    // Each entry ends here. If the table was broken meanwhile, nobody may be left waiting, at whatever seat: a thread that
    // held one's lock when the table broke comes by here after it.
    pub(super) fn leave<X>(&self, result: Result<X>) -> Result<X> {
        if self.stage() == Stage::Broken {
            let mut todo = Todo::default();
            for seat in self.seats.iter() {
                self.send_away(&mut lock(&seat.state), &mut todo);
            }
            todo.wake.drain(..).for_each(|it| it.wake());
            drop(lock(&self.past));
            self.changed.notify_all();
        }
        result
    }

    // The library has refused what it should not have, or memory: the table is broken.
    pub(super) fn broken(&self, error: Error) -> Error {
        self.set_stage(Stage::Broken);
        error
    }

    pub(super) fn everyone(&self) -> Todo {
        Todo { visit: u64::MAX >> (64 - self.seats.len()), ..Todo::default() }
    }

    // Does what is left without a lock: wakes who may eat, and visits the receivers of letters.
    pub(super) fn finish(&self, todo: &mut Todo) -> Result<()> {
        loop {
            todo.wake.drain(..).for_each(|it| it.wake());
            let mut who = if todo.first == 0 { todo.visit | todo.nudge } else { todo.first };
            if let Some(n) = take_lowest(&mut who) {
                self.visit(n, todo)?;
            } else if std::mem::take(&mut todo.all_finished) {
                // This fails if there is no memory for new sites. Their values are lost.
                self.all_finished(todo).map_err(|it| self.broken(it))?;
            } else if std::mem::take(&mut todo.renew) {
                if self.turn(Stage::Open, Stage::Renewing).is_ok() {
                    todo.visit = self.everyone().visit;
                }
            } else {
                return Ok(());
            }
        }
    }

    fn visit(&self, n: usize, todo: &mut Todo) -> Result<()> {
        let seat = &self.seats[n];
        let is_nudged = todo.nudge >> n & 1 == 1;
        for who in [&mut todo.visit, &mut todo.nudge, &mut todo.first] {
            *who &= !(1 << n);
        }
        let mut state = lock(&seat.state);
        self.attend(seat, &mut state, todo, Taker::Nobody)?;
        if is_nudged {
            if let (true, false, Some(first)) = (state.hungry, state.eats, state.queue.front()) {
                first.nudge(todo.nudgers);
                todo.wake.push(first.clone());
            }
        }
        Ok(())
    }

    // Takes the letters of a worker, and does what the rules allow. Returns true if `taker` is the caller, who has the
    // lock, and eats now.
    pub(super) fn attend(
        &self,
        seat: &Seat<T, S>,
        state: &mut State<T, S>,
        todo: &mut Todo,
        taker: Taker,
    ) -> Result<bool> {
        let stage = self.stage();
        if stage >= Stage::Closing {
            self.send_away(state, todo);
        }
        if stage >= Stage::Closed {
            return Ok(false);
        }
        self.advance(seat, state, todo, taker, stage).map_err(|it| self.broken(it))
    }

    pub(super) fn send_away(&self, state: &mut State<T, S>, todo: &mut Todo) {
        for waiter in state.queue.drain(..) {
            waiter.send_away();
            todo.wake.push(waiter);
        }
    }

    fn advance(
        &self,
        seat: &Seat<T, S>,
        state: &mut State<T, S>,
        todo: &mut Todo,
        taker: Taker,
        stage: Stage,
    ) -> Result<bool> {
        self.drain(seat, state)?;
        let is_open = stage == Stage::Open;
        let patience = if is_open { self.manner.patience } else { 0 };
        while !state.eats {
            let wants = is_open && (taker == Taker::Me || !state.queue.is_empty());
            self.settle(seat, state, todo, wants, patience)?;
            match state.site.next() {
                None => break,
                Some(Kind::Hungry) if is_open && !wants => break,
                Some(_) if todo.first != 0 => {
                    // The next to eat is visited first. Then this one is visited again, for the rest.
                    todo.visit |= bit(seat.number);
                    return Ok(false);
                }
                Some(Kind::Begin) => {
                    self.begin_meal(seat, state)?;
                    if is_open && taker == Taker::Me {
                        return Ok(true);
                    }
                    self.serve(seat, state, todo, is_open)?;
                }
                Some(Kind::Hungry) => self.grow_hungry(seat, state)?,
                Some(kind) => self.put(seat, state, todo, kind)?,
            }
        }
        if !state.eats {
            self.count(state, todo, taker, is_open);
        }
        Ok(false)
    }

    // Gives the meal that has begun to the first in the queue. If nobody is there, it ends.
    fn serve(&self, seat: &Seat<T, S>, state: &mut State<T, S>, todo: &mut Todo, is_open: bool) -> Result<()> {
        match if is_open { state.queue.pop_front() } else { None } {
            Some(waiter) => {
                waiter.serve();
                // Whoever has just fetched idle forks did not wait.
                let is_caller = todo.caller.as_ref().map_or(false, |it| Arc::ptr_eq(it, &waiter));
                state.streak = u32::from(!is_caller);
                todo.wake.push(waiter);
                Ok(())
            }
            None => {
                state.empty += 1;
                self.end_meal(seat, state)
            }
        }
    }

    // Notes that this site is the last that had something left to do, or that it has no meal for those who wait.
    fn count(&self, state: &mut State<T, S>, todo: &mut Todo, taker: Taker, is_open: bool) {
        if !is_open {
            if !state.is_counted && state.site.is_finished() {
                state.is_counted = true;
                todo.all_finished |= self.finished.fetch_add(1, Ordering::SeqCst) + 1 == self.seats.len();
            }
        } else if !state.hungry && (taker == Taker::Me || !state.queue.is_empty()) {
            todo.renew = true;
        }
    }
}
