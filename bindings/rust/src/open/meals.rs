//! A meal: what a thread or a task has of its worker, until it drops it.
//!
//! The values and the worker's state move into the guard and back, so whoever has the guard is the only one who has them.
//! A guard that is dropped by a panic ends its meal like any other, and marks the edges of the worker: the next who would
//! see these values is told.

use super::helping::{Taker, Todo};
use super::sites::{Seat, State};
use super::waiting::leaves_meal_at;
use super::{lock, OpenTable};
use crate::table::WorkerId;
use crate::{Error, Result};
use std::marker::PhantomData;
use std::sync::atomic::Ordering;

// What a meal takes along from its seat.
pub(super) struct Got<T, S> {
    values: Vec<Option<Box<T>>>,
    own: Option<Box<S>>,
    k: u64,
}

impl<T, S> Got<T, S> {
    pub fn take(state: &mut State<T, S>) -> Got<T, S> {
        let values = std::mem::take(&mut state.values);
        Got { values, own: state.own.take(), k: state.before + u64::from(state.ate) }
    }

    pub fn put_back(self, state: &mut State<T, S>) {
        state.values = self.values;
        state.own = self.own;
    }
}

pub(super) struct Held<'a, T: Send, S: Send> {
    open: &'a OpenTable<T, S>,
    seat: &'a Seat<T, S>,
    // `None` once it is dropped.
    got: Option<Got<T, S>>,
    // The thread was unwinding before the meal began.
    was_panicking: bool,
}

impl<'a, T: Send, S: Send> Held<'a, T, S> {
    pub fn new(open: &'a OpenTable<T, S>, seat: &'a Seat<T, S>, got: Got<T, S>) -> Held<'a, T, S> {
        Held { open, seat, got: Some(got), was_panicking: std::thread::panicking() }
    }

    fn got(&mut self) -> &mut Got<T, S> {
        self.got.as_mut().expect("a meal has them until it is dropped")
    }

    fn place(&self, neighbour: WorkerId) -> Option<usize> {
        self.seat.places.iter().position(|it| it.id == neighbour)
    }

    fn both(&mut self, one: WorkerId, other: WorkerId) -> Option<(&mut T, &mut T)> {
        let (i, j) = (self.place(one)?, self.place(other)?);
        if i == j {
            return None;
        }
        let (low, high) = self.got().values.split_at_mut(i.max(j));
        let (low, high) = (low[i.min(j)].as_deref_mut()?, high[0].as_deref_mut()?);
        Some(if i < j { (low, high) } else { (high, low) })
    }

    fn split(&mut self) -> (&mut S, impl Iterator<Item = (WorkerId, &mut T)>) {
        let ids = self.seat.places.iter().map(|it| it.id);
        let got = self.got.as_mut().expect("a meal has them until it is dropped");
        let values = got.values.iter_mut().filter_map(|it| it.as_deref_mut());
        (got.own.as_deref_mut().expect("a worker has a state"), ids.zip(values))
    }
}

impl<T: Send, S: Send> Drop for Held<'_, T, S> {
    fn drop(&mut self) {
        let edges = || self.seat.places.iter().map(|it| &self.open.poisoned[it.edge as usize]);
        if std::thread::panicking() && !self.was_panicking {
            edges().for_each(|it| it.store(true, Ordering::Relaxed));
            self.open.has_poison.store(true, Ordering::Relaxed);
        }
        if let Some(got) = self.got.take() {
            // If this fails, the table is broken, and the next call says so.
            let _ = self.open.leave(self.open.end(self.seat, got));
        }
    }
}

impl<T: Send, S: Send> OpenTable<T, S> {
    fn end(&self, seat: &Seat<T, S>, got: Got<T, S>) -> Result<()> {
        let mut todo = Todo::default();
        let mut state = lock(&seat.state);
        got.put_back(&mut state);
        self.end_meal(seat, &mut state).map_err(|it| self.broken(it))?;
        self.attend(seat, &mut state, &mut todo, Taker::Nobody)?;
        drop(state);
        self.finish(&mut todo)
    }
}

macro_rules! meal_calls {
    ($meal:ident) => {
        impl<'a, T: Send, S: Send> $meal<'a, T, S> {
            /// Returns the value that the worker shares with this neighbour, if it is one.
            pub fn with(&mut self, neighbour: WorkerId) -> Option<&mut T> {
                let place = self.held.place(neighbour)?;
                self.held.got().values[place].as_deref_mut()
            }

            /// Returns the values that the worker shares with two neighbours, if both are, and are not one.
            pub fn both(&mut self, one: WorkerId, other: WorkerId) -> Option<(&mut T, &mut T)> {
                self.held.both(one, other)
            }

            /// Returns all values of the worker, each with the neighbour that shares it, in the order in which their
            /// edges were added.
            pub fn values(&mut self) -> impl Iterator<Item = (WorkerId, &mut T)> {
                self.held.split().1
            }

            /// Returns the state of the worker.
            pub fn state(&mut self) -> &mut S {
                self.held.split().0
            }

            /// Returns the state of the worker and all its values at once.
            pub fn split(&mut self) -> (&mut S, impl Iterator<Item = (WorkerId, &mut T)>) {
                self.held.split()
            }

            /// Returns the worker.
            pub fn worker(&self) -> WorkerId {
                self.held.open.graph.ids[self.held.seat.number as usize]
            }

            /// Returns the name of the worker, which may be kept beside the values.
            pub fn name(&self) -> &'a str {
                &self.held.open.graph.names[self.held.seat.number as usize]
            }

            /// Returns which meal of the worker it is, from 1, as in the logs. Empty meals count.
            pub fn k(&self) -> u64 {
                self.held.got.as_ref().map_or(0, |it| it.k)
            }

            pub(super) fn new(held: Held<'a, T, S>) -> $meal<'a, T, S> {
                $meal { held, here: PhantomData }
            }

            pub(super) fn unless_poisoned(&self) -> Result<()> {
                let open = self.held.open;
                let is_poisoned = |edge: u32| open.poisoned[edge as usize].load(Ordering::Relaxed);
                let mut places = self.held.seat.places.iter();
                if open.has_poison.load(Ordering::Relaxed) && places.any(|it| is_poisoned(it.edge)) {
                    return Err(Error::Poisoned);
                }
                Ok(())
            }
        }

        impl<T: Send, S: Send> std::fmt::Debug for $meal<'_, T, S> {
            fn fmt(&self, f: &mut std::fmt::Formatter<'_>) -> std::fmt::Result {
                f.debug_struct(stringify!($meal)).field("worker", &self.name()).field("k", &self.k()).finish()
            }
        }
    };
}

/// A meal of a thread: the values of all edges of a worker, and its state. The meal ends when this is dropped, also by a
/// panic. It stays on its thread.
///
/// ```
/// let mut table = dine::Table::new();
/// let (ann, bob, cid) = (table.worker("ann")?, table.worker("bob")?, table.worker("cid")?);
/// table.edge(ann, bob, 100)?;
/// table.edge(ann, cid, 100)?;
/// let open = table.open()?;
/// let mut meal = open.lock(ann)?;
/// let (from, to) = meal.both(bob, cid).unwrap();
/// *from -= 30;
/// *to += 30;
/// drop(meal);
/// assert_eq!(open.close()?.into_values(), [70, 130]);
/// # Ok::<(), dine::Error>(())
/// ```
pub struct Meal<'a, T: Send, S: Send = ()> {
    held: Held<'a, T, S>,
    // Not `Send`: whether a thread eats is noted at the thread.
    here: PhantomData<*const ()>,
}

meal_calls!(Meal);

impl<T: Send, S: Send> Drop for Meal<'_, T, S> {
    fn drop(&mut self) {
        leaves_meal_at(self.held.open.mark);
    }
}

/// A meal of a task, by [`OpenTable::lock_async`]. It may go to other threads.
pub struct AsyncMeal<'a, T: Send, S: Send = ()> {
    held: Held<'a, T, S>,
    here: PhantomData<()>,
}

meal_calls!(AsyncMeal);
