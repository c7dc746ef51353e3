//! The end of the sites: they are opened anew, since a site has at most so many meals, or the table is closed.
//!
//! Both go the same way. Each worker that has meals left eats one more, for nobody, which is told as failed, and then its
//! site gives up the rest; it says Done and Close to each neighbour. Once no site has anything left to do, the logs are
//! whole, and each value is where its fork is. Until then no meal begins for anybody, so a renewal waits for the meals
//! that have begun, and all who come meanwhile wait for the renewal.

use super::helping::Todo;
use super::sites::State;
use super::{lock, OpenTable, Stage};
use crate::table::{EdgeId, Graph, WorkerId};
use crate::{Error, Event, Kind, Period, Result, Site, World};
use std::collections::VecDeque;
use std::sync::atomic::Ordering;
use std::sync::{MutexGuard, PoisonError};

/// A stay of a fork at a worker: the number of the worker's first meal with it, from 1, and how many.
#[derive(Clone, Copy, Debug, PartialEq, Eq)]
pub struct Stay {
    /// The worker.
    pub worker: WorkerId,
    /// Which meal of the worker was the first one.
    pub first: u64,
    /// How many meals it ate.
    pub count: u64,
}

// What the sites that were here left behind.
pub(super) struct Past<T, S> {
    logs: Vec<VecDeque<Stay>>,
    journals: Vec<Vec<Vec<Event>>>,
    // The number of meals of each worker, and of those that nobody was there for.
    ate: Vec<(u64, u64)>,
    left: Option<(Vec<T>, Vec<S>)>,
    opened: u64,
}

impl<T, S> Past<T, S> {
    pub fn new(edges: usize) -> Past<T, S> {
        let logs = (0..edges).map(|_| VecDeque::new()).collect();
        Past { logs, journals: Vec::new(), ate: Vec::new(), left: None, opened: 0 }
    }
}

impl<T: Send, S: Send> OpenTable<T, S> {
    // No site has anything left to do.
    pub(super) fn all_finished(&self, todo: &mut Todo) -> Result<()> {
        let mut past = lock(&self.past);
        let mut states: Vec<_> = self.seats.iter().map(|seat| lock(&seat.state)).collect();
        let mut values: Vec<Option<Box<T>>> = self.graph.ends.iter().map(|_| None).collect();
        let before: Vec<u64> = states.iter().map(|it| it.before).collect();
        for (seat, state) in self.seats.iter().zip(&mut states) {
            let forks = state.forks;
            for (i, place) in seat.places.iter().enumerate().filter(|it| forks >> it.0 & 1 == 1) {
                values[place.edge as usize] = state.values[i].take();
                self.keep(&mut past.logs[place.edge as usize], &state.site.log(i as u32)?, &before);
            }
        }
        if self.manner.journals {
            let journals = states.iter_mut().map(|it| it.journal.replace(Vec::new()).unwrap_or_default());
            past.journals.push(journals.collect());
        }
        past.opened += 1;
        if self.stage() == Stage::Closing {
            past.ate = states.iter().map(|it| (it.before + u64::from(it.ate), it.empty)).collect();
            let states = states.iter_mut().filter_map(|it| it.own.take().map(|own| *own)).collect();
            past.left = Some((values.into_iter().filter_map(|it| it.map(|it| *it)).collect(), states));
            self.set_stage(Stage::Closed);
        } else {
            self.open_anew(&mut states, values, todo)?;
            self.finished.store(0, Ordering::SeqCst);
            self.set_stage(Stage::Open);
        }
        self.changed.notify_all();
        Ok(())
    }

    fn open_anew(
        &self,
        states: &mut [MutexGuard<'_, State<T, S>>],
        mut values: Vec<Option<Box<T>>>,
        todo: &mut Todo,
    ) -> Result<()> {
        let plan = lock(&self.plan);
        for (seat, state) in self.seats.iter().zip(states) {
            state.set_anew(Site::open(&plan, seat.number)?);
            for (i, place) in seat.places.iter().enumerate() {
                if state.site.place(i as u32)?.has_fork {
                    state.has_fork(i, values[place.edge as usize].take());
                }
            }
            seat.lacks.store(state.lacks(), Ordering::Relaxed);
            if !state.queue.is_empty() {
                todo.visit |= 1 << seat.number;
            }
        }
        Ok(())
    }

    // Adds the stays of a fork to its log, which has only the last ones. A site counts from its own start.
    fn keep(&self, log: &mut VecDeque<Stay>, periods: &[Period], before: &[u64]) {
        for period in periods.iter().filter(|it| it.count > 0 && self.manner.keep > 0) {
            let worker = self.graph.ids[period.site as usize];
            let first = before[period.site as usize] + u64::from(period.first);
            match log.back_mut() {
                Some(last) if last.worker == worker => last.count += u64::from(period.count),
                _ => log.push_back(Stay { worker, first, count: u64::from(period.count) }),
            }
            if log.len() > self.manner.keep {
                log.pop_front();
            }
        }
    }

    /// Closes the table, and returns what is left. Those who wait get `Closed`; meals that have begun are waited for. Each
    /// worker that has meals left then eats one more, which is empty.
    ///
    /// # Errors
    ///
    /// - `Closed` if the table is closed already.
    /// - `InMeal` if this thread eats at this table.
    /// - `Gone` if the table is broken, since an allocation of the library failed. Then the values are lost.
    pub fn close(&self) -> Result<Closed<T, S>> {
        if self.is_in_meal() {
            return Err(Error::InMeal);
        }
        self.begin_to_close()?;
        self.leave(self.finish(&mut self.everyone()))?;
        let mut past = lock(&self.past);
        while self.stage() == Stage::Closing {
            past = self.changed.wait(past).unwrap_or_else(PoisonError::into_inner);
        }
        let (values, states) = past.left.take().ok_or(Error::Gone)?;
        Ok(Closed {
            graph: self.graph.clone(),
            meals: self.meals.clone(),
            values,
            states,
            poisoned: self.poisoned.iter().map(|it| it.load(Ordering::Relaxed)).collect(),
            logs: past.logs.drain(..).map(Into::into).collect(),
            ate: std::mem::take(&mut past.ate),
            journals: std::mem::take(&mut past.journals),
            opened: past.opened,
        })
    }

    // Waits until the sites are not being opened anew.
    fn begin_to_close(&self) -> Result<()> {
        let mut past = lock(&self.past);
        loop {
            match self.turn(Stage::Open, Stage::Closing) {
                Ok(()) => return Ok(()),
                Err(Stage::Renewing) => past = self.changed.wait(past).unwrap_or_else(PoisonError::into_inner),
                Err(_) => return Err(self.refusal()),
            }
        }
    }
}

/// What is left of a table that was closed.
///
/// Calls that take an id panic if it is of another table.
///
/// ```
/// let mut table = dine::Table::new();
/// let (ann, bob) = (table.worker("ann")?, table.worker("bob")?);
/// let edge = table.edge(ann, bob, 0)?;
/// let open = table.open()?;
/// open.eat(bob, |meal| *meal.with(ann).unwrap() += 1)?;
/// let closed = open.close()?;
/// assert_eq!((*closed.value(edge), closed.ate(bob)), (1, 1));
/// assert_eq!(closed.log(edge)[0].worker, bob);
/// # Ok::<(), dine::Error>(())
/// ```
#[derive(Clone, Debug)]
pub struct Closed<T, S = ()> {
    pub(crate) graph: Graph,
    meals: Vec<u32>,
    values: Vec<T>,
    states: Vec<S>,
    poisoned: Vec<bool>,
    logs: Vec<Vec<Stay>>,
    ate: Vec<(u64, u64)>,
    journals: Vec<Vec<Vec<Event>>>,
    opened: u64,
}

impl<T, S> Closed<T, S> {
    fn edge(&self, id: EdgeId) -> usize {
        self.graph.edge(id).expect("an edge of another table")
    }

    pub(crate) fn worker(&self, id: WorkerId) -> usize {
        self.graph.worker(id).expect("a worker of another table")
    }

    /// Returns the value of an edge.
    pub fn value(&self, edge: EdgeId) -> &T {
        &self.values[self.edge(edge)]
    }

    /// Returns the values of all edges, in the order in which they were added.
    pub fn into_values(self) -> Vec<T> {
        self.values
    }

    /// Returns the state of a worker.
    pub fn state(&self, worker: WorkerId) -> &S {
        &self.states[self.worker(worker)]
    }

    /// Returns all values and all states, in the order in which they were added.
    pub fn into_parts(self) -> (Vec<T>, Vec<S>) {
        (self.values, self.states)
    }

    /// Returns whether a job panicked while it had the value, and nobody said since that it is sound.
    pub fn is_poisoned(&self, edge: EdgeId) -> bool {
        self.poisoned[self.edge(edge)]
    }

    /// Returns who ate with the fork of the edge, in turn: the last stays, with the empty meals.
    pub fn log(&self, edge: EdgeId) -> &[Stay] {
        &self.logs[self.edge(edge)]
    }

    /// Returns how many meals of the worker somebody was there for.
    pub fn ate(&self, worker: WorkerId) -> u64 {
        let (all, empty) = self.ate[self.worker(worker)];
        all - empty
    }

    /// Returns how many meals of the worker were empty: whoever asked for it had given up, or the worker ate its last meal
    /// when the table was closed, or when its sites were opened anew, which is after 1,000 meals of one.
    pub fn empty_meals(&self, worker: WorkerId) -> u64 {
        self.ate[self.worker(worker)].1
    }

    #[doc(hidden)] // For tests: how often the sites were opened.
    pub fn opened(&self) -> u64 {
        self.opened
    }

    /// Finds an order of all events, for each time that the sites were opened, which the proved world accepts up to its
    /// end, and returns the number of events. Then all that is proved of every schedule holds of what the threads did.
    ///
    /// # Errors
    ///
    /// - `NoJournals` if none were kept: see [`Table::keep_journals`](crate::Table::keep_journals).
    /// - `NotNow` if there is no order.
    pub fn order(&self) -> Result<u64> {
        if self.journals.is_empty() {
            return Err(Error::NoJournals);
        }
        let mut count = 0;
        for journals in &self.journals {
            // The last meal of a site that gave up the rest was told as failed.
            let plan = self.graph.plan(|at| {
                let has = |kind| journals[at].iter().filter(|it| it.kind == kind).count() as u32;
                let fails = if has(Kind::Quit) > 0 { Some(has(Kind::Begin)) } else { None };
                (self.meals[at], fails)
            })?;
            let mut world = World::open(&plan)?;
            count += world.order(journals)?.len() as u64;
            if !world.enabled().is_empty() {
                return Err(Error::NotNow);
            }
        }
        Ok(count)
    }
}
