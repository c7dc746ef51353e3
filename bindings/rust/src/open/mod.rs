//! A table that is open: any thread, at any time, asks for the edges of a worker, works, and lets them go.
//!
//! There is no thread of the library. Each worker has a proved [`Site`] behind a small lock ([`sites`]). Whoever puts a
//! letter does for its receiver what the rules then allow ([`helping`]), so nobody has to sit at a worker for its
//! neighbours to go on. [`waiting`] is how a thread or a task waits for a meal, [`meals`] what it has during one, and
//! [`closing`] how the sites are opened anew, and how the table ends.
//!
//! Nobody has two of the locks of seats at once, except to open the sites anew when none of them has anything left to
//! do; then all are taken in order. So the locks have no cycle.

mod closing;
mod helping;
mod meals;
mod sites;
mod waiting;

pub use closing::{Closed, Stay};
pub use meals::{AsyncMeal, Meal};
pub use waiting::LockFuture;

use crate::table::{next_mark, Graph, Manner, Table, WorkerId};
use crate::{EdgeId, Error, Plan, Result, Site};
use closing::Past;
use sites::{Place, Seat, State};
use std::sync::atomic::{AtomicBool, AtomicU8, AtomicUsize, Ordering};
use std::sync::{Condvar, Mutex, MutexGuard, PoisonError};

/// A table that is open, until [`OpenTable::close`]. Threads share it by `&` or in an `Arc`.
///
/// ```
/// let mut table = dine::Table::new();
/// let (ann, bob) = (table.worker("ann")?, table.worker("bob")?);
/// let sum = table.edge(ann, bob, 0)?;
/// let open = table.open()?;
/// std::thread::scope(|scope| {
///     for worker in [ann, bob, ann, bob] {
///         let open = &open;
///         scope.spawn(move || {
///             for _ in 0..1000 {
///                 open.eat(worker, |meal| meal.values().for_each(|(_, it)| *it += 1)).unwrap();
///             }
///         });
///     }
/// });
/// assert_eq!(*open.close()?.value(sum), 4000);
/// # Ok::<(), dine::Error>(())
/// ```
pub struct OpenTable<T, S = ()> {
    mark: u64,
    graph: Graph,
    manner: Manner,
    // The most meals of each worker until the sites are opened anew.
    meals: Vec<u32>,
    plan: Mutex<Plan>,
    seats: Box<[Seat<T, S>]>,
    stage: AtomicU8,
    // How many sites have nothing left to do, while they are opened anew or closed.
    finished: AtomicUsize,
    past: Mutex<Past<T, S>>,
    changed: Condvar,
    // Whether a job panicked, ever and at each edge.
    has_poison: AtomicBool,
    poisoned: Box<[AtomicBool]>,
}

// A table goes from open to renewing and back, and at last to closing and closed, or to broken.
#[derive(Clone, Copy, PartialEq, Eq, PartialOrd, Ord)]
enum Stage {
    Open,
    Renewing,
    Closing,
    Closed,
    Broken,
}

impl Stage {
    const ALL: [Stage; 5] = [Stage::Open, Stage::Renewing, Stage::Closing, Stage::Closed, Stage::Broken];
}

// No code of a caller runs under a lock, so a poisoned lock says nothing.
fn lock<X>(mutex: &Mutex<X>) -> MutexGuard<'_, X> {
    mutex.lock().unwrap_or_else(PoisonError::into_inner)
}

impl<T: Send, S: Send> Table<T, S> {
    /// Opens the table. What it returns may be shared by threads, and used at any time and any number of times.
    ///
    /// # Errors
    ///
    /// `Memory` if an allocation of the library fails, and `NoPlan` if there is no worker.
    pub fn open(self) -> Result<OpenTable<T, S>> {
        let meals = vec![self.manner.renew_after; self.graph.names.len()];
        self.open_for(meals)
    }

    // Opens it with the number of meals that each site is to have, at most 1,000.
    pub(crate) fn open_for(self, meals: Vec<u32>) -> Result<OpenTable<T, S>> {
        let Table { graph, values, states, manner } = self;
        let plan = graph.plan(|at| (meals[at], None))?;
        let seats = seats(&plan, &graph, values, states, manner.journals)?;
        let poisoned = graph.ends.iter().map(|_| AtomicBool::new(false)).collect();
        Ok(OpenTable {
            mark: next_mark(),
            past: Mutex::new(Past::new(graph.ends.len())),
            graph,
            manner,
            meals,
            plan: Mutex::new(plan),
            seats: seats.into(),
            stage: AtomicU8::new(Stage::Open as u8),
            finished: AtomicUsize::new(0),
            changed: Condvar::new(),
            has_poison: AtomicBool::new(false),
            poisoned,
        })
    }
}

// A seat for each worker, with the values of the forks that it has at the start.
fn seats<T, S>(plan: &Plan, graph: &Graph, values: Vec<T>, states: Vec<S>, journals: bool) -> Result<Vec<Seat<T, S>>> {
    let mut values: Vec<_> = values.into_iter().map(|it| Some(Box::new(it))).collect();
    let sites = (0..plan.sites()).map(|n| Site::open(plan, n)).collect::<Result<Vec<_>>>()?;
    let mut all_places = Vec::new();
    // The place of each edge at its lower and at its higher end.
    let mut ends = vec![(0, 0); values.len()];
    for (n, site) in (0u32..).zip(&sites) {
        let places = (0..site.degree()).map(|i| site.place(i)).collect::<Result<Vec<_>>>()?;
        for (i, place) in (0u8..).zip(&places) {
            let end = &mut ends[place.edge as usize];
            *(if n < place.neighbour { &mut end.0 } else { &mut end.1 }) = i;
        }
        all_places.push(places);
    }
    let mut seats = Vec::new();
    for (((n, site), own), places) in (0u32..).zip(sites).zip(states).zip(all_places) {
        let mut state = State::new(site, places.len(), own, journals);
        for (i, place) in places.iter().enumerate().filter(|it| it.1.has_fork) {
            state.has_fork(i, values[place.edge as usize].take());
        }
        let at_edge = |place: &crate::Place| {
            let (low, high) = ends[place.edge as usize];
            let there = if n < place.neighbour { high } else { low };
            Place { edge: place.edge, neighbour: place.neighbour, there, id: graph.ids[place.neighbour as usize] }
        };
        seats.push(Seat::new(n, places.iter().map(at_edge).collect(), state));
    }
    Ok(seats)
}

impl<T: Send, S: Send> OpenTable<T, S> {
    fn seat(&self, worker: WorkerId) -> Result<&Seat<T, S>> {
        Ok(&self.seats[self.graph.worker(worker)?])
    }

    fn stage(&self) -> Stage {
        Stage::ALL[usize::from(self.stage.load(Ordering::SeqCst))]
    }

    fn set_stage(&self, to: Stage) {
        self.stage.store(to as u8, Ordering::SeqCst);
    }

    // Goes from one stage to another if the table is at the first. Else returns the stage that it is at.
    fn turn(&self, from: Stage, to: Stage) -> std::result::Result<(), Stage> {
        let turned = self.stage.compare_exchange(from as u8, to as u8, Ordering::SeqCst, Ordering::SeqCst);
        turned.map(|_| ()).map_err(|found| Stage::ALL[usize::from(found)])
    }

    // What a call returns that finds the table closed or broken.
    fn refusal(&self) -> Error {
        if self.stage() == Stage::Broken { Error::Gone } else { Error::Closed }
    }

    /// Returns the worker with this name.
    pub fn worker_named(&self, name: &str) -> Option<WorkerId> {
        self.graph.named(name)
    }

    /// Returns the edge between two workers.
    pub fn edge_between(&self, one: WorkerId, other: WorkerId) -> Option<EdgeId> {
        self.graph.between(one, other)
    }

    /// Returns whether a job panicked while it had the value of the edge. False if the edge is of another table.
    pub fn is_poisoned(&self, edge: EdgeId) -> bool {
        self.graph.edge(edge).map_or(false, |number| self.poisoned[number].load(Ordering::Relaxed))
    }

    /// Says that all values are sound, whatever job panicked.
    pub fn clear_poison(&self) {
        self.has_poison.store(false, Ordering::Relaxed);
        self.poisoned.iter().for_each(|it| it.store(false, Ordering::Relaxed));
    }
}

impl<T, S> std::fmt::Debug for OpenTable<T, S> {
    fn fmt(&self, f: &mut std::fmt::Formatter<'_>) -> std::fmt::Result {
        f.debug_struct("OpenTable").field("workers", &self.graph.names).finish_non_exhaustive()
    }
}
