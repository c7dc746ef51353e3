//! Workers, the edges between them, and what they share: the table before it is opened.
//!
//! It is a value like any other. It refuses what cannot be part of a plan at the call that asks for it, so that `open`
//! and `run` fail for want of memory only, or because an edge has a worker of another table.

use crate::{Cause, Error, Plan, PlanBuilder, Position, Refusal, Result, MAX_EDGES, MAX_JOBS, MAX_NAME, MAX_SITES};
use std::sync::atomic::{AtomicU64, Ordering};

// What tells each worker, edge and open table of this process from all others.
pub(crate) fn next_mark() -> u64 {
    static NEXT: AtomicU64 = AtomicU64::new(0);
    NEXT.fetch_add(1, Ordering::Relaxed)
}

/// A worker of a table. A table and its clones know their workers, and refuse those of other tables.
#[derive(Clone, Copy, Debug, PartialEq, Eq, Hash, PartialOrd, Ord)]
pub struct WorkerId {
    number: u32,
    mark: u64,
}

impl WorkerId {
    /// Returns the number: workers are numbered from 0, in the order in which they were added.
    pub fn number(self) -> u32 {
        self.number
    }
}

/// An edge of a table. A table and its clones know their edges, and refuse those of other tables.
#[derive(Clone, Copy, Debug, PartialEq, Eq, Hash, PartialOrd, Ord)]
pub struct EdgeId {
    number: u32,
    mark: u64,
}

impl EdgeId {
    /// Returns the number: edges are numbered from 0, in the order in which they were added.
    pub fn number(self) -> u32 {
        self.number
    }
}

// Who is joined to whom.
#[derive(Clone, Debug, Default)]
pub(crate) struct Graph {
    pub ids: Vec<WorkerId>,
    pub names: Vec<String>,
    pub edge_ids: Vec<EdgeId>,
    pub ends: Vec<(WorkerId, WorkerId)>,
}

impl Graph {
    // The number of a worker of this table.
    pub fn worker(&self, id: WorkerId) -> Result<usize> {
        let number = id.number as usize;
        if self.ids.get(number) == Some(&id) { Ok(number) } else { Err(Error::OtherTable) }
    }

    // The number of an edge of this table.
    pub fn edge(&self, id: EdgeId) -> Result<usize> {
        let number = id.number as usize;
        if self.edge_ids.get(number) == Some(&id) { Ok(number) } else { Err(Error::OtherTable) }
    }

    pub fn named(&self, name: &str) -> Option<WorkerId> {
        self.names.iter().position(|it| it == name).map(|number| self.ids[number])
    }

    pub fn between(&self, one: WorkerId, other: WorkerId) -> Option<EdgeId> {
        let joins = |ends: &(WorkerId, WorkerId)| *ends == (one, other) || *ends == (other, one);
        self.ends.iter().position(joins).map(|number| self.edge_ids[number])
    }

    // The plan, with a number of jobs for each site, one of which may fail, by its number from 1. A site with jobs left
    // may give them up after one that fails.
    pub fn plan(&self, jobs: impl Fn(usize) -> (u32, Option<u32>)) -> Result<Plan> {
        let mut builder = PlanBuilder::new()?;
        for (at, name) in self.names.iter().enumerate() {
            let (count, fails) = jobs(at);
            let site = builder.site(name, count)?;
            builder.resign(site)?;
            if let Some(k) = fails {
                builder.fails(site, k)?;
            }
        }
        for (one, other) in &self.ends {
            builder.edge(one.number, other.number)?;
        }
        builder.finish()
    }

    fn refusal_of_worker(&self, name: &str) -> Option<Cause> {
        let is_letter = |it: u8| it.is_ascii_alphanumeric() || it == b'_' || it == b'-';
        if name.is_empty() || name.len() > MAX_NAME as usize || !name.bytes().all(is_letter) {
            Some(Cause::BadName)
        } else if self.names.iter().any(|it| it == name) {
            Some(Cause::SiteTwice)
        } else if self.names.len() == MAX_SITES as usize {
            Some(Cause::TooManySites)
        } else {
            None
        }
    }

    fn refusal_of_edge(&self, one: WorkerId, other: WorkerId) -> Option<Cause> {
        if one == other {
            Some(Cause::Loop)
        } else if self.between(one, other).is_some() {
            Some(Cause::EdgeTwice)
        } else if self.ends.len() == MAX_EDGES as usize {
            Some(Cause::TooManyEdges)
        } else {
            None
        }
    }
}

// How an open table goes about it.
#[derive(Clone, Copy, Debug)]
pub(crate) struct Manner {
    pub patience: u32,
    pub keep: usize,
    pub journals: bool,
    pub renew_after: u32,
}

/// The meals that a site of the library has at most. Once a site has eaten them, all sites are opened anew.
pub(crate) const MEALS: u32 = MAX_JOBS;

/// Workers and their edges, before they are opened or run.
///
/// `T` is what two workers share at their edge, `S` what each worker has for itself; `()` is nothing.
///
/// ```
/// let mut table = dine::Table::new();
/// let (ann, bob) = (table.worker("ann")?, table.worker("bob")?);
/// let account = table.edge(ann, bob, 100)?;
/// let open = table.open()?;
/// open.eat(ann, |meal| *meal.with(bob).unwrap() -= 30)?;
/// assert_eq!(*open.close()?.value(account), 70);
/// # Ok::<(), dine::Error>(())
/// ```
#[derive(Clone, Debug)]
pub struct Table<T, S = ()> {
    pub(crate) graph: Graph,
    pub(crate) values: Vec<T>,
    pub(crate) states: Vec<S>,
    pub(crate) manner: Manner,
}

impl<T> Table<T> {
    /// Makes a table without workers.
    pub fn new() -> Table<T> {
        Table::with_states()
    }

    /// Adds a worker with a name of its own, of 1 to 32 letters of ASCII, digits, `_` and `-`.
    ///
    /// # Errors
    ///
    /// `NoPlan` with the cause if the name is none or is another worker's, or if there are 64 workers.
    pub fn worker(&mut self, name: &str) -> Result<WorkerId> {
        self.worker_with(name, ())
    }
}

impl<T> Default for Table<T> {
    fn default() -> Table<T> {
        Table::new()
    }
}

impl<T, S> Table<T, S> {
    /// Makes a table without workers, each of which is to have a state of its own.
    ///
    /// ```
    /// let mut table = dine::Table::with_states();
    /// let ann = table.worker_with("ann", 0)?;
    /// let bob = table.worker_with("bob", 0)?;
    /// table.edge(ann, bob, ())?;
    /// let open = table.open()?;
    /// open.eat(ann, |meal| *meal.state() += 1)?;
    /// assert_eq!(open.close()?.into_parts(), (vec![()], vec![1, 0]));
    /// # Ok::<(), dine::Error>(())
    /// ```
    pub fn with_states() -> Table<T, S> {
        let manner = Manner { patience: 0, keep: 1000, journals: false, renew_after: MEALS };
        Table { graph: Graph::default(), values: Vec::new(), states: Vec::new(), manner }
    }

    /// Adds a worker with a name and a state of its own.
    ///
    /// # Errors
    ///
    /// Those of [`Table::worker`].
    pub fn worker_with(&mut self, name: &str, state: S) -> Result<WorkerId> {
        let number = self.graph.names.len() as u32;
        if let Some(cause) = self.graph.refusal_of_worker(name) {
            return Err(Error::NoPlan(Refusal { cause, position: Some(Position::Site(number)) }));
        }
        let id = WorkerId { number, mark: next_mark() };
        self.graph.ids.push(id);
        self.graph.names.push(name.to_string());
        self.states.push(state);
        Ok(id)
    }

    /// Adds an edge between two workers, with the value that they share.
    ///
    /// # Errors
    ///
    /// `OtherTable` if a worker is of another table, and `NoPlan` with the cause if both are one, if they have an edge
    /// already, or if there are 512 edges.
    pub fn edge(&mut self, one: WorkerId, other: WorkerId, value: T) -> Result<EdgeId> {
        self.graph.worker(one)?;
        self.graph.worker(other)?;
        let number = self.graph.ends.len() as u32;
        if let Some(cause) = self.graph.refusal_of_edge(one, other) {
            return Err(Error::NoPlan(Refusal { cause, position: Some(Position::Edge(number)) }));
        }
        let id = EdgeId { number, mark: next_mark() };
        self.graph.edge_ids.push(id);
        self.graph.ends.push((one, other));
        self.values.push(value);
        Ok(id)
    }

    /// Lets a worker begin up to this number of meals after a neighbour has asked, if it has all its forks.
    ///
    /// Then forks move less often, and a dense table takes less time; the longest wait is longer. If nobody comes for
    /// such a meal, the neighbour is woken, and takes the fork. With 0, which is the default, a worker is polite: it
    /// begins none, or one if by the rules it is first.
    pub fn patience(&mut self, meals: u32) -> &mut Table<T, S> {
        self.manner.patience = meals;
        self
    }

    /// The same without a limit.
    pub fn eager(&mut self) -> &mut Table<T, S> {
        self.patience(u32::MAX)
    }

    /// Sets how many stays of each fork its log keeps, the last ones: 1,000 by default, and all of them in `run`.
    pub fn keep_log(&mut self, stays: usize) -> &mut Table<T, S> {
        self.manner.keep = stays;
        self
    }

    /// Keeps what each site did, for [`Closed::order`](crate::Closed::order). This grows without end.
    pub fn keep_journals(&mut self) -> &mut Table<T, S> {
        self.manner.journals = true;
        self
    }

    #[doc(hidden)] // For tests: opens the sites anew after this number of meals of one, at most 1,000.
    pub fn renew_after(&mut self, meals: u32) -> &mut Table<T, S> {
        self.manner.renew_after = meals.clamp(1, MEALS);
        self
    }

    /// Returns the worker with this name.
    pub fn worker_named(&self, name: &str) -> Option<WorkerId> {
        self.graph.named(name)
    }

    /// Returns the edge between two workers.
    pub fn edge_between(&self, one: WorkerId, other: WorkerId) -> Option<EdgeId> {
        self.graph.between(one, other)
    }
}
