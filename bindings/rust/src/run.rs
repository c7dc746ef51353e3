//! A run: a thread for each worker, which eats its meals at an open table.

use crate::table::{Table, MEALS};
use crate::{Closed, EdgeId, Error, Meal, OpenTable, Result, Stay, WorkerId};
use std::sync::atomic::{AtomicBool, Ordering};
use std::time::{Duration, Instant};

/// What is reported while a table runs. Each call comes from the thread of its worker, and does nothing by default.
///
/// ```
/// struct Longest(std::sync::Mutex<std::time::Duration>);
///
/// impl dine::Watch for Longest {
///     fn begins(&self, _worker: &str, _k: u64, waited: std::time::Duration) {
///         let mut longest = self.0.lock().unwrap();
///         *longest = waited.max(*longest);
///     }
/// }
/// ```
pub trait Watch: Sync {
    /// A meal begins. `waited` is how long the worker waited for its forks.
    fn begins(&self, _worker: &str, _k: u64, _waited: Duration) {}
    /// A meal ends. `ok` says whether its job returned `Ok`.
    fn ends(&self, _worker: &str, _k: u64, _ok: bool, _took: Duration) {}
}

/// Reports nothing.
impl Watch for () {}

/// What a run leaves.
///
/// Calls that take an id panic if it is of another table.
#[derive(Debug)]
pub struct Done<T, R, E, S = ()> {
    closed: Closed<T, S>,
    results: Vec<Vec<std::result::Result<R, E>>>,
}

// What the threads of a run share.
struct Run<'a, T, S> {
    open: &'a OpenTable<T, S>,
    stop: &'a AtomicBool,
    // A job panicked, or the table broke: nobody begins another job.
    is_over: AtomicBool,
    watch: &'a dyn Watch,
}

impl<T: Send, S: Send> Table<T, S> {
    /// Runs each worker on a thread of its own, until each has eaten this number of meals. `job` is called for each meal.
    /// A meal whose job returns `Err` is over like any other.
    ///
    /// ```
    /// let mut table = dine::Table::new();
    /// let (ann, bob) = (table.worker("ann")?, table.worker("bob")?);
    /// let edge = table.edge(ann, bob, 0)?;
    /// let done = table.run(50, &(), |meal| {
    ///     meal.values().for_each(|(_, it)| *it += 1);
    ///     if meal.k() == 7 { Err("seven") } else { Ok(meal.k()) }
    /// })?;
    /// assert_eq!((*done.value(edge), done.failures().count()), (100, 2));
    /// # Ok::<(), dine::Error>(())
    /// ```
    ///
    /// # Errors
    ///
    /// - `NoPlan` if there is no worker.
    /// - `Memory` or `Gone` if an allocation of the library fails. Then the values are lost.
    ///
    /// If a job panics, no job is begun any more, and the panic goes on.
    pub fn run<R: Send, E: Send>(
        self,
        meals: u64,
        watch: &dyn Watch,
        job: impl Fn(&mut Meal<'_, T, S>) -> std::result::Result<R, E> + Sync,
    ) -> Result<Done<T, R, E, S>> {
        self.run_each(|_| meals, watch, job)
    }

    /// The same, where each worker eats a number of meals of its own.
    ///
    /// # Errors
    ///
    /// Those of [`Table::run`].
    pub fn run_each<R: Send, E: Send>(
        self,
        meals: impl Fn(WorkerId) -> u64,
        watch: &dyn Watch,
        job: impl Fn(&mut Meal<'_, T, S>) -> std::result::Result<R, E> + Sync,
    ) -> Result<Done<T, R, E, S>> {
        let meals = self.graph.ids.iter().map(|id| meals(*id)).collect();
        self.run_all(meals, &AtomicBool::new(false), watch, job)
    }

    /// The same until `stop` is set, by any thread, however many meals that are. Then no job is begun any more; a job that
    /// has begun is not interrupted.
    ///
    /// # Errors
    ///
    /// Those of [`Table::run`].
    pub fn run_until<R: Send, E: Send>(
        self,
        stop: &AtomicBool,
        watch: &dyn Watch,
        job: impl Fn(&mut Meal<'_, T, S>) -> std::result::Result<R, E> + Sync,
    ) -> Result<Done<T, R, E, S>> {
        let meals = vec![u64::MAX; self.graph.ids.len()];
        self.run_all(meals, stop, watch, job)
    }

    fn run_all<R: Send, E: Send>(
        mut self,
        meals: Vec<u64>,
        stop: &AtomicBool,
        watch: &dyn Watch,
        job: impl Fn(&mut Meal<'_, T, S>) -> std::result::Result<R, E> + Sync,
    ) -> Result<Done<T, R, E, S>> {
        self.manner.keep = usize::MAX;
        let ids = self.graph.ids.clone();
        // If no worker eats more than a site can, each site has just its meals, and none is opened anew.
        let most = u64::from(self.manner.renew_after);
        let are_few = meals.iter().all(|it| *it <= most);
        let sites = meals.iter().map(|it| if are_few { *it } else { most } as u32).collect();
        let open = self.open_for(sites)?;
        let run = Run { open: &open, stop, is_over: AtomicBool::new(false), watch };
        let ran: Vec<_> = std::thread::scope(|scope| {
            let eats = |(id, meals): (WorkerId, u64)| {
                let (run, job) = (&run, &job);
                scope.spawn(move || run.worker(id, meals, job))
            };
            let threads: Vec<_> = ids.into_iter().zip(meals).map(eats).collect();
            threads.into_iter().map(|it| it.join()).collect()
        });
        // A job that panicked is the reason why its neighbours stopped, so it goes on before their errors.
        let mut ended = Vec::with_capacity(ran.len());
        for it in ran {
            ended.push(it.unwrap_or_else(|panic| std::panic::resume_unwind(panic)));
        }
        let results = ended.into_iter().collect::<Result<Vec<_>>>()?;
        Ok(Done { closed: open.close()?, results })
    }
}

// Says that the run is over if a panic goes by.
struct Alarm<'a>(&'a AtomicBool);

impl Drop for Alarm<'_> {
    fn drop(&mut self) {
        if std::thread::panicking() {
            self.0.store(true, Ordering::SeqCst);
        }
    }
}

impl<T: Send, S: Send> Run<'_, T, S> {
    fn is_over(&self) -> bool {
        self.stop.load(Ordering::Relaxed) || self.is_over.load(Ordering::SeqCst)
    }

    // The meals of one worker.
    fn worker<R, E>(
        &self,
        id: WorkerId,
        meals: u64,
        job: &(impl Fn(&mut Meal<'_, T, S>) -> std::result::Result<R, E> + Sync),
    ) -> Result<Vec<std::result::Result<R, E>>> {
        let _alarm = Alarm(&self.is_over);
        let mut results = Vec::with_capacity(meals.min(u64::from(MEALS)) as usize);
        while (results.len() as u64) < meals && !self.is_over() {
            let k = results.len() as u64 + 1;
            let hungry = Instant::now();
            let mut meal = match self.open.lock(id) {
                Ok(meal) => meal,
                // A neighbour's job panicked, which is what the run is to report.
                Err(Error::Poisoned) => break,
                Err(error) => {
                    self.is_over.store(true, Ordering::SeqCst);
                    return Err(error);
                }
            };
            if self.is_over() {
                break;
            }
            self.watch.begins(meal.name(), k, hungry.elapsed());
            let begun = Instant::now();
            let result = job(&mut meal);
            self.watch.ends(meal.name(), k, result.is_ok(), begun.elapsed());
            results.push(result);
        }
        Ok(results)
    }
}

impl<T, R, E, S> Done<T, R, E, S> {
    /// Returns the value of an edge.
    pub fn value(&self, edge: EdgeId) -> &T {
        self.closed.value(edge)
    }

    /// Returns the values of all edges, in the order in which they were added.
    pub fn into_values(self) -> Vec<T> {
        self.closed.into_values()
    }

    /// Returns all values, all states, and all results by worker, in the order in which edges and workers were added.
    #[allow(clippy::type_complexity)]
    pub fn into_parts(self) -> (Vec<T>, Vec<S>, Vec<Vec<std::result::Result<R, E>>>) {
        let (values, states) = self.closed.into_parts();
        (values, states, self.results)
    }

    /// Returns the state of a worker.
    pub fn state(&self, worker: WorkerId) -> &S {
        self.closed.state(worker)
    }

    /// Returns what the jobs of a worker returned, in order, one for each job that was begun.
    pub fn results(&self, worker: WorkerId) -> &[std::result::Result<R, E>] {
        &self.results[self.closed.worker(worker)]
    }

    /// Returns the same for the worker with this name.
    pub fn results_of(&self, name: &str) -> Option<&[std::result::Result<R, E>]> {
        self.closed.graph.named(name).map(|id| self.results(id))
    }

    /// Returns each failure: the worker's name, the number of its meal, from 1, and what its job returned.
    pub fn failures(&self) -> impl Iterator<Item = (&str, u64, &E)> {
        self.closed.graph.names.iter().zip(&self.results).flat_map(|(name, results)| {
            let numbered = (1u64..).zip(results);
            numbered.filter_map(move |(k, it)| it.as_ref().err().map(|e| (name.as_str(), k, e)))
        })
    }

    /// Returns the log of the fork of an edge: who ate with it, in turn.
    pub fn log(&self, edge: EdgeId) -> &[Stay] {
        self.closed.log(edge)
    }

    /// Finds an order of what the sites did, as [`Closed::order`].
    ///
    /// # Errors
    ///
    /// Those of [`Closed::order`].
    pub fn order(&self) -> Result<u64> {
        self.closed.order()
    }
}
