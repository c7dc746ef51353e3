//! No Chandy and Misra: each edge's fork is behind a lock, and a site takes the locks of all its edges in their order.

use crate::fair::{Fair, Ticket};
use crate::plan::{Fork, Plan};
use crate::site::Ran;
use crate::turns::Watch;
use std::hint::black_box;
use std::ops::DerefMut;
use std::sync::{Arc, Barrier, Mutex};
use std::thread;

/// A lock around a fork. To take it is to ask for it and then to wait.
pub trait Lock: Sync {
    /// What was got for the ask: a place in a queue, where the lock has one.
    type Ticket;
    fn around(fork: Fork) -> Self;
    fn ask(&self) -> Self::Ticket;
    fn wait(&self, ticket: Self::Ticket) -> impl DerefMut<Target = Fork>;
    fn into_fork(self) -> Fork;
}

impl Lock for Mutex<Fork> {
    type Ticket = ();
    fn around(fork: Fork) -> Self {
        Self::new(fork)
    }
    #[inline]
    fn ask(&self) {}
    #[inline]
    fn wait(&self, _: ()) -> impl DerefMut<Target = Fork> {
        self.lock().unwrap()
    }
    fn into_fork(self) -> Fork {
        self.into_inner().unwrap()
    }
}

impl Lock for parking_lot::Mutex<Fork> {
    type Ticket = ();
    fn around(fork: Fork) -> Self {
        Self::new(fork)
    }
    #[inline]
    fn ask(&self) {}
    #[inline]
    fn wait(&self, _: ()) -> impl DerefMut<Target = Fork> {
        self.lock()
    }
    fn into_fork(self) -> Fork {
        self.into_inner()
    }
}

/// The fair lock of an edge, which two sites want.
pub type FairFork = Fair<Fork, 2>;

impl Lock for FairFork {
    type Ticket = Ticket;
    fn around(fork: Fork) -> Self {
        Self::new(fork)
    }
    #[inline]
    fn ask(&self) -> Ticket {
        self.draw()
    }
    #[inline]
    fn wait(&self, ticket: Ticket) -> impl DerefMut<Target = Fork> {
        Fair::wait(self, ticket)
    }
    fn into_fork(self) -> Fork {
        self.into_inner()
    }
}

/// How a site takes its locks.
trait Manner: Sync {
    fn take<'a, L: Lock, W: Watch>(
        &self,
        edges: &[usize],
        locks: &'a [L],
        watch: &mut W,
    ) -> Vec<impl DerefMut<Target = Fork> + 'a>;
}

/// One after the other: it asks for a lock when it has those before it.
struct InOrder;

impl Manner for InOrder {
    #[inline]
    fn take<'a, L: Lock, W: Watch>(
        &self,
        edges: &[usize],
        locks: &'a [L],
        watch: &mut W,
    ) -> Vec<impl DerefMut<Target = Fork> + 'a> {
        let one = |&edge: &usize| {
            let ticket = locks[edge].ask();
            watch.ask(edge);
            locks[edge].wait(ticket)
        };
        edges.iter().map(one).collect()
    }
}

/// It asks for all at a desk where one site is at a time, and waits for them after that. All tickets have one order
/// then, and so no sites wait in a circle, and a site has its place in all its queues at once.
struct AtADesk(Mutex<()>);

impl Manner for AtADesk {
    #[inline]
    fn take<'a, L: Lock, W: Watch>(
        &self,
        edges: &[usize],
        locks: &'a [L],
        watch: &mut W,
    ) -> Vec<impl DerefMut<Target = Fork> + 'a> {
        let held = self.0.lock().unwrap();
        let tickets: Vec<_> = edges.iter().map(|&edge| locks[edge].ask()).collect();
        edges.iter().for_each(|&edge| watch.ask(edge));
        drop(held);
        edges.iter().zip(tickets).map(|(&edge, ticket)| locks[edge].wait(ticket)).collect()
    }
}

/// Runs a thread a site, which takes its locks one after the other.
pub fn run<L: Lock, W: Watch>(plan: &Plan) -> Ran {
    run_by::<L, W>(plan, &InOrder)
}

/// Runs a thread a site, which asks for all its locks at once.
pub fn run_at_a_desk<L: Lock, W: Watch>(plan: &Plan) -> Ran {
    run_by::<L, W>(plan, &AtADesk(Mutex::new(())))
}

/// The threads start at a gate. There are no letters.
fn run_by<L: Lock, W: Watch>(plan: &Plan, manner: &impl Manner) -> Ran {
    let locks: Vec<L> = plan.edges.iter().map(|_| L::around(Fork::default())).collect();
    let gate = Barrier::new(plan.sites);
    let order = Arc::default();
    let started = |(site, edges): (usize, Vec<usize>)| {
        let (locks, gate, mut watch) = (&locks, &gate, W::new(site, &order));
        move || {
            gate.wait();
            eat_all(plan, site, &edges, locks, manner, &mut watch);
            watch.into_notes()
        }
    };
    let notes = thread::scope(|scope| {
        let all = plan.edges_at().into_iter().enumerate();
        let threads: Vec<_> = all.map(|site| scope.spawn(started(site))).collect();
        threads.into_iter().flat_map(|thread| thread.join().unwrap()).collect()
    });
    let forks = locks.into_iter().map(L::into_fork).collect();
    Ran { forks, letters: 0, wakes: 0, notes }
}

/// All meals of a site. The locks that it takes lie in a list that is made for each meal.
fn eat_all<L: Lock, W: Watch>(
    plan: &Plan,
    site: usize,
    edges: &[usize],
    locks: &[L],
    manner: &impl Manner,
    watch: &mut W,
) {
    let mut word = 2_463_534_242_u32;
    for _ in 0..plan.jobs {
        watch.hungry();
        let mut forks = manner.take(edges, locks, watch);
        watch.begin();
        for (fork, &edge) in forks.iter_mut().zip(edges) {
            fork.eat_from(site, plan.edges[edge].0);
        }
        for _ in 0..plan.turns {
            word ^= word << 13;
            word ^= word >> 17;
            word ^= word << 5;
        }
    }
    black_box(word);
}
