//! Random graphs, threads and calls: neighbours are apart, sums stay, logs are whole, and the proved world accepts what
//! the sites did, in one order, up to its end. `GRAPH_SECONDS` and `GRAPH_SEED` make it longer and other; `GRAPH_MEALS` is a
//! number of meals that it does not end before.
mod common;

use common::{block_on, idle, Random};
use dine::{Closed, EdgeId, OpenTable, Table, WorkerId};
use std::future::Future;
use std::pin::Pin;
use std::sync::atomic::{AtomicBool, AtomicU32, AtomicU64, Ordering};
use std::sync::Barrier;
use std::task::{Context, Poll};
use std::time::{Duration, Instant};

#[derive(Debug)]
struct Case {
    seed: u64,
    workers: usize,
    edges: Vec<(usize, usize)>,
    threads: usize,
    each: u32,
    patience: u32,
    renew_after: u32,
    // Each thread keeps to workers of its own.
    own: bool,
    // All calls, and not `eat` alone.
    mixed: bool,
}

impl Case {
    fn of(seed: u64) -> Case {
        let mut random = Random(seed.wrapping_mul(0x9E37_79B9_7F4A_7C15) | 1);
        (0..5).for_each(|_| _ = random.below(2));
        let workers = 1 + random.below(if seed % 5 == 0 { 64 } else { 9 }) as usize;
        let share = 1 + random.below(9);
        let mut edges = Vec::new();
        for i in 0..workers {
            for j in i + 1..workers {
                if random.below(10) < share && edges.len() < 512 {
                    edges.push(if random.below(2) == 0 { (i, j) } else { (j, i) });
                }
            }
        }
        Case {
            seed,
            workers,
            edges,
            threads: 1 + random.below(12) as usize,
            each: 50 + random.below(400) as u32,
            patience: [0, 0, 1, 3, 16, u32::MAX][random.below(6) as usize],
            renew_after: [1000, 1, 2, 7, 50, 1000][random.below(6) as usize],
            own: random.below(2) == 0,
            mixed: random.below(3) != 0,
        }
    }

    fn neighbours(&self, n: usize) -> Vec<usize> {
        let other = |(i, j): &(usize, usize)| if *i == n { Some(*j) } else { Some(*i).filter(|_| *j == n) };
        self.edges.iter().filter_map(other).collect()
    }
}

struct Worker {
    id: WorkerId,
    neighbours: Vec<usize>,
    eats: AtomicBool,
    meals: AtomicU32,
}

struct Shared<'a> {
    case: &'a Case,
    open: OpenTable<i64, u32>,
    workers: Vec<Worker>,
    // What the values have to sum up to.
    sum: AtomicU64,
}

impl Shared<'_> {
    // A job: looks that neighbours are apart, and moves an amount from each value to the next one. The sum rises by one.
    fn job<'a>(&self, n: usize, turns: u64, meal: (&mut u32, impl Iterator<Item = (WorkerId, &'a mut i64)>)) {
        let me = &self.workers[n];
        assert!(!me.eats.swap(true, Ordering::SeqCst), "two at one worker");
        for other in &me.neighbours {
            assert!(!self.workers[*other].eats.load(Ordering::SeqCst), "neighbours eat together");
        }
        let mut all: Vec<_> = meal.1.map(|it| it.1).collect();
        assert_eq!(all.len(), me.neighbours.len());
        (0..turns).for_each(|_| std::hint::spin_loop());
        for i in 0..all.len() {
            let (amount, next) = (turns as i64 % 17 + 1, (i + 1) % all.len());
            *all[i] -= amount;
            *all[next] += amount;
        }
        if let Some(first) = all.first_mut() {
            **first += 1;
            self.sum.fetch_add(1, Ordering::Relaxed);
        }
        *meal.0 += 1;
        me.meals.fetch_add(1, Ordering::Relaxed);
        me.eats.store(false, Ordering::SeqCst);
    }

    fn call(&self, how: u64, n: usize, turns: u64, time: u64) {
        let (open, id) = (&self.open, self.workers[n].id);
        match how {
            0 => drop(open.try_eat(id, |meal| self.job(n, turns, meal.split())).unwrap()),
            1 => {
                let time = Duration::from_micros(time);
                open.try_eat_for(id, time, |meal| self.job(n, turns, meal.split())).unwrap();
            }
            2 => self.job(n, turns, block_on(open.lock_async(id)).unwrap().split()),
            3 => {
                let mut wait = open.lock_async(id);
                if let Poll::Ready(meal) = Pin::new(&mut wait).poll(&mut Context::from_waker(&idle())) {
                    self.job(n, turns, meal.unwrap().split());
                }
            }
            4 => self.job(n, turns, open.lock(id).unwrap().split()),
            _ => open.eat(id, |meal| self.job(n, turns, meal.split())).unwrap(),
        }
    }

    fn thread(&self, t: usize) {
        let case = self.case;
        let mut random = Random(case.seed.wrapping_mul(7919) + t as u64 + 1);
        let own = case.workers / case.threads.min(case.workers);
        for _ in 0..case.each {
            let n = if case.own {
                t * own % case.workers + random.below(own as u64) as usize
            } else {
                random.below(case.workers as u64) as usize
            };
            let how = if case.mixed { random.below(8) } else { 7 };
            let (turns, time) = (random.below(300), random.below(40));
            self.call(how, n, turns, time);
        }
    }
}

fn table(case: &Case) -> (OpenTable<i64, u32>, Vec<WorkerId>, Vec<EdgeId>) {
    let mut table = Table::with_states();
    table.keep_journals().patience(case.patience).renew_after(case.renew_after).keep_log(usize::MAX);
    let ids: Vec<_> = (0..case.workers).map(|n| table.worker_with(&format!("w{n}"), 0).unwrap()).collect();
    let edges = case.edges.iter().map(|(i, j)| table.edge(ids[*i], ids[*j], 0).unwrap()).collect();
    (table.open().unwrap(), ids, edges)
}

// The log has each meal of both ends, once, and the meals of each end rise.
fn log_is_whole(closed: &Closed<i64, u32>, edge: EdgeId, ends: [WorkerId; 2]) {
    let mut next = [1u64, 1];
    for stay in closed.log(edge) {
        let end = usize::from(stay.worker == ends[1]);
        assert_eq!(stay.first, next[end]);
        next[end] += stay.count;
    }
    assert_eq!(next, ends.map(|id| closed.ate(id) + closed.empty_meals(id) + 1));
}

// Returns the number of meals, of events, and how often the sites were opened.
fn stress(case: &Case) -> (u64, u64, u64) {
    let (open, ids, edges) = table(case);
    let worker = |(n, id)| Worker { id, neighbours: case.neighbours(n), eats: false.into(), meals: 0.into() };
    let workers = ids.iter().copied().enumerate().map(worker).collect();
    let shared = Shared { case, open, workers, sum: AtomicU64::new(0) };
    let start = Barrier::new(case.threads);
    std::thread::scope(|scope| {
        let spawn = |t| {
            let (shared, start) = (&shared, &start);
            scope.spawn(move || {
                start.wait();
                shared.thread(t);
            })
        };
        // They are joined one by one, since sanitizers do not see how a scope waits for its end.
        let threads: Vec<_> = (0..case.threads).map(spawn).collect();
        threads.into_iter().for_each(|it| it.join().unwrap());
    });
    let closed = shared.open.close().unwrap();
    let mut meals = 0;
    for it in &shared.workers {
        let ate = it.meals.load(Ordering::Relaxed);
        assert_eq!((closed.ate(it.id), *closed.state(it.id)), (u64::from(ate), ate));
        meals += u64::from(ate);
    }
    for (edge, (i, j)) in edges.iter().zip(&case.edges) {
        log_is_whole(&closed, *edge, [ids[*i], ids[*j]]);
    }
    let (events, opened) = (closed.order().unwrap(), closed.opened());
    assert_eq!(closed.into_values().iter().sum::<i64>() as u64, shared.sum.load(Ordering::Relaxed));
    (meals, events, opened)
}

fn number(name: &str, default: u64) -> u64 {
    std::env::var(name).map_or(default, |it| it.parse().unwrap())
}

#[test]
fn random_graphs() {
    let (seconds, first) = (number("GRAPH_SECONDS", 5), number("GRAPH_SEED", 1));
    let least = number("GRAPH_MEALS", 0);
    let begun = Instant::now();
    let (mut meals, mut events, mut opened, mut seed) = (0, 0, 0, first);
    while begun.elapsed() < Duration::from_secs(seconds) || meals < least {
        let case = Case::of(seed);
        if std::env::var("GRAPH_SAY").is_ok() {
            eprintln!("{case:?}");
        }
        let sums = stress(&case);
        (meals, events, opened) = (meals + sums.0, events + sums.1, opened + sums.2);
        seed += 1;
    }
    println!("{} graphs, {meals} meals, {events} events in order, sites opened {opened} times", seed - first);
}
