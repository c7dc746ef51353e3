//! Open runs by a pool of threads: tasks for the sites arrive in one queue while the run goes on. A worker takes a
//! task, locks the mutexes of the site's edges in the order of their numbers, does the task, and unlocks them. There
//! are as many workers as processors. Tasks of one site may begin in another order than they were submitted in.

use crate::plan::Plan;
use crossbeam_channel::{bounded, unbounded, Receiver, Sender};
use std::collections::VecDeque;
use std::hint::black_box;
use std::ops::DerefMut;
use std::sync::Mutex;
use std::thread;
use std::time::{Duration, Instant};

/// How tasks arrive.
#[derive(Clone, Copy)]
struct Load {
    /// How many threads submit tasks, and how many tasks each of them submits.
    submitters: u32,
    tasks: u32,
    /// The nanoseconds between two tasks of a submitter, in the mean. With 0 it submits as fast as it can.
    gap: u32,
    /// How many tickets a submitter may have: it waits for the first of them before it submits a further task. With 0
    /// it asks for no ticket.
    window: usize,
    /// How many tasks may wait in the queue. With 0 it is any number.
    bound: usize,
    /// How many sites get tasks: those of the lowest numbers.
    sites: usize,
    /// Whether the wait of each task is noted.
    is_noted: bool,
}

/// A task of a site, the time of its submission if its wait is noted, and who waits for its end.
struct Task {
    site: usize,
    since: Option<Instant>,
    reply: Option<Sender<()>>,
}

/// What the tasks leave behind the first mutex of a site: a word, so that their turns are done, and the nanoseconds
/// that they waited.
struct Left {
    word: u32,
    waits: Vec<u64>,
}

/// A mutex around what two sites share.
trait Shared: Send + Sync {
    fn around(left: Left) -> Self;
    fn take(&self) -> impl DerefMut<Target = Left>;
    fn into_inner(self) -> Left;
}

impl Shared for Mutex<Left> {
    fn around(left: Left) -> Self {
        Self::new(left)
    }
    #[inline]
    fn take(&self) -> impl DerefMut<Target = Left> {
        self.lock().unwrap()
    }
    fn into_inner(self) -> Left {
        self.into_inner().unwrap()
    }
}

impl Shared for parking_lot::Mutex<Left> {
    fn around(left: Left) -> Self {
        Self::new(left)
    }
    #[inline]
    fn take(&self) -> impl DerefMut<Target = Left> {
        self.lock()
    }
    fn into_inner(self) -> Left {
        self.into_inner()
    }
}

/// Measures the run that the arguments ask for. Returns the line with what was found, or `None` if the arguments are
/// wrong.
pub fn measured(words: &[String]) -> Option<String> {
    let (words, is_noted) = match words {
        [rest @ .., last] if last == "waits" => (rest, true),
        _ => (words, false),
    };
    let [kind, graph, numbers @ ..] = words else {
        return None;
    };
    let numbers: Vec<u32> = numbers.iter().map(|it| it.parse().ok()).collect::<Option<_>>()?;
    let &[submitters, tasks, turns, gap, window, bound, targets] = &numbers[..] else {
        return None;
    };
    let run = match kind.as_str() {
        "mutex" => run::<Mutex<Left>>,
        "parking_lot" => run::<parking_lot::Mutex<Left>>,
        _ => return None,
    };
    let plan = Plan::of(graph, 0, turns)?;
    let sites = if targets == 0 { plan.sites } else { targets as usize };
    if sites > plan.sites {
        return None;
    }
    let bound = bound as usize * plan.sites;
    let (took, waits) = run(&plan, Load { submitters, tasks, gap, window: window as usize, bound, sites, is_noted });
    let all = submitters as usize * tasks as usize;
    assert_eq!(waits.len(), if is_noted { all } else { 0 });
    Some(format!("open tasks={all} nanos={}{}", took.as_nanos(), told(waits)))
}

/// Returns the wait in the middle, that of the 99th of a hundred, and the longest, if there are any.
fn told(mut waits: Vec<u64>) -> String {
    waits.sort_unstable();
    let Some(longest) = waits.last() else {
        return String::new();
    };
    let (p50, p99) = (waits[waits.len() / 2], waits[waits.len() - 1 - waits.len() / 100]);
    format!(" p50={p50} p99={p99} longest={longest}")
}

/// Does one run. Returns its time, from the first task until the workers have ended, and the waits.
fn run<L: Shared>(plan: &Plan, load: Load) -> (Duration, Vec<u64>) {
    let each = if load.is_noted { load.submitters as usize * load.tasks as usize * 5 / 2 / load.sites } else { 0 };
    let left = || Left { word: 1, waits: Vec::with_capacity(each) };
    let locks: Vec<L> = plan.edges.iter().map(|_| L::around(left())).collect();
    let edges_at = plan.edges_at();
    let (to, tasks) = if load.bound == 0 { unbounded() } else { bounded(load.bound) };
    let (locks_of_all, edges_at, tasks) = (&locks, &edges_at, &tasks);
    let took = thread::scope(move |scope| {
        let count = thread::available_parallelism().map_or(4, usize::from);
        let workers: Vec<_> =
            (0..count).map(|_| scope.spawn(move || serve(tasks, plan.turns, edges_at, locks_of_all))).collect();
        visit_all(&to, plan.sites);
        let start = Instant::now();
        let started = |seed| {
            let to = to.clone();
            scope.spawn(move || bring(&to, load, seed))
        };
        let submitters: Vec<_> = (0..load.submitters).map(started).collect();
        submitters.into_iter().for_each(|it| it.join().unwrap());
        drop(to);
        workers.into_iter().for_each(|it| it.join().unwrap());
        start.elapsed()
    });
    (took, locks.into_iter().flat_map(|it| it.into_inner().waits).collect())
}

/// Does tasks until no more can arrive.
fn serve<L: Shared>(tasks: &Receiver<Task>, turns: u32, edges_at: &[Vec<usize>], locks: &[L]) {
    let mut held = Vec::new();
    for Task { site, since, reply } in tasks {
        held.extend(edges_at[site].iter().map(|&edge| locks[edge].take()));
        let wait = since.map(|it| it.elapsed().as_nanos() as u64);
        if let Some(left) = held.first_mut() {
            left.word = turned(left.word, turns);
            left.waits.extend(wait);
        }
        held.clear();
        if let Some(reply) = reply {
            // Whoever asked for it may have gone.
            let _ = reply.send(());
        }
    }
}

#[inline]
fn turned(mut word: u32, turns: u32) -> u32 {
    for _ in 0..turns {
        word ^= word << 13;
        word ^= word >> 17;
        word ^= word << 5;
    }
    black_box(word)
}

/// Has a task without a wait done at each site, so that all threads are there.
fn visit_all(to: &Sender<Task>, sites: usize) {
    let tickets: Vec<_> = (0..sites).map(|site| submit(to, site, None)).collect();
    tickets.into_iter().for_each(|it| it.recv().unwrap());
}

fn submit(to: &Sender<Task>, site: usize, since: Option<Instant>) -> Receiver<()> {
    let (reply, ticket) = bounded(1);
    to.send(Task { site, since, reply: Some(reply) }).unwrap();
    ticket
}

/// Submits the tasks of one submitter, to sites that look random: the same ones as those of ours.
fn bring(to: &Sender<Task>, load: Load, seed: u32) {
    let (mut random, mut due) = (u64::from(seed), Instant::now());
    let mut tickets = VecDeque::new();
    for _ in 0..load.tasks {
        random = random.wrapping_mul(6_364_136_223_846_793_005).wrapping_add(1_442_695_040_888_963_407);
        if tickets.len() >= load.window {
            tickets.pop_front().into_iter().for_each(|it: Receiver<()>| it.recv().unwrap());
        }
        if load.gap > 0 {
            let left = due.saturating_duration_since(Instant::now());
            if !left.is_zero() {
                thread::sleep(left);
            }
            let gap = u64::from(load.gap);
            due += Duration::from_nanos(gap / 2 + gap * (random >> 20 & 1023) / 1024);
        }
        let site = (random >> 33) as usize % load.sites;
        let since = load.is_noted.then(Instant::now);
        if load.window > 0 {
            tickets.push_back(submit(to, site, since));
        } else {
            to.send(Task { site, since, reply: None }).unwrap();
        }
    }
    tickets.into_iter().for_each(|it| it.recv().unwrap());
}

#[cfg(test)]
mod tests {
    use super::*;

    fn counts(words: &str) -> Vec<u64> {
        let words: Vec<String> = words.split(' ').map(String::from).collect();
        let line = measured(&words).unwrap();
        let numbers = line.split(' ').filter_map(|it| it.split_once('=')).map(|(_, number)| number.parse().unwrap());
        numbers.collect()
    }

    #[test]
    fn all_tasks_are_done() {
        for kind in ["mutex", "parking_lot"] {
            for graph in ["ring:5", "grid:3x3", "complete:5"] {
                assert_eq!(counts(&format!("{kind} {graph} 4 500 10 0 0 0 0"))[0], 2_000);
                assert_eq!(counts(&format!("{kind} {graph} 4 500 10 0 0 10 1"))[0], 2_000);
                let found = counts(&format!("{kind} {graph} 2 500 0 0 8 0 0 waits"));
                let &[tasks, nanos, p50, p99, longest] = &found[..] else {
                    panic!("{found:?}");
                };
                assert_eq!(tasks, 1_000);
                assert!(0 < p50 && p50 <= p99 && p99 <= longest && longest <= nanos, "{found:?}");
            }
        }
    }

    /// Ten tasks take nine gaps, of which each is half a millisecond at least.
    #[test]
    fn tasks_with_a_gap_take_their_time() {
        assert!(counts("mutex ring:5 1 10 0 1000000 1 0 0 waits")[1] >= 4_500_000);
    }

    #[test]
    fn the_waits_that_are_told() {
        assert_eq!(told((1..=200).rev().collect()), " p50=101 p99=198 longest=200");
        assert_eq!(told(vec![7]), " p50=7 p99=7 longest=7");
        assert_eq!(told(Vec::new()), "");
    }
}
