//! The hygienic solution of the dining philosophers (Chandy and Misra, ACM TOPLAS 6(4), 1984) written by hand in Rust,
//! without proofs, to measure `run` and `replay` beside it.
//!
//!     peer [overtakes|waits] channel|ring|quiet|polite|queue|mutex|parking_lot|fair|desk GRAPH JOBS TURNS RUNS
//!     peer open mutex|parking_lot GRAPH SUBMITTERS TASKS TURNS GAP WINDOW BOUND SITES [waits]
//!
//! The first four kinds and `queue` have the rules of the paper:
//!
//! - channel: a thread a site, over `crossbeam_channel`s of four letters, and such a channel as the bell of each site.
//! - ring: the same over rings of four letters with one producer and one consumer, with such bells.
//! - quiet: over the same rings, with a door behind a mutex as the bell of each site. It wakes the site only for a
//!   letter that lets it do something, and then the site takes all that are there. These sites start at a barrier.
//! - polite: as quiet, but before each meal a site takes the letters that have arrived. In the other kinds a site takes
//!   letters only when it can do nothing else, so one that has all its forks eats meal after meal.
//! - queue: all sites in one thread.
//!
//! The others have other rules. A site takes the locks of all its edges, eats, and unlocks them:
//!
//! - mutex, parking_lot: a mutex of std or of parking_lot, taken in the order of the edges.
//! - fair: a ticket lock, taken in the order of the edges. Whoever asks for it first has it first.
//! - desk: the same ticket locks, but a site draws all its tickets at once, while no other site draws any.
//!
//! GRAPH is ring:N, path:N, star:N, complete:N, grid:WxH or band:N, of at most 64 sites; JOBS is the number of meals of
//! each site, and TURNS that of the steps of xorshift in each meal.
//!
//! After each run the log of each fork is checked. The program prints the median, the least and the most of the times
//! in microseconds. They include the start and the end of the threads, and not the check. Then come, of the last run,
//! the events, the letters, and how often a site was woken, which only quiet and polite count.
//!
//! With `overtakes` it also prints how often a neighbour began a meal between a site's hunger and its meal, and
//! between its ask and its meal: the largest number and the mean, and the number of asks, of all runs. With `waits` it
//! also prints the longest wait of a site from its hunger to its meal, in microseconds, in the middle one of all runs;
//! the first meal of a site is left out. To note that makes a run slower, so these times are not to be compared.
//!
//! With `open` tasks arrive while a run goes on, and a pool of threads does them by mutexes. A number of SUBMITTERS
//! threads submit TASKS tasks each, to the first SITES sites. There are GAP nanoseconds between two tasks of a
//! submitter, which has WINDOW tickets at most, and in the queue there are BOUND tasks for each site of the graph at
//! most; 0 stands for none of these, and for all sites. The program prints the nanoseconds of the run, and with `waits`
//! those from the submission of a task to its begin: in the middle, of the 99th of a hundred, and the most.

mod fair;
mod locks;
mod nets;
mod open;
mod plan;
mod queues;
mod quiet;
mod site;
mod turns;

use plan::Plan;
use site::Ran;
use std::process::ExitCode;
use std::time::Instant;
use turns::{longest_wait, overtakes, Blind, Noting, Overtakes, Timing, Watch};

const USAGE: &str =
    "usage: peer [overtakes|waits] channel|ring|quiet|polite|queue|mutex|parking_lot|fair|desk GRAPH JOBS TURNS RUNS
       peer open mutex|parking_lot GRAPH SUBMITTERS TASKS TURNS GAP WINDOW BOUND SITES [waits]";

fn main() -> ExitCode {
    let words: Vec<String> = std::env::args().skip(1).collect();
    if words.first().is_some_and(|word| word == "open") {
        return ended(open::measured(&words[1..]));
    }
    let (noted, words) = match words.split_first() {
        Some((first, rest)) if first == "overtakes" || first == "waits" => (first.as_str(), rest),
        _ => ("", &words[..]),
    };
    let Some((kind, plan, runs)) = read(words, noted) else {
        return ended(None);
    };
    let mut times = Vec::new();
    let mut waits = Vec::new();
    let mut counts = String::new();
    let mut overtaken = Overtakes::default();
    for _ in 0..runs {
        let start = Instant::now();
        let Ran { forks, letters, wakes, notes } = kind(&plan);
        times.push(start.elapsed().as_micros());
        assert_eq!(forks.len(), plan.edges.len());
        for (fork, &edge) in forks.iter().zip(&plan.edges) {
            fork.check(edge, plan.jobs);
        }
        waits.push(longest_wait(&notes) / 1000);
        let found = overtakes(&plan, notes);
        overtaken.since_hunger.join(found.since_hunger);
        overtaken.since_ask.join(found.since_ask);
        // A letter is put and taken, and a meal has its hunger, its begin and its end.
        let events = 2 * letters + 3 * plan.jobs * plan.sites as u64;
        counts = format!("events={events} letters={letters} wakes={wakes}");
    }
    if noted == "waits" {
        waits.sort_unstable();
        counts += &format!(" wait={}", waits[waits.len() / 2]);
    }
    if noted == "overtakes" {
        let Overtakes { since_hunger, since_ask } = overtaken;
        counts += &format!(
            " hunger_most={} hunger_mean={:.3} ask_most={} ask_mean={:.3} asks={}",
            since_hunger.most,
            since_hunger.mean(),
            since_ask.most,
            since_ask.mean(),
            since_ask.times
        );
    }
    times.sort_unstable();
    let (least, most) = (times[0], times[times.len() - 1]);
    ended(Some(format!(
        "runs={runs} median={} least={least} most={most} {counts}",
        times[times.len() / 2]
    )))
}

/// Prints the line with what was found, or how the program is called.
fn ended(line: Option<String>) -> ExitCode {
    match line {
        Some(line) => {
            println!("{line}");
            ExitCode::SUCCESS
        }
        None => {
            eprintln!("{USAGE}");
            ExitCode::from(2)
        }
    }
}

type Kind = fn(&Plan) -> Ran;

fn kind_of<W: Watch>(name: &str) -> Option<Kind> {
    Some(match name {
        "channel" => site::run::<nets::Channels, W>,
        "ring" => site::run::<nets::Rings, W>,
        "quiet" => site::run::<quiet::Quiet<false>, W>,
        "polite" => site::run::<quiet::Quiet<true>, W>,
        "queue" => queues::replay::<W>,
        "mutex" => locks::run::<std::sync::Mutex<plan::Fork>, W>,
        "parking_lot" => locks::run::<parking_lot::Mutex<plan::Fork>, W>,
        "fair" => locks::run::<locks::FairFork, W>,
        "desk" => locks::run_at_a_desk::<locks::FairFork, W>,
        _ => return None,
    })
}

fn read(words: &[String], noted: &str) -> Option<(Kind, Plan, usize)> {
    let [kind, graph, jobs, turns, runs] = words else {
        return None;
    };
    let kind = match noted {
        "overtakes" => kind_of::<Noting>(kind),
        "waits" => kind_of::<Timing>(kind),
        _ => kind_of::<Blind>(kind),
    }?;
    let runs = runs.parse().ok().filter(|runs| *runs > 0)?;
    Some((kind, Plan::of(graph, jobs.parse().ok()?, turns.parse().ok()?)?, runs))
}

#[cfg(test)]
mod tests {
    use super::*;

    const GRAPHS: [&str; 5] = ["ring:5", "path:2", "star:6", "grid:3x3", "complete:5"];

    /// Runs a kind that is counted on each graph, checks the forks, and returns the overtakes.
    fn tried(kind: &str, turns: u32) -> Vec<Overtakes> {
        let of_graph = |graph| {
            let plan = Plan::of(graph, 300, turns).unwrap();
            let ran = kind_of::<Noting>(kind).unwrap()(&plan);
            assert_eq!(ran.forks.len(), plan.edges.len());
            for (fork, &edge) in ran.forks.iter().zip(&plan.edges) {
                fork.check(edge, plan.jobs);
            }
            let found = overtakes(&plan, ran.notes);
            assert_eq!(found.since_hunger.times, 2 * plan.jobs * plan.edges.len() as u64);
            found
        };
        GRAPHS.map(of_graph).to_vec()
    }

    #[test]
    fn all_kinds_eat_all_meals() {
        for kind in ["channel", "ring", "quiet", "polite", "queue", "mutex", "parking_lot", "fair", "desk"] {
            tried(kind, 0);
        }
    }

    /// After the ask of a site its neighbour has the meal that it was about to have, and no other.
    #[test]
    fn nobody_is_overtaken_twice_who_asked() {
        for kind in ["fair", "desk", "polite"] {
            for turns in [0, 100] {
                for found in tried(kind, turns) {
                    assert!(found.since_ask.most <= 1, "{kind}: {found:?}");
                }
            }
        }
    }

    /// One wait for each site, and some wait is longer than none.
    #[test]
    fn waits_are_noted_once_for_each_site() {
        let plan = Plan::of("ring:5", 300, 100).unwrap();
        for kind in ["quiet", "polite", "mutex", "parking_lot", "fair"] {
            let notes = kind_of::<Timing>(kind).unwrap()(&plan).notes;
            assert_eq!(notes.len(), 5);
            assert!(longest_wait(&notes) > 0, "{kind}");
        }
    }

    #[test]
    fn runs_that_are_timed_take_no_notes() {
        let plan = Plan::of("ring:5", 10, 0).unwrap();
        for kind in ["quiet", "polite", "mutex", "fair", "desk"] {
            assert!(kind_of::<Blind>(kind).unwrap()(&plan).notes.is_empty());
        }
    }
}
