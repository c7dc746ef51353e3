//! Measures the Rust crate: `cargo run --release --offline -- [MEALS] [ROUNDS] [GRAPH..]` prints two tables.
//!
//! The first has what a call costs. In the second workers with jobs of 0, 1 and 20 microseconds add to the values of
//! their edges, a thread for each worker: by mutexes of std that each worker locks in one order, by those of parking_lot,
//! and by `eat` of an open table with a patience of 0, 4 and 64. A time is that of all, threads included, for each meal; a
//! ratio is of one round, and the middle one counts. The longest wait of any worker for a meal is the middle one too. Run
//! it without other work.
use dine::{Event, Kind, Plan, Site, Table, Turn, World};
use std::hint::black_box;
use std::sync::atomic::{AtomicU64, Ordering};
use std::sync::Mutex;
use std::time::{Duration, Instant};

const JOBS: [u64; 3] = [0, 1, 20];
const GRAPHS: [&str; 4] = ["ring:5", "ring:64", "grid:8", "complete:16"];
const PATIENCE: [u32; 3] = [0, 4, 64];
// The jobs of each site of the worlds whose calls are measured.
const EACH: usize = 200;

/// How many workers a graph has, and its edges.
struct Graph {
    workers: usize,
    edges: Vec<(usize, usize)>,
}

/// Returns the graph of this name: a kind, and the number of workers, or of those on a side.
fn graph(name: &str) -> Option<Graph> {
    let (kind, n) = name.split_once(':')?;
    let n: usize = n.parse().ok()?;
    let pairs = |workers: usize, is_edge: &dyn Fn(usize, usize) -> bool| {
        let all = (0..workers).flat_map(|i| (i + 1..workers).map(move |j| (i, j)));
        Some(Graph { workers, edges: all.filter(|(i, j)| is_edge(*i, *j)).collect() })
    };
    match kind {
        "ring" => pairs(n, &|i, j| j == i + 1 || (i == 0 && j == n - 1)),
        "grid" => pairs(n * n, &|i, j| j == i + n || (j == i + 1 && j % n != 0)),
        "complete" => pairs(n, &|_, _| true),
        _ => None,
    }
}

fn plan_text(graph: &Graph, jobs: usize, turns: u64) -> String {
    let jobs = vec![format!("{{ name = \"x\", turns = {turns} }}"); jobs].join(", ");
    let sites = (0..graph.workers).map(|i| format!("[[site]]\nname = \"w{i}\"\njobs = [{jobs}]\n"));
    let edges = graph.edges.iter().map(|(i, j)| format!("[[edge]]\nends = [\"w{i}\", \"w{j}\"]\n"));
    format!("version = 1\n{}{}", sites.collect::<String>(), edges.collect::<String>())
}

fn work(us: u64) {
    let start = Instant::now();
    while us > 0 && start.elapsed() < Duration::from_micros(us) {
        black_box(0);
    }
}

/// What a way took, the sum of its values, and its longest wait.
struct Took {
    time: Duration,
    sum: u64,
    longest: Duration,
}

/// Runs a thread for each worker, each of which does this for each of its meals and returns when its wait was over.
fn threads(graph: &Graph, meals: u32, meal: impl Fn(usize) -> Instant + Sync) -> (Duration, Duration) {
    let longest = AtomicU64::new(0);
    let start = Instant::now();
    std::thread::scope(|scope| {
        for worker in 0..graph.workers {
            let (meal, longest) = (&meal, &longest);
            scope.spawn(move || {
                let mut mine = Duration::ZERO;
                for _ in 0..meals {
                    let asked = Instant::now();
                    mine = mine.max(meal(worker) - asked);
                }
                longest.fetch_max(mine.as_nanos() as u64, Ordering::Relaxed);
            });
        }
    });
    (start.elapsed(), Duration::from_nanos(longest.into_inner()))
}

fn by_table(graph: &Graph, meals: u32, us: u64, patience: u32) -> Took {
    let mut table = Table::new();
    table.patience(patience).keep_log(0);
    let ids: Vec<_> = (0..graph.workers).map(|i| table.worker(&format!("w{i}")).expect("a name")).collect();
    for (i, j) in &graph.edges {
        table.edge(ids[*i], ids[*j], 0u64).expect("an edge");
    }
    let open = table.open().expect("a table");
    let (time, longest) = threads(graph, meals, |worker| {
        let mut meal = open.lock(ids[worker]).expect("it is open");
        let begun = Instant::now();
        work(us);
        meal.values().for_each(|(_, value)| *value += 1);
        begun
    });
    Took { time, sum: open.close().expect("it is open").into_values().iter().sum(), longest }
}

macro_rules! by_mutexes {
    ($name:ident, $mutex:ty, $lock:expr) => {
        fn $name(graph: &Graph, meals: u32, us: u64) -> Took {
            let values: Vec<_> = graph.edges.iter().map(|_| <$mutex>::new(0u64)).collect();
            let mine = |worker| {
                let ends = graph.edges.iter().zip(&values);
                ends.filter(move |(ends, _)| ends.0 == worker || ends.1 == worker).map(|it| it.1).collect::<Vec<_>>()
            };
            let each: Vec<Vec<_>> = (0..graph.workers).map(mine).collect();
            let (time, longest) = threads(graph, meals, |worker| {
                let mut held: Vec<_> = each[worker].iter().map(|it| $lock(it)).collect();
                let begun = Instant::now();
                work(us);
                held.iter_mut().for_each(|value| **value += 1);
                begun
            });
            Took { time, sum: values.iter().map(|it| *$lock(it)).sum(), longest }
        }
    };
}

fn lock_std(mutex: &Mutex<u64>) -> std::sync::MutexGuard<'_, u64> {
    mutex.lock().expect("no panic")
}

by_mutexes!(by_std, Mutex<u64>, lock_std);
by_mutexes!(by_parking_lot, parking_lot::Mutex<u64>, parking_lot::Mutex::lock);

/// Returns the middle one of some numbers.
fn middle(mut numbers: Vec<f64>) -> f64 {
    numbers.sort_by(f64::total_cmp);
    numbers[numbers.len() / 2]
}

/// Returns the line of a graph and a job: microseconds a meal by mutexes of std, the ratios of the others to them, and
/// the longest waits.
fn row(name: &str, graph: &Graph, meals: u32, us: u64, rounds: usize) -> String {
    let wanted = 2 * graph.edges.len() as u64 * u64::from(meals);
    let mut ways: Vec<Box<dyn Fn() -> Took + '_>> =
        vec![Box::new(|| by_std(graph, meals, us)), Box::new(|| by_parking_lot(graph, meals, us))];
    for patience in PATIENCE {
        ways.push(Box::new(move || by_table(graph, meals, us, patience)));
    }
    let round = |_| ways.iter().map(|way| way()).inspect(|it| assert_eq!(it.sum, wanted, "a meal got lost")).collect();
    let rounds: Vec<Vec<Took>> = (0..rounds).map(round).collect();
    let all_meals = graph.workers as f64 * f64::from(meals);
    let times = rounds.iter().map(|it| it[0].time.as_secs_f64() * 1e6 / all_meals).collect();
    let mut line = format!("| {name} | {us} µs | {:.2} |", middle(times));
    for way in 1..ways.len() {
        let ratio = |it: &Vec<Took>| it[way].time.as_secs_f64() / it[0].time.as_secs_f64();
        line += &format!(" {:.2} |", middle(rounds.iter().map(ratio).collect()));
    }
    let wait = |way: usize| middle(rounds.iter().map(|it| it[way].longest.as_secs_f64() * 1e3).collect());
    line + &(0..ways.len()).map(|way| format!(" {:.1} |", wait(way))).collect::<String>()
}

/// Returns nanoseconds for each of n things.
fn each(n: usize, what: impl FnOnce()) -> f64 {
    let start = Instant::now();
    what();
    start.elapsed().as_nanos() as f64 / n as f64
}

/// Returns the events of a schedule, the first enabled one each time.
fn schedule(plan: &Plan) -> Vec<Event> {
    let mut world = World::open(plan).expect("a world");
    let mut events = Vec::new();
    while let Some(event) = world.nth(0) {
        world.step(event).expect("it is enabled");
        events.push(event);
    }
    events
}

/// Runs the two sites of a plan, and returns nanoseconds for each of their events.
fn exchange(plan: &Plan) -> f64 {
    let mut sites = [0, 1].map(|n| Site::open(plan, n).expect("a site"));
    let mut events = 0;
    let start = Instant::now();
    while !sites.iter().all(Site::is_finished) {
        for me in 0..2 {
            while let Turn::Did(kind, letter) = sites[me].turn().expect("it may") {
                let letter = letter.to_vec();
                events += 1;
                if kind == Kind::Begin {
                    sites[me].end(false).expect("it eats");
                    events += 1;
                } else if !letter.is_empty() {
                    sites[1 - me].take(&letter).expect("it was sent");
                    events += 1;
                }
            }
        }
    }
    start.elapsed().as_nanos() as f64 / f64::from(events)
}

fn calls(rounds: usize) {
    let ring = Plan::read(&plan_text(&graph("ring:64").expect("a graph"), EACH, 0)).expect("a plan");
    let pair = Plan::read(&plan_text(&graph("ring:2").expect("a graph"), EACH, 0)).expect("a plan");
    let world = World::open(&ring).expect("a world");
    let events = schedule(&ring);
    let some = 100_000;
    let reads = || each(some, || (0..some).for_each(|i| assert!(black_box(world.phase(i as u32 % 64)).is_ok())));
    let steps = || {
        let mut world = World::open(&ring).expect("a world");
        each(events.len(), || events.iter().for_each(|event| world.step(*event).expect("it is enabled")))
    };
    let alone = || exchange(&pair);
    let rows: [(&str, &dyn Fn() -> f64); 3] = [
        ("a call that reads: `phase` of a world", &reads),
        ("`step`, a ring of 64", &steps),
        ("an event of a `Site`, with its letter as bytes", &alone),
    ];
    println!("| What | ns |\n|---|---|");
    for (what, time) in rows {
        println!("| {what} | {:.1} |", middle((0..rounds).map(|_| time()).collect()));
    }
}

fn main() {
    let words: Vec<String> = std::env::args().skip(1).collect();
    let number = |i: usize, or: usize| words.get(i).map_or(or, |it| it.parse().expect("a number"));
    let (meals, rounds) = (number(0, 300) as u32, number(1, 5));
    let named: Vec<&str> = words.iter().skip(2).map(String::as_str).collect();
    let asked = if named.is_empty() { GRAPHS.to_vec() } else { named };
    calls(rounds);
    println!("\n| Workers | Job | µs a meal, std | parking_lot | patience 0 | 4 | 64 | longest wait, ms: std | parking_lot | 0 | 4 | 64 |");
    println!("|{}", "---|".repeat(12));
    for name in asked {
        let graph = graph(name).expect("ring:N, grid:SIDE or complete:N");
        for us in JOBS {
            println!("{}", row(name, &graph, meals, us, rounds));
        }
    }
}
