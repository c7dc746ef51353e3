//! A run that is watched, and stopped from another thread if it takes longer than 50 ms: `cargo run --example progress`.
use std::sync::atomic::{AtomicU32, Ordering};
use std::time::Duration;

struct Progress(AtomicU32);

impl dine::Watch for Progress {
    // `waited` is how long the worker waited for its forks.
    fn begins(&self, worker: &str, k: u64, waited: Duration) {
        eprintln!("{worker} begins meal {k} after {waited:?}");
    }

    // `ok` says whether the job returned `Ok`, and `took` how long it took.
    fn ends(&self, _worker: &str, _k: u64, _ok: bool, _took: Duration) {
        self.0.fetch_add(1, Ordering::Relaxed);
    }
}

fn main() -> Result<(), dine::Error> {
    let (progress, stop) = (Progress(AtomicU32::new(0)), std::sync::atomic::AtomicBool::new(false));
    let mut table = dine::Table::new();
    let workers = [table.worker("ann")?, table.worker("bob")?, table.worker("cid")?];
    for i in 0..3 {
        table.edge(workers[i], workers[(i + 1) % 3], 0u64)?;
    }
    let done = std::thread::scope(|scope| {
        scope.spawn(|| {
            std::thread::sleep(Duration::from_millis(50));
            stop.store(true, Ordering::Relaxed);
        });
        table.run_until(&stop, &progress, |meal| {
            meal.values().for_each(|(_, value)| *value += 1);
            Ok::<(), ()>(())
        })
    })?;
    println!("{} meals ended", progress.0.load(Ordering::Relaxed));
    for (name, worker) in ["ann", "bob", "cid"].iter().zip(workers) {
        println!("{name} ate {} times", done.results(worker).len());
    }
    Ok(())
}
