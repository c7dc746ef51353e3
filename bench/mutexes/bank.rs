//! The bank of crates/dine_example in plain Rust: the accounts are mutexes, which a teller locks in the order of their
//! numbers.
use std::{sync::Mutex, thread, time::Instant};
const TELLERS: usize = 20;
const JOBS: u32 = 1000;
const START: u64 = 2_000;

fn transfer(accounts: &[Mutex<u64>], n: usize, seed: &mut u64) -> bool {
    *seed = seed.wrapping_mul(6364136223846793005).wrapping_add(1442695040888963407);
    let amount = (*seed >> 33) % 100;
    let next = (n + 1) % TELLERS;
    // Locks in the order of the accounts, so that no ring of waiters can be.
    let mut low = accounts[n.min(next)].lock().unwrap();
    let mut high = accounts[n.max(next)].lock().unwrap();
    let (from, to) = if n < next { (&mut *low, &mut *high) } else { (&mut *high, &mut *low) };
    if *from < amount {
        return false;
    }
    *from -= amount;
    *to += amount;
    true
}

fn main() {
    let jobs = JOBS;
    let accounts: Vec<_> = (0..TELLERS).map(|_| Mutex::new(START)).collect();
    let start = Instant::now();
    let done: u32 = thread::scope(|scope| {
        let tellers: Vec<_> = (0..TELLERS)
            .map(|n| {
                let accounts = &accounts;
                scope.spawn(move || {
                    let mut seed = n as u64;
                    // Each third teller stops at the first transfer that is refused.
                    let mut done = 0;
                    while done < jobs {
                        let went_well = transfer(accounts, n, &mut seed);
                        done += 1;
                        if !went_well && n % 3 == 0 {
                            break;
                        }
                    }
                    done
                })
            })
            .collect();
        tellers.into_iter().map(|t| t.join().unwrap()).sum()
    });
    eprintln!("the run took {} microseconds", start.elapsed().as_micros());
    println!("total {}", accounts.into_iter().map(|a| a.into_inner().unwrap()).sum::<u64>());
    eprintln!("{done} transfers were tried");
}
