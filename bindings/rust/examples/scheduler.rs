//! Tasks come over a channel, at any time. Each needs a room and all that the room shares with its neighbours.
use dine::Table;
use std::sync::{mpsc, Mutex};
use std::time::{Duration, Instant};

const TASKS: usize = 5000;

fn main() -> Result<(), dine::Error> {
    let mut table = Table::new();
    let rooms = (0..8).map(|n| table.worker(&format!("room{n}"))).collect::<Result<Vec<_>, _>>()?;
    for n in 0..8 {
        table.edge(rooms[n], rooms[(n + 1) % 8], 0)?;
    }
    let open = table.open()?;
    let (send, receive) = mpsc::channel();
    let (receive, waits) = (Mutex::new(receive), Mutex::new(Vec::new()));
    std::thread::scope(|scope| {
        for _ in 0..4 {
            scope.spawn(|| {
                let next = || receive.lock().unwrap().recv();
                while let Ok((room, came)) = next() {
                    open.eat(rooms[room], |meal| meal.values().for_each(|(_, used)| *used += 1)).unwrap();
                    waits.lock().unwrap().push(Instant::elapsed(&came));
                }
            });
        }
        for n in 0..TASKS {
            if n % 8 == 0 {
                std::thread::sleep(Duration::from_millis(1));
            }
            send.send((n * 5 % 8, Instant::now())).unwrap();
        }
        drop(send);
    });
    let (mut waits, used) = (waits.into_inner().unwrap(), open.close()?.into_values());
    waits.sort();
    println!("{} tasks, {} uses, half of them done within {:?}", waits.len(), used.iter().sum::<i32>(), waits[TASKS / 2]);
    Ok(())
}
