//! Tries open tables, call by call.
mod common;

use common::{block_on, idle};
use dine::{AsyncMeal, Cause, EdgeId, Error, LockFuture, OpenTable, Position, Stay, Table, WorkerId};
use std::cell::Cell;
use std::future::Future;
use std::pin::Pin;
use std::sync::atomic::{AtomicBool, AtomicU32, Ordering};
use std::sync::mpsc::channel;
use std::sync::Arc;
use std::task::{Context, Poll, Wake};
use std::thread;
use std::time::{Duration, Instant};

fn pair() -> (OpenTable<u64>, WorkerId, WorkerId, EdgeId) {
    let mut table = Table::new();
    let (a, b) = (table.worker("a").unwrap(), table.worker("b").unwrap());
    let e = table.edge(a, b, 0u64).unwrap();
    (table.open().unwrap(), a, b, e)
}

#[test]
fn each_way_to_eat() {
    let (open, a, b, e) = pair();
    let got = open.eat(a, |meal| {
        *meal.with(b).unwrap() += 1;
        (meal.name().to_string(), meal.k(), meal.worker() == a)
    });
    assert_eq!(got, Ok(("a".to_string(), 1, true)));
    {
        let mut meal = open.lock(b).unwrap();
        *meal.with(a).unwrap() += 1;
        assert!(meal.with(b).is_none());
        assert_eq!(meal.values().map(|it| it.0).collect::<Vec<_>>(), [a]);
    }
    assert_eq!(open.try_eat(a, |meal| meal.k()), Ok(Some(2)));
    assert_eq!(open.try_eat_for(b, Duration::from_millis(500), |meal| meal.k()), Ok(Some(2)));
    assert_eq!(open.try_lock(a).unwrap().map(|meal| meal.k()), Some(3));
    assert_eq!(open.try_lock_for(b, Duration::MAX).unwrap().map(|meal| meal.k()), Some(3));
    assert_eq!(block_on(open.lock_async(a)).unwrap().k(), 4);
    let closed = open.close().unwrap();
    assert_eq!(*closed.value(e), 2);
    assert_eq!(open.close().err(), Some(Error::Closed));
    assert_eq!(open.eat(a, |_| ()), Err(Error::Closed));
    let stay = |worker, first| Stay { worker, first, count: 1 };
    assert_eq!(closed.log(e)[..4], [stay(a, 1), stay(b, 1), stay(a, 2), stay(b, 2)]);
    // Each ate a meal more, for nobody, when the table was closed.
    assert_eq!((closed.ate(a), closed.empty_meals(a)), (4, 1));
    assert_eq!((closed.ate(b), closed.empty_meals(b)), (3, 1));
}

#[test]
fn two_values_at_once_and_a_state() {
    let mut table = Table::with_states();
    let [a, b, c, d] = ["a", "b", "c", "d"].map(|it| table.worker_with(it, 0).unwrap());
    let edges = [(b, c, 1), (a, b, 2), (b, d, 4)].map(|(i, j, value)| table.edge(i, j, value).unwrap());
    let open = table.open().unwrap();
    let mut meal = open.lock(b).unwrap();
    assert_eq!(meal.both(a, d), Some((&mut 2, &mut 4)));
    assert_eq!(meal.both(d, a), Some((&mut 4, &mut 2)));
    assert_eq!(meal.both(c, d), Some((&mut 1, &mut 4)));
    assert!(meal.both(a, a).is_none() && meal.both(a, b).is_none());
    *meal.state() += 1;
    let (state, values) = meal.split();
    *state += values.map(|(_, it)| *it).sum::<i32>();
    drop(meal);
    open.eat(d, |meal| *meal.state() -= 1).unwrap();
    let closed = open.close().unwrap();
    assert_eq!((*closed.state(b), *closed.state(d), *closed.value(edges[1])), (8, -1, 2));
    assert_eq!(closed.into_parts(), (vec![1, 2, 4], vec![0, 8, 0, -1]));
}

#[test]
fn what_is_no_part_of_a_plan_is_refused_at_once() {
    let mut table = Table::new();
    let cause = |it: Result<WorkerId, Error>| match it {
        Err(Error::NoPlan(it)) => (it.cause, it.position),
        other => panic!("{other:?}"),
    };
    let long = "x".repeat(33);
    for name in ["", "\0", "\x7f", "\x1b", "e\u{301}", "\u{200b}", "\u{e000}", "a b", "é", "\"", "\\", "a\n", &long] {
        assert_eq!(cause(table.worker(name)), (Cause::BadName, Some(Position::Site(0))), "{name:?}");
    }
    let a = table.worker(&"x".repeat(32)).unwrap();
    assert_eq!(cause(table.worker(&"x".repeat(32))), (Cause::SiteTwice, Some(Position::Site(1))));
    let b = table.worker("a-B_9").unwrap();
    let e = table.edge(a, b, ()).unwrap();
    let cause = |it: Result<EdgeId, Error>| match it {
        Err(Error::NoPlan(it)) => (it.cause, it.position),
        other => panic!("{other:?}"),
    };
    assert_eq!(cause(table.edge(b, a, ())), (Cause::EdgeTwice, Some(Position::Edge(1))));
    assert_eq!(cause(table.edge(b, b, ())), (Cause::Loop, Some(Position::Edge(1))));
    let (_, c, _, _) = pair();
    assert_eq!(table.edge(a, c, ()), Err(Error::OtherTable));
    assert_eq!(table.worker_named("a-B_9"), Some(b));
    assert_eq!((table.edge_between(b, a), table.edge_between(a, c)), (Some(e), None));
    assert_eq!(table.clone().open().unwrap().edge_between(a, b), Some(e));
    for n in 2..64 {
        table.worker(&format!("w{n}")).unwrap();
    }
    assert!(matches!(table.worker("w64"), Err(Error::NoPlan(it)) if it.cause == Cause::TooManySites));
    let ids: Vec<_> = (2..64).map(|n| table.worker_named(&format!("w{n}")).unwrap()).collect();
    let mut all = ids.iter().enumerate().flat_map(|(n, i)| ids[n + 1..].iter().map(move |j| (*i, *j)));
    for _ in 1..512 {
        let (i, j) = all.next().unwrap();
        table.edge(i, j, ()).unwrap();
    }
    let (i, j) = all.next().unwrap();
    assert!(matches!(table.edge(i, j, ()), Err(Error::NoPlan(it)) if it.cause == Cause::TooManyEdges));
    assert_eq!(table.open().unwrap().close().unwrap().into_values().len(), 512);
    assert!(matches!(Table::<()>::new().open(), Err(Error::NoPlan(it)) if it.cause == Cause::NoSite));
}

#[test]
fn sending() {
    fn is_send<X: Send>() {}
    fn is_sync<X: Sync>() {}
    is_send::<OpenTable<u64>>();
    is_sync::<OpenTable<u64>>();
    is_sync::<OpenTable<Cell<u64>, Cell<u8>>>();
    is_send::<AsyncMeal<'static, Cell<u64>, Cell<u8>>>();
    is_send::<LockFuture<'static, u64>>();
}

#[test]
fn nesting_is_refused() {
    let (open, a, b, _) = pair();
    let (other, c, _, _) = pair();
    open.eat(a, |_| {
        assert_eq!(open.eat(a, |_| ()), Err(Error::InMeal));
        assert_eq!(open.eat(b, |_| ()), Err(Error::InMeal));
        assert_eq!(open.try_eat(b, |_| ()), Err(Error::InMeal));
        assert_eq!(open.try_lock_for(b, Duration::MAX).err(), Some(Error::InMeal));
        assert_eq!(open.close().err(), Some(Error::InMeal));
        assert_eq!(other.eat(c, |_| ()), Ok(()));
        assert_eq!(open.eat(c, |_| ()), Err(Error::OtherTable));
    })
    .unwrap();
    assert_eq!(open.eat(c, |_| ()), Err(Error::OtherTable));
    assert_eq!(block_on(open.lock_async(c)).err(), Some(Error::OtherTable));
    assert_eq!(open.eat(b, |_| 7), Ok(7));
    // Two tables that are opened from one are two.
    let mut table = Table::new();
    let d = table.worker("d").unwrap();
    table.worker("e").and_then(|e| table.edge(d, e, ())).unwrap();
    let (one, two) = (table.clone().open().unwrap(), table.open().unwrap());
    assert_eq!(one.eat(d, |_| two.eat(d, |_| 8)), Ok(Ok(8)));
}

#[test]
fn a_panic_ends_the_meal_and_poisons() {
    let (open, a, b, e) = pair();
    for guard in [false, true] {
        let panicked = thread::scope(|scope| {
            let eats = || {
                if guard {
                    let _meal = open.lock(a).unwrap();
                    panic!("on purpose");
                }
                open.eat(a, |_| panic!("on purpose")).unwrap();
            };
            scope.spawn(eats).join()
        });
        assert!(panicked.is_err() && open.is_poisoned(e));
        // The neighbour is not kept waiting.
        assert_eq!(open.eat(b, |_| ()), Err(Error::Poisoned));
        assert_eq!(open.eat(a, |_| ()), Err(Error::Poisoned));
        assert_eq!(block_on(open.lock_async(b)).err(), Some(Error::Poisoned));
        open.clear_poison();
        assert_eq!(open.eat(b, |_| ()), Ok(()));
        assert_eq!(open.eat(a, |_| ()), Ok(()));
    }
    // A pool that catches panics goes on with the thread.
    let caught = std::panic::catch_unwind(std::panic::AssertUnwindSafe(|| open.eat(b, |_| panic!("on purpose"))));
    assert!(caught.is_err() && open.is_poisoned(e));
    open.clear_poison();
    assert_eq!(open.eat(b, |_| 1), Ok(1));
    let closed = open.close().unwrap();
    assert!(!closed.is_poisoned(e));
    assert_eq!(closed.ate(a) + closed.ate(b), 14);
}

#[test]
fn a_meal_that_begins_while_its_thread_unwinds_poisons_nothing() {
    struct AtLast<'a>(&'a OpenTable<u64>, WorkerId);
    impl Drop for AtLast<'_> {
        fn drop(&mut self) {
            self.0.eat(self.1, |meal| meal.values().for_each(|(_, it)| *it += 1)).unwrap();
        }
    }
    let (open, a, _, e) = pair();
    let panicked = std::panic::catch_unwind(std::panic::AssertUnwindSafe(|| {
        let _last = AtLast(&open, a);
        panic!("on purpose");
    }));
    assert!(panicked.is_err() && !open.is_poisoned(e));
    assert_eq!(*open.close().unwrap().value(e), 1);
}

#[test]
fn a_lost_guard_stops_in_the_end_all_that_are_joined_to_it() {
    let mut table = Table::new();
    let [a, b, c, d] = ["a", "b", "c", "d"].map(|it| table.worker(it).unwrap());
    for (i, j) in [(a, b), (b, c), (c, d)] {
        table.edge(i, j, 0).unwrap();
    }
    let open = table.open().unwrap();
    thread::scope(|scope| {
        scope.spawn(|| std::mem::forget(open.lock(a).unwrap())).join().unwrap();
        scope.spawn(|| assert_eq!(open.try_eat_for(b, Duration::from_millis(50), |_| ()), Ok(None)));
        scope.spawn(|| assert_eq!(open.eat(d, |_| ()), Ok(())));
    });
    // b is hungry for ever, and gets the fork that it shares with c clean once it has asked for it. Then c waits for
    // ever, and after it d.
    for far in [c, d] {
        let begun = Instant::now();
        while open.try_eat_for(far, Duration::from_millis(20), |_| ()).unwrap().is_some() {
            assert!(begun.elapsed() < Duration::from_secs(60));
        }
    }
}

#[test]
fn one_who_gave_up_leaves_an_empty_meal() {
    let mut table = Table::new();
    table.keep_journals();
    let (a, b) = (table.worker("a").unwrap(), table.worker("b").unwrap());
    table.edge(a, b, 0u64).unwrap();
    let open = table.open().unwrap();
    let held = open.lock(a).unwrap();
    thread::scope(|scope| {
        // A neighbour eats: nothing is asked for.
        scope.spawn(|| assert_eq!(open.try_eat(b, |_| ()), Ok(None))).join().unwrap();
        scope.spawn(|| assert_eq!(open.try_eat_for(b, Duration::from_millis(20), |_| ()), Ok(None)));
    });
    drop(held);
    assert_eq!(open.eat(b, |meal| meal.k()), Ok(2));
    assert_eq!(open.eat(a, |meal| meal.k()), Ok(2));
    let closed = open.close().unwrap();
    assert_eq!((closed.ate(b), closed.empty_meals(b)), (1, 2));
    assert!(closed.order().unwrap() > 0);
}

#[test]
fn closing_sends_away_who_waits() {
    for _ in 0..50 {
        let (open, a, b, e) = pair();
        let (begun, has_begun) = channel();
        let away = AtomicU32::new(0);
        thread::scope(|scope| {
            let (open, away) = (&open, &away);
            scope.spawn(move || {
                open.eat(a, |meal| {
                    begun.send(()).unwrap();
                    while away.load(Ordering::SeqCst) < 5 {
                        thread::yield_now();
                    }
                    *meal.with(b).unwrap() += 1;
                })
                .unwrap();
            });
            has_begun.recv().unwrap();
            for worker in [a, a, b, b] {
                scope.spawn(move || {
                    assert_eq!(open.eat(worker, |_| ()), Err(Error::Closed));
                    away.fetch_add(1, Ordering::SeqCst);
                });
            }
            scope.spawn(move || {
                assert_eq!(block_on(open.lock_async(b)).err(), Some(Error::Closed));
                away.fetch_add(1, Ordering::SeqCst);
            });
            thread::sleep(Duration::from_millis(1));
            assert_eq!(*open.close().unwrap().value(e), 1);
        });
    }
}

#[test]
fn patience_has_an_end() {
    for k in [0, 1, 3, 7] {
        let mut table = Table::new();
        table.patience(k);
        let (a, b) = (table.worker("a").unwrap(), table.worker("b").unwrap());
        table.edge(a, b, ()).unwrap();
        let open = table.open().unwrap();
        let waker = idle();
        let mut context = Context::from_waker(&waker);
        let held = open.lock(a).unwrap();
        // Ten wait for a, and then one for b, whose request comes while a eats.
        let mut ten: Vec<_> = (0..10).map(|_| Box::pin(open.lock_async(a))).collect();
        assert!(ten.iter_mut().all(|it| it.as_mut().poll(&mut context).is_pending()));
        let mut one = Box::pin(open.lock_async(b));
        assert!(one.as_mut().poll(&mut context).is_pending());
        drop(held);
        let mut eaten = 0;
        while one.as_mut().poll(&mut context).is_pending() {
            assert!(ten[eaten].as_mut().poll(&mut context).is_ready());
            eaten += 1;
        }
        assert_eq!(eaten as u32, k);
    }
}

// With patience without end a neighbour is heard only if it looks when the worker has stopped.
#[test]
fn a_worker_that_goes_on_is_watched_until_it_stops() {
    let mut table = Table::new();
    table.eager();
    let [a, b, c] = ["a", "b", "c"].map(|it| table.worker(it).unwrap());
    for (i, j) in [(a, b), (b, c), (a, c)] {
        table.edge(i, j, 0u64).unwrap();
    }
    let open = table.open().unwrap();
    for round in 0..300 {
        thread::scope(|scope| {
            for (worker, meals) in [(a, round % 50), (b, round % 7), (c, 1)] {
                let open = &open;
                let eats = move |_| open.eat(worker, |meal| meal.values().for_each(|(_, it)| *it += 1)).unwrap();
                scope.spawn(move || (0..meals).for_each(eats));
            }
        });
    }
    let closed = open.close().unwrap();
    let ate = [a, b, c].map(|it| closed.ate(it));
    assert_eq!(ate, [7350, 897, 300]);
    assert_eq!(closed.into_values().iter().sum::<u64>(), 2 * ate.iter().sum::<u64>());
}

#[test]
fn a_worker_that_came_again_and_stopped_gives_its_forks() {
    let mut table = Table::new();
    table.eager();
    let (a, b) = (table.worker("a").unwrap(), table.worker("b").unwrap());
    table.edge(a, b, ()).unwrap();
    let open = table.open().unwrap();
    for how in 0..4 {
        let held = open.lock(b).unwrap();
        let mut wait = Box::pin(open.lock_async(a));
        assert!(wait.as_mut().poll(&mut Context::from_waker(&idle())).is_pending());
        drop(held);
        drop(block_on(wait).unwrap());
        // Whoever waited for a has eaten, and comes twice more; then nobody comes.
        assert!(open.eat(a, |_| ()).is_ok() && open.eat(a, |_| ()).is_ok());
        match how {
            0 => assert_eq!(open.try_eat(b, |_| ()), Ok(Some(()))),
            1 => assert_eq!(open.eat(b, |_| ()), Ok(())),
            2 => assert_eq!(open.try_eat_for(b, Duration::from_secs(60), |_| ()), Ok(Some(()))),
            _ => drop(block_on(open.lock_async(b)).unwrap()),
        }
    }
}

#[test]
fn the_log_keeps_the_last_stays() {
    let mut table = Table::new();
    table.keep_log(3).renew_after(4);
    let (a, b) = (table.worker("a").unwrap(), table.worker("b").unwrap());
    let e = table.edge(a, b, ()).unwrap();
    let open = table.open().unwrap();
    for _ in 0..5 {
        assert!(open.eat(a, |_| ()).is_ok() && open.eat(b, |_| ()).is_ok() && open.eat(b, |_| ()).is_ok());
    }
    let closed = open.close().unwrap();
    // Whoever ate for nobody, when the sites were opened anew and at the end, is in the log too.
    assert!(closed.opened() > 1);
    let all = |worker| closed.ate(worker) + closed.empty_meals(worker);
    let last = |worker| closed.log(e).iter().rev().find(|it| it.worker == worker).unwrap();
    assert_eq!(closed.log(e).len(), 3);
    assert!([a, b].iter().all(|it| last(*it).first + last(*it).count == all(*it) + 1));
    assert_eq!((closed.ate(a), closed.ate(b)), (5, 10));
    assert_eq!(closed.order(), Err(Error::NoJournals));
}

#[test]
fn tasks() {
    let (open, a, b, e) = pair();
    thread::scope(|scope| {
        for worker in [a, b, a, b] {
            let open = &open;
            scope.spawn(move || {
                for n in 0..500 {
                    if n % 7 == 3 {
                        drop(open.lock_async(worker));
                        let mut wait = open.lock_async(worker);
                        let polled = Pin::new(&mut wait).poll(&mut Context::from_waker(&idle()));
                        if let Poll::Ready(meal) = polled {
                            meal.unwrap().values().for_each(|(_, it)| *it += 1);
                            continue;
                        }
                    }
                    let mut meal = block_on(open.lock_async(worker)).unwrap();
                    meal.values().for_each(|(_, it)| *it += 1);
                }
            });
        }
    });
    assert_eq!(*open.close().unwrap().value(e), 2000);
}

#[test]
fn a_waker_that_panics_keeps_nobody_waiting() {
    struct Bad(AtomicBool);
    impl Wake for Bad {
        fn wake(self: Arc<Self>) {
            self.0.store(true, Ordering::SeqCst);
            panic!("on purpose");
        }
    }
    let mut table = Table::new();
    let [a, b, c] = ["a", "b", "c"].map(|it| table.worker(it).unwrap());
    table.edge(a, b, ()).unwrap();
    table.edge(a, c, ()).unwrap();
    let open = table.open().unwrap();
    let held = open.lock(a).unwrap();
    let bad = Arc::new(Bad(AtomicBool::new(false)));
    let mut wait = open.lock_async(b);
    assert!(Pin::new(&mut wait).poll(&mut Context::from_waker(&bad.clone().into())).is_pending());
    thread::scope(|scope| {
        scope.spawn(|| open.eat(c, |_| ()).unwrap());
        thread::sleep(Duration::from_millis(20));
        drop(held);
    });
    assert!(bad.0.load(Ordering::SeqCst));
    // Its meal is there, and a future that is dropped ends it.
    drop(wait);
    open.eat(b, |_| ()).unwrap();
}
