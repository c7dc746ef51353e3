//! Tries `run`: a thread for each worker.
use dine::{Error, Meal, Table};
use std::sync::atomic::{AtomicBool, AtomicU32, Ordering};
use std::sync::Mutex;
use std::time::Duration;

type NoMeal<'a> = Meal<'a, ()>;

#[test]
fn transfers_between_accounts_keep_the_sum() {
    let mut table = Table::new();
    let ids: Vec<_> = ["ann", "bob", "cid", "dan"].iter().map(|name| table.worker(name).unwrap()).collect();
    let edges: Vec<_> = (0..4).map(|i| table.edge(ids[i], ids[(i + 1) % 4], 100i64).unwrap()).collect();
    // The edges of each account, in the order in which they were added.
    let neighbours = [[ids[1], ids[3]], [ids[0], ids[2]], [ids[1], ids[3]], [ids[2], ids[0]]];
    let done = table
        .run(50, &(), |meal| {
            let here: Vec<_> = meal.values().map(|it| it.0).collect();
            assert_eq!(here, neighbours[meal.worker().number() as usize]);
            let (from, to) = meal.both(here[0], here[1]).ok_or("two")?;
            if *from == 0 {
                return Err("empty");
            }
            *from -= 1;
            *to += 1;
            Ok(*to)
        })
        .unwrap();
    assert_eq!(edges.iter().map(|edge| *done.value(*edge)).sum::<i64>(), 400);
    assert!(ids.iter().all(|id| done.results(*id).len() == 50));
    assert_eq!(done.results_of("bob").unwrap().len(), 50);
    assert!(done.results_of("eve").is_none());
    assert!(done.failures().all(|(_, k, e)| k <= 50 && *e == "empty"));
    let meals = |edge| done.log(edge).iter().map(|it| it.count).sum::<u64>();
    assert!(edges.iter().all(|edge| meals(*edge) == 100));
}

#[test]
fn workers_with_states_and_numbers_of_their_own() {
    for eager in [false, true] {
        let mut table = Table::with_states();
        if eager {
            table.eager();
        }
        table.keep_journals();
        let [a, b, c] = ["a", "b", "c"].map(|name| table.worker_with(name, Vec::new()).unwrap());
        let edges = [(a, b), (b, c)].map(|(i, j)| table.edge(i, j, 0).unwrap());
        let meals = |id| if id == a { 7 } else { u64::from(id == b) * 1000 };
        let done = table.run_each(meals, &(), |meal| {
            let k = meal.k();
            meal.state().push(k);
            meal.values().for_each(|(_, it)| *it += 1);
            if k % 100 == 0 { Err(k) } else { Ok(()) }
        });
        let done = done.unwrap();
        let logged = |edge| done.log(edge).iter().filter(|it| it.worker == b).map(|it| it.count).sum::<u64>();
        // No site has more meals than it ate, so there is no empty meal.
        assert_eq!((logged(edges[0]), logged(edges[1]), done.results(c).len()), (1000, 1000, 0));
        assert!(done.order().unwrap() > 2000);
        assert!(done.failures().map(|(name, k, e)| (name, k, *e)).eq((1..=10).map(|k| ("b", 100 * k, 100 * k))));
        let (values, states, results) = done.into_parts();
        assert_eq!((values, states[0].len(), results[1].len()), (vec![1007, 1000], 7, 1000));
        assert!(states[1].iter().copied().eq(1..=1000) && states[2].is_empty());
    }
}

#[test]
fn more_meals_than_a_site_has() {
    let mut table = Table::new();
    let [a, b] = ["a", "b"].map(|name| table.worker(name).unwrap());
    let edge = table.edge(a, b, 0u64).unwrap();
    let done = table.run(5_000, &(), |meal| {
        meal.values().for_each(|(_, it)| *it += 1);
        Ok::<(), ()>(())
    });
    let done = done.unwrap();
    assert_eq!((done.results(a).len(), done.results(b).len(), *done.value(edge)), (5_000, 5_000, 10_000));
}

#[test]
fn a_large_number_of_meals_costs_no_memory() {
    let stop = AtomicBool::new(true);
    for meals in [1_000_000, u64::from(u32::MAX), u64::MAX] {
        let mut table = Table::new();
        table.worker("a").unwrap();
        let job = |meal: &mut NoMeal<'_>| if meal.k() < 10 { Ok::<(), ()>(()) } else { panic!("enough") };
        let ran = std::panic::catch_unwind(|| table.run(meals, &(), job));
        assert_eq!(ran.expect_err("a panic").downcast_ref::<&str>(), Some(&"enough"));
    }
    let mut table = Table::new();
    let a = table.worker("a").unwrap();
    let done = table.run_until(&stop, &(), |_: &mut NoMeal<'_>| Ok::<(), ()>(())).unwrap();
    assert!(done.results(a).is_empty());
}

#[test]
fn ids_of_another_table() {
    let (mut table, mut other) = (Table::new(), Table::new());
    let [ann, bob] = ["ann", "bob"].map(|name| table.worker(name).unwrap());
    let [cid, dan] = ["cid", "dan"].map(|name| other.worker(name).unwrap());
    let edge = other.edge(cid, dan, 7).unwrap();
    assert_ne!((ann, bob), (cid, dan));
    table.edge(ann, bob, 1).unwrap();
    assert_eq!(table.edge(ann, dan, 2), Err(Error::OtherTable));
    // A clone knows the workers of the table; a job meets no worker of another one.
    let job = |meal: &mut Meal<'_, i32>| meal.with(dan).map_or(Err(()), |_| Ok(()));
    let done = table.clone().run(1, &(), job).unwrap();
    assert_eq!(done.results(ann), [Err(())]);
    let panics = |what: &dyn Fn()| std::panic::catch_unwind(std::panic::AssertUnwindSafe(what)).is_err();
    assert!(panics(&|| _ = done.results(dan)) && panics(&|| _ = done.value(edge)) && panics(&|| _ = done.log(edge)));
}

#[test]
fn a_panic_of_a_job_goes_on_whoever_panicked() {
    for who in 0..3 {
        let mut table = Table::new();
        let workers: Vec<_> = (0..3).map(|n| table.worker(&format!("w{n}")).unwrap()).collect();
        for n in 0..3 {
            table.edge(workers[n], workers[(n + 1) % 3], 0u32).unwrap();
        }
        let ran = std::panic::catch_unwind(move || {
            table.run(3, &(), |meal| {
                if meal.worker() == workers[who] {
                    panic!("it was me");
                }
                Ok::<(), ()>(())
            })
        });
        let payload = ran.expect_err("a panic");
        assert_eq!(payload.downcast_ref::<&str>(), Some(&"it was me"));
    }
}

#[test]
fn a_panic_ends_a_run_of_those_who_are_no_neighbours() {
    let mut table = Table::new();
    let a = table.worker("a").unwrap();
    table.worker("b").unwrap();
    let eaten = AtomicU32::new(0);
    let ran = std::panic::catch_unwind(std::panic::AssertUnwindSafe(|| {
        table.run(u64::MAX, &(), |meal: &mut NoMeal<'_>| {
            assert!(meal.worker() != a, "it was a");
            Ok::<_, ()>(eaten.fetch_add(1, Ordering::SeqCst))
        })
    }));
    assert!(ran.is_err());
}

#[test]
fn a_run_that_is_stopped_begins_no_job_any_more() {
    let stop = AtomicBool::new(false);
    let mut table = Table::new();
    let workers = ["ann", "bob", "cid"].map(|name| table.worker(name).unwrap());
    let edges = [(0, 1), (1, 2), (2, 0)].map(|(i, j)| table.edge(workers[i], workers[j], 0u32).unwrap());
    let done = table
        .run_until(&stop, &(), |meal| {
            meal.values().for_each(|(_, value)| *value += 1);
            if meal.k() == 10 {
                stop.store(true, Ordering::SeqCst);
            }
            if meal.k() % 2 == 0 { Err(meal.k()) } else { Ok(()) }
        })
        .unwrap();
    let ate: Vec<_> = workers.iter().map(|it| done.results(*it).len()).collect();
    assert!(ate.iter().all(|it| *it <= 12) && ate.iter().any(|it| *it >= 10), "{ate:?}");
    // A job that fails stops nobody.
    assert_eq!(done.failures().count(), ate.iter().map(|it| it / 2).sum::<usize>());
    let all = edges.iter().map(|it| *done.value(*it) as usize).sum::<usize>();
    assert_eq!(all, 2 * ate.iter().sum::<usize>());
}

#[test]
fn a_watch_is_told_of_each_meal_before_and_after_its_job() {
    #[derive(Default)]
    struct Calls(Mutex<Vec<String>>);
    impl dine::Watch for Calls {
        fn begins(&self, worker: &str, k: u64, _waited: Duration) {
            self.0.lock().unwrap().push(format!("{worker} {k} begins"));
        }
        fn ends(&self, worker: &str, k: u64, ok: bool, _took: Duration) {
            self.0.lock().unwrap().push(format!("{worker} {k} ends {ok}"));
        }
    }
    let told = Calls::default();
    let mut table = Table::new();
    table.worker("a").unwrap();
    let job = |meal: &mut NoMeal<'_>| {
        told.0.lock().unwrap().push(format!("job {}", meal.k()));
        if meal.k() == 2 { Err(()) } else { Ok(()) }
    };
    table.run(2, &told, job).unwrap();
    let all = ["a 1 begins", "job 1", "a 1 ends true", "a 2 begins", "job 2", "a 2 ends false"];
    assert_eq!(*told.0.lock().unwrap(), all);
}
