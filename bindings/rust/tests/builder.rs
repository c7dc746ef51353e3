//! Plans by calls: what a builder makes, and each refusal at the call that causes it.
use dine::{Cause, Error, Plan, PlanBuilder, Position, Refusal, Result, World};

fn refused<T: std::fmt::Debug>(result: Result<T>, cause: Cause, position: Option<Position>) {
    assert_eq!(result.unwrap_err(), Error::NoPlan(Refusal { cause, position }));
}

#[test]
fn the_plan_is_that_of_the_text_that_says_the_same() {
    let mut builder = PlanBuilder::new().unwrap();
    let sites = [("a", 2), ("b", 3), ("c", 1)].map(|(name, jobs)| builder.site(name, jobs).unwrap());
    let edges = [(0, 1), (2, 1)].map(|(a, b)| builder.edge(sites[a], sites[b]).unwrap());
    assert_eq!((sites, edges), ([0, 1, 2], [0, 1]));
    builder.value(1, 7).unwrap();
    builder.resign(1).unwrap();
    builder.fails(1, 2).unwrap();
    builder.adds(0, 2, 5).unwrap();
    builder.sets(2, 1, 40).unwrap();
    builder.turns(2, 1, 1_000_000).unwrap();
    let built = builder.finish().unwrap();
    let text = "version = 2\n\
        [[site]]\nname = \"a\"\njobs = [{ name = \"1\" }, { name = \"2\", add = 5 }]\n\
        [[site]]\nname = \"b\"\njobs = [{ name = \"1\" }, { name = \"2\", fails = true }, { name = \"3\" }]\n\
        on_fault = \"resign\"\n\
        [[site]]\nname = \"c\"\njobs = [{ name = \"1\", set = 40, turns = 1000000 }]\n\
        [[edge]]\nends = [\"a\", \"b\"]\n[[edge]]\nends = [\"c\", \"b\"]\nvalue = 7\n";
    let read = Plan::read(text).unwrap();
    for plan in [&built, &read] {
        assert_eq!((plan.version(), plan.sites(), plan.edges()), (2, 3, 2));
        assert_eq!([0, 1, 2].map(|site| (plan.name(site).unwrap(), plan.jobs(site).unwrap())), [
            ("a".to_string(), 2), ("b".to_string(), 3), ("c".to_string(), 1)
        ]);
        assert_eq!([0, 1].map(|edge| plan.ends(edge).unwrap()), [(0, 1), (1, 2)]);
    }
    for choices in [vec![], vec![1, 1, 0, 2, 0, 1], (0..40).map(|n| n * 7 % 5).collect()] {
        let run = |plan: &Plan| World::open(plan).unwrap().replay_text(plan, &choices).unwrap();
        assert_eq!(run(&built), run(&read));
    }
}

#[test]
fn a_site_is_refused_for_its_name_and_for_how_many_there_are() {
    let mut builder = PlanBuilder::new().unwrap();
    refused(builder.finish(), Cause::NoSite, None);
    let long = "x".repeat(33);
    for name in ["", "a b", "a.b", "ä", "a\0", long.as_str()] {
        refused(builder.site(name, 1), Cause::BadName, Some(Position::Site(0)));
    }
    refused(builder.site("a", 1001), Cause::TooManyJobs, Some(Position::Site(0)));
    assert_eq!(builder.site("a", 1000), Ok(0));
    refused(builder.site("a", 1001), Cause::SiteTwice, Some(Position::Site(1)));
    for n in 1..64 {
        assert_eq!(builder.site(&format!("{n:_>32}"), 0), Ok(n));
    }
    refused(builder.site("one-more", 1001), Cause::TooManySites, None);
    refused(builder.site("a", 1), Cause::SiteTwice, Some(Position::Site(64)));
    let plan = builder.finish().unwrap();
    assert_eq!((plan.sites(), plan.jobs(0), plan.jobs(63)), (64, Ok(1000), Ok(0)));
}

#[test]
fn an_edge_is_refused_for_its_ends_and_for_how_many_there_are() {
    let mut builder = PlanBuilder::new().unwrap();
    for n in 0..64 {
        refused(builder.edge(n, 0), Cause::UnknownEnd, Some(Position::Edge(0)));
        builder.site(&format!("s{n}"), 1).unwrap();
        refused(builder.edge(n, n), Cause::Loop, Some(Position::Edge(0)));
    }
    let mut count = 0;
    for (a, b) in (0..64).flat_map(|a| (0..a).map(move |b| (a, b))).take(512) {
        assert_eq!(builder.edge(a, b), Ok(count));
        count += 1;
        for (a, b) in [(a, b), (b, a)] {
            refused(builder.edge(a, b), Cause::EdgeTwice, Some(Position::Edge(count)));
        }
    }
    refused(builder.edge(63, 62), Cause::TooManyEdges, None);
    refused(builder.edge(63, 64), Cause::UnknownEnd, Some(Position::Edge(512)));
    assert_eq!(builder.finish().unwrap().edges(), 512);
}

#[test]
fn what_is_not_there_or_too_large_is_refused_and_changes_nothing() {
    let mut builder = PlanBuilder::new().unwrap();
    builder.site("a", 1).unwrap();
    builder.site("b", 0).unwrap();
    builder.edge(0, 1).unwrap();
    builder.value(0, 1_000_000).unwrap();
    builder.sets(0, 1, 1_000_000).unwrap();
    refused(builder.value(0, 1_000_001), Cause::ValueTooLarge, Some(Position::Edge(0)));
    refused(builder.turns(0, 1, 1_000_001), Cause::TurnsTooLarge, Some(Position::Site(0)));
    refused(builder.adds(0, 1, 1_000_001), Cause::ActTooLarge, Some(Position::Site(0)));
    refused(builder.sets(0, 1, u32::MAX), Cause::ActTooLarge, Some(Position::Site(0)));
    assert_eq!(builder.value(1, 1), Err(Error::NoSuch));
    assert_eq!(builder.resign(2), Err(Error::NoSuch));
    for (site, k) in [(0, 0), (0, 2), (1, 1), (2, 1), (u32::MAX, u32::MAX)] {
        assert_eq!(builder.turns(site, k, 1), Err(Error::NoSuch));
        assert_eq!(builder.fails(site, k), Err(Error::NoSuch));
        assert_eq!(builder.adds(site, k, 1), Err(Error::NoSuch));
        assert_eq!(builder.sets(site, k, 1), Err(Error::NoSuch));
    }
    let mut world = World::open(&builder.finish().unwrap()).unwrap();
    assert_eq!(world.value(0), Ok(1_000_000));
    world.finish();
    assert_eq!((world.ate(0), world.ate(1), world.value(0)), (Ok(1), Ok(0), Ok(1_000_000)));
}

#[test]
fn a_builder_goes_on_after_it_made_a_plan() {
    let mut builder = PlanBuilder::new().unwrap();
    builder.site("a", 3).unwrap();
    let first = builder.finish().unwrap();
    builder.site("b", 4).unwrap();
    builder.edge(1, 0).unwrap();
    let second = std::thread::spawn(move || builder.finish().unwrap()).join().unwrap();
    assert_eq!((first.sites(), first.edges(), second.sites(), second.edges()), (1, 0, 2, 1));
}
