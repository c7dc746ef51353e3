//! Tries plans, worlds and sites by a pair.
use dine::{Breach, Cause, Error, Event, Kind, LetterFault, Period, Phase, Place, Plan, Position, Site};
use dine::{Turn, World};

const PAIR: &str = "version = 1\n[[site]]\nname = \"a\"\njobs = [{ name = \"x\" }]\n\
    [[site]]\nname = \"b\"\njobs = [{ name = \"y\" }]\n[[edge]]\nends = [\"a\", \"b\"]\n";

#[test]
fn a_pair_is_replayed() {
    let mut world = World::open(&Plan::read(PAIR).unwrap()).unwrap();
    assert_eq!(world.replay(&[1, 1, 0, 0]), 4);
    assert_eq!(world.finish(), 18);
    assert_eq!(world.bound(), 22);
    let log = world.log(0).unwrap();
    let p = |site, first, count| Period { site, first, count };
    assert_eq!(log, [p(0, 1, 0), p(1, 1, 1), p(0, 1, 1)]);
    assert_eq!(Plan::read(PAIR).unwrap().name(1).unwrap(), "b");
    assert_eq!(world.phase(0), Ok(Phase::Thinking));
    assert_eq!(world.log(1), Err(Error::NoSuch));
}

#[test]
fn a_step_that_is_not_enabled_is_refused() {
    let mut world = World::open(&Plan::read(PAIR).unwrap()).unwrap();
    let first = world.enabled();
    assert_eq!(first.len(), 2);
    let begin = dine::Event { site: 0, kind: Kind::Begin };
    assert_eq!(world.step(begin), Err(Error::NotNow));
    assert_eq!(world.enabled(), first);
}

#[test]
fn a_text_that_is_no_plan_is_refused() {
    let refused = |text| match Plan::read(text).err() {
        Some(Error::NoPlan(refusal)) => refusal,
        other => panic!("{other:?}"),
    };
    assert_eq!((refused("version = 3").cause, refused("version = 3").position), (Cause::Version, None));
    assert_eq!(refused("version = 3").to_string(), "2 Version");
    let twice = refused("version = 1\n[[site]]\nname = \"a\"\n[[site]]\nname = \"a\"\n");
    assert_eq!((twice.cause, twice.position), (Cause::SiteTwice, Some(Position::Site(1))));
    let unknown = refused(&PAIR.replace("\"b\"]", "\"c\"]"));
    let words = "no plan: 12 UnknownEnd at edge 0. An end of this edge is no site's name.";
    assert_eq!(Error::NoPlan(unknown).to_string(), words);
    assert_eq!(Site::open(&Plan::read(PAIR).unwrap(), 2).err(), Some(Error::NoSuch));
}

fn run(site: &mut Site, letters: &mut Vec<Vec<u8>>) {
    while let Turn::Did(kind, letter) = site.turn().unwrap() {
        if !letter.is_empty() {
            letters.push(letter.to_vec());
        }
        if kind == Kind::Begin {
            site.end(false).unwrap();
        }
    }
}

#[test]
fn two_sites_exchange_letters() {
    let plan = Plan::read(PAIR).unwrap();
    let (mut a, mut b) = (Site::open(&plan, 0).unwrap(), Site::open(&plan, 1).unwrap());
    let (mut to_a, mut to_b) = (Vec::new(), Vec::new());
    for _ in 0..20 {
        run(&mut a, &mut to_b);
        run(&mut b, &mut to_a);
        for letter in to_b.drain(..) {
            b.take(&letter).unwrap();
        }
        for letter in to_a.drain(..) {
            a.take(&letter).unwrap();
        }
    }
    assert!(a.is_finished() && b.is_finished());
    assert_eq!((a.ate(), b.ate()), (1, 1));
    let p = |site, first, count| Period { site, first, count };
    assert_eq!(b.log(0).unwrap(), [p(0, 1, 1), p(1, 1, 1)]);
}

// One pair of sites by turns, and one by the events that `next` names: they do the same.
#[test]
fn a_turn_does_the_next_event() {
    let (_, mut by_turns) = path();
    let (_, mut by_events) = path();
    let (mut idle, mut at) = (0, 0);
    while idle < 3 {
        let (one, other) = (&mut by_turns[at], &mut by_events[at]);
        let mut letters = Vec::new();
        idle += 1;
        while let Some(kind) = other.next() {
            idle = 0;
            let letter = if kind == Kind::Begin { Vec::new() } else { other.act(kind).unwrap().to_vec() };
            assert_eq!(one.turn(), Ok(Turn::Did(kind, &letter)));
            match kind {
                Kind::Give(i) | Kind::Ask(i) | Kind::Done(i) | Kind::Close(i) => {
                    letters.push((other.place(i).unwrap().neighbour as usize, letter));
                }
                Kind::Begin => {
                    assert_eq!(one.turn(), Err(Error::Eating));
                    other.begin().unwrap();
                    let failed = other.ate() == 2;
                    other.end(failed).unwrap();
                    one.end(failed).unwrap();
                }
                _ => {}
            }
        }
        assert_eq!(one.turn(), Ok(if other.is_finished() { Turn::Finished } else { Turn::Waits }));
        for (to, letter) in letters {
            let place = by_turns[to].take(&letter).unwrap();
            assert_eq!(by_turns[to].place(place).unwrap().neighbour as usize, at);
            assert_eq!(by_events[to].take(&letter), Ok(place));
        }
        at = (at + 1) % 3;
    }
    assert!(by_turns.iter().chain(&by_events).all(Site::is_finished));
    assert!(by_turns.iter().all(|it| (0..it.degree()).all(|i| it.place(i).unwrap().is_closed)));
    assert_eq!(by_turns[1].ate(), 2);
}

#[test]
fn a_site_takes_letters_while_it_eats() {
    let plan = Plan::read(PAIR).unwrap();
    let (mut a, mut b) = (Site::open(&plan, 0).unwrap(), Site::open(&plan, 1).unwrap());
    b.act(Kind::Hungry).unwrap();
    let request = b.act(Kind::Ask(0)).unwrap().to_vec();
    a.act(Kind::Hungry).unwrap();
    a.begin().unwrap();
    a.take(&request).unwrap();
    assert_eq!(a.phase(), Phase::Eating);
    a.end(false).unwrap();
    assert_eq!(a.next(), Some(Kind::Give(0)));
}

#[test]
fn journals_have_an_order() {
    let plan = Plan::read(PAIR).unwrap();
    let (mut world, mut journals) = (World::open(&plan).unwrap(), vec![Vec::new(), Vec::new()]);
    while let Some(event) = world.enabled().last().copied() {
        world.step(event).unwrap();
        journals[event.site as usize].push(event);
    }
    let mut other = World::open(&plan).unwrap();
    assert_eq!(other.order(&journals).unwrap().len(), journals.concat().len());
    assert!(other.enabled().is_empty());
    assert_eq!(other.log(0), world.log(0));
    journals[0].remove(0);
    assert_eq!(World::open(&plan).unwrap().order(&journals), Err(Error::NotNow));
}

// Three sites in a row, the middle one of which resigns after a job that fails.
const PATH: &str = "version = 2\n[[site]]\nname = \"a\"\njobs = [{ name = \"x\" }]\n\
    [[site]]\nname = \"b\"\njobs = [{ name = \"x\" }, { name = \"y\" }, { name = \"z\" }]\non_fault = \"resign\"\n\
    [[site]]\nname = \"c\"\njobs = [{ name = \"x\" }, { name = \"y\" }]\n\
    [[edge]]\nends = [\"a\", \"b\"]\nvalue = 3\n[[edge]]\nends = [\"c\", \"b\"]\nvalue = 7\n";

fn path() -> (Plan, [Site; 3]) {
    let plan = Plan::read(PATH).unwrap();
    let sites = [0, 1, 2].map(|n| Site::open(&plan, n).unwrap());
    (plan, sites)
}

#[test]
fn numbers_of_other_sites_places_and_edges() {
    let (plan, [a, b, _]) = path();
    assert_eq!([0, 1, 2].map(|n| plan.jobs(n).unwrap()), [1, 3, 2]);
    assert_eq!([plan.ends(0), plan.ends(1)], [Ok((0, 1)), Ok((1, 2))]);
    assert_eq!((a.value(0), b.value(0), b.value(1)), (Ok(3), Err(Error::NoSuch), Ok(7)));
    let shown = |it: Place| (it.edge, it.neighbour, it.has_fork, it.has_token, it.is_dirty);
    let place = |site: &Site, i| site.place(i).map(shown);
    assert_eq!([place(&b, 0), place(&b, 1)], [Ok((0, 0, false, true, false)), Ok((1, 2, true, false, true))]);
    let mut world = World::open(&plan).unwrap();
    assert_eq!([world.value(0), world.value(1)], [Ok(3), Ok(7)]);
    for (site, kind) in [(2, Kind::Hungry), (0, Kind::Hungry), (0, Kind::Begin)] {
        world.step(Event { site, kind }).unwrap();
    }
    let phases = [Phase::Eating, Phase::Thinking, Phase::Hungry];
    assert_eq!([0, 1, 2].map(|n| (world.phase(n).unwrap(), world.ate(n).unwrap())), [0, 1, 2].map(|n| (phases[n], u32::from(n == 0))));
}

#[test]
fn a_job_that_failed_and_quitting() {
    for failed in [false, true] {
        let (_, [mut a, mut b, _]) = path();
        b.act(Kind::Hungry).unwrap();
        a.take(b.act(Kind::Ask(0)).unwrap()).unwrap();
        b.take(a.act(Kind::Give(0)).unwrap()).unwrap();
        b.begin().unwrap();
        assert_eq!(b.act(Kind::Quit), Err(Error::Eating));
        b.end(failed).unwrap();
        assert_eq!((b.ate(), b.phase()), (1, Phase::Thinking));
        if failed {
            assert_eq!(b.next(), Some(Kind::Quit));
            assert_eq!(b.act(Kind::Quit), Ok(&[][..]));
            // It has jobs left, and gave them up.
            assert!(matches!(b.next(), Some(Kind::Done(_))) && b.act(Kind::Hungry).is_err());
        } else {
            assert_eq!(b.act(Kind::Quit), Err(Error::NotNow));
            assert_eq!(b.next(), Some(Kind::Hungry));
        }
    }
}

// The first bytes of a letter of the run 0: all of it, if it is no Fork.
fn word(kind: u8, edge: u8) -> [u8; 13] {
    let mut letter = [0; 13];
    (letter[8], letter[9]) = (kind, edge);
    letter
}

#[test]
fn a_late_letter_of_an_older_run() {
    let plan = Plan::read(PAIR).unwrap();
    for (older, run) in [(0, 0), (7, 7), (0, 1), (u64::MAX, 0), (1, 1 << 63 | 1)] {
        let open = |run| [0, 1].map(|n| Site::open_in(&plan, n, run).unwrap());
        let [mut a, mut b] = open(older);
        b.act(Kind::Hungry).unwrap();
        a.take(b.act(Kind::Ask(0)).unwrap()).unwrap();
        let late = a.act(Kind::Give(0)).unwrap().to_vec();
        assert_eq!(&late[..8], &older.to_le_bytes()[..]);
        // In the next run a eats, and b waits for the fork. The late one would let it eat too.
        let [mut a, mut b] = open(run);
        a.act(Kind::Hungry).unwrap();
        a.begin().unwrap();
        b.act(Kind::Hungry).unwrap();
        a.take(b.act(Kind::Ask(0)).unwrap()).unwrap();
        if older == run {
            b.take(&late).unwrap();
            b.begin().unwrap();
            assert_eq!((a.phase(), b.phase()), (Phase::Eating, Phase::Eating));
        } else {
            assert_eq!(b.take(&late), Err(Error::NoLetter(LetterFault::OtherRun)));
            assert_eq!((b.begin(), a.phase(), b.phase()), (Err(Error::NotNow), Phase::Eating, Phase::Hungry));
            a.end(false).unwrap();
            b.take(a.act(Kind::Give(0)).unwrap()).unwrap();
            b.begin().unwrap();
        }
    }
    assert_eq!(Error::NoLetter(LetterFault::OtherRun).to_string(), "the letter is of another run");
}

#[test]
fn each_letter_that_is_refused_by_name() {
    let plan = Plan::read(PAIR).unwrap();
    let (mut a, mut b) = (Site::open(&plan, 0).unwrap(), Site::open(&plan, 1).unwrap());
    let fault = |it| Err(Error::NoLetter(it));
    let breach = |it| Err(Error::Breach(it));
    assert_eq!((a.take(&[]), a.take(&word(2, 0)[..12])), (fault(LetterFault::Length), fault(LetterFault::Length)));
    assert_eq!(a.take(&[2; 22]), fault(LetterFault::OtherRun));
    assert_eq!(a.take(&word(9, 0)), fault(LetterFault::Kind));
    assert_eq!(a.take(&word(2, 7)), fault(LetterFault::Edge));
    b.act(Kind::Hungry).unwrap();
    let request = b.act(Kind::Ask(0)).unwrap().to_vec();
    assert_eq!(request, word(2, 0));
    a.take(&request).unwrap();
    assert_eq!(a.take(&request), breach(Breach::RequestOutOfTurn));
    let fork = a.act(Kind::Give(0)).unwrap().to_vec();
    assert_eq!((fork.len(), &fork[..13]), (29, &word(1, 0)[..]));
    let mut unlawful = fork.clone();
    unlawful[17] = 5;
    assert_eq!(b.take(&unlawful), fault(LetterFault::Unlawful));
    assert_eq!(a.take(&fork), breach(Breach::ForkOutOfTurn));
    let (done, close) = (word(3, 0), word(4, 0));
    assert_eq!(b.take(&close), breach(Breach::ClosedEarly));
    b.take(&done).unwrap();
    assert_eq!(b.take(&done), breach(Breach::DoneOutOfTurn));
    // The neighbour said that it ate all its meals, and its fork says that it did not.
    assert_eq!(b.take(&fork), breach(Breach::StrangeFork));
    let (mut a, mut b) = (Site::open(&plan, 0).unwrap(), Site::open(&plan, 1).unwrap());
    let (mut to_a, mut to_b) = (Vec::new(), Vec::new());
    while !(a.is_finished() && b.is_finished()) {
        run(&mut a, &mut to_b);
        for it in to_b.drain(..) {
            b.take(&it).unwrap();
        }
        run(&mut b, &mut to_a);
        for it in to_a.drain(..) {
            a.take(&it).unwrap();
        }
    }
    assert_eq!(a.take(&done), breach(Breach::AfterClose));
}

#[test]
fn a_site_whose_neighbour_is_lost() {
    // The fork is lost with the neighbour, so no meal can begin.
    let plan = Plan::read(PAIR).unwrap();
    let mut b = Site::open(&plan, 1).unwrap();
    assert!(b.act(Kind::Close(0)).is_err() && !b.is_stuck());
    assert_eq!(b.break_off(0), Ok(&word(4, 0)[..]));
    assert!(b.is_stuck() && b.break_off(0).is_err());
    // The fork is here, so the meals can be eaten. Then nothing is left, and the site is not finished.
    let mut a = Site::open(&plan, 0).unwrap();
    a.break_off(0).unwrap();
    assert!(!a.is_stuck());
    run(&mut a, &mut Vec::new());
    assert_eq!((a.ate(), a.is_finished(), a.is_stuck()), (1, false, true));
    // One of three is lost: the others eat what they can, and know that it is over once they said Done to each other.
    let (_, [mut a, mut b, mut c]) = path();
    b.break_off(1).unwrap();
    c.break_off(0).unwrap();
    let (mut to_a, mut to_b) = (Vec::new(), Vec::new());
    for _ in 0..20 {
        run(&mut a, &mut to_b);
        run(&mut b, &mut to_a);
        for it in to_b.drain(..) {
            b.take(&it).unwrap();
        }
        for it in to_a.drain(..) {
            a.take(&it).unwrap();
        }
    }
    assert!((a.ate(), a.is_finished(), a.is_stuck()) == (1, true, false));
    assert!((b.ate(), b.is_finished(), b.is_stuck()) == (3, false, true) && c.is_stuck());
}

#[test]
fn what_is_shown_in_a_message() {
    let (plan, [a, ..]) = path();
    assert_eq!(format!("{plan:?} {a:?}"), "Plan { sites: 3, edges: 2, .. } Site { phase: Thinking, ate: 0, .. }");
    assert!(format!("{:?}", World::open(&plan).unwrap()).contains("Hungry"));
    let error = Error::Breach(Breach::StrangeFork);
    assert_eq!(error.to_string(), "the rules do not allow this letter now: StrangeFork");
    for (number, place) in (0..9).flat_map(|it| [(it, 0), (it, 4)]) {
        let (kind, at) = Kind::of(number, place).unwrap().numbers();
        assert!(kind == number && (at == place || at == 0));
    }
}
