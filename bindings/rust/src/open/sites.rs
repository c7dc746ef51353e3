//! A seat: the proved site of a worker, what is known of it without asking, and its letters.
//!
//! Everything here is done under the lock of one seat. A letter is pushed to its receiver's inbox before that lock is
//! let go. So the letters of a link are in the order of the events that put them, and that is what the rules ask of a
//! link. The lock of an inbox is taken last, and nothing else is done under it. A value is a box that travels with the
//! letter of its fork, so no `unsafe` is needed to have it at one end only.

use super::helping::Todo;
use super::lock;
use super::waiting::Waiter;
use super::OpenTable;
use crate::table::WorkerId;
use crate::{Event, Kind, Result, Site, LETTER_MAX};
use std::collections::VecDeque;
use std::sync::atomic::{AtomicBool, AtomicU32, Ordering};
use std::sync::{Arc, Mutex};

// What there is of a place at any time: its edge, the worker at the other end, and the place of the edge there.
pub(super) struct Place {
    pub edge: u32,
    pub neighbour: u32,
    pub there: u8,
    pub id: WorkerId,
}

// A letter with its length.
#[derive(Clone, Copy, Default)]
struct Letter {
    bytes: [u8; LETTER_MAX],
    len: u8,
}

impl Letter {
    fn of(letter: &[u8]) -> Letter {
        let mut bytes = [0; LETTER_MAX];
        bytes[..letter.len()].copy_from_slice(letter);
        Letter { bytes, len: letter.len() as u8 }
    }

    fn bytes(&self) -> &[u8] {
        &self.bytes[..usize::from(self.len)]
    }
}

// A letter on its way, with the event that put it, and the place at which it arrives.
struct Post<T> {
    letter: Letter,
    put_by: Kind,
    place: u8,
    // Nobody waits at the worker that asked, so nobody can be woken to ask again.
    is_urgent: bool,
    value: Option<Box<T>>,
}

pub(super) struct Seat<T, S> {
    pub number: u32,
    pub places: Box<[Place]>,
    inbox: Mutex<Vec<Post<T>>>,
    // The worker eats or is hungry. Only a hint, for `try_lock`.
    pub is_busy: AtomicBool,
    // How many of its forks are elsewhere. Only a hint: whoever lacks one is likely to be the next to eat.
    pub lacks: AtomicU32,
    pub state: Mutex<State<T, S>>,
}

// A request that is here and not taken yet.
#[derive(Clone, Copy, Default)]
struct PutOff {
    letter: Letter,
    // The meals of the worker when it came.
    ate: u32,
}

pub(super) struct State<T, S> {
    pub site: Site,
    // The meals of this site, and of those that were here before it.
    pub ate: u32,
    pub before: u64,
    // The meals that nobody was there for.
    pub empty: u64,
    pub eats: bool,
    pub hungry: bool,
    // The places whose fork is here, and those of them whose fork is clean, as bits.
    pub forks: u64,
    pub clean: u64,
    pub values: Vec<Option<Box<T>>>,
    pub own: Option<Box<S>>,
    // The places whose requests are put off, and those of them that may not wait for patience.
    pub put_off: u64,
    pub urgent: u64,
    requests: Vec<PutOff>,
    // Nobody waits for the meal that the site is hungry for.
    pub is_hurried: bool,
    // A neighbour was woken to look whether somebody is still here, and is yet to look, or to look again.
    pub has_nudged: bool,
    // The meals of the worker when it nudged, or when a neighbour last looked.
    pub looked: u32,
    // The meals in turn since one was begun for somebody who waited, if no neighbour was heard since. From the second
    // on somebody has come again.
    pub streak: u32,
    pub queue: VecDeque<Arc<Waiter>>,
    pub is_counted: bool,
    pub journal: Option<Vec<Event>>,
    // Empty, between two uses.
    drained: Vec<Post<T>>,
}

pub(super) fn bit(place: impl Into<u64>) -> u64 {
    1 << place.into()
}

// Takes the lowest bit out.
pub(super) fn take_lowest(bits: &mut u64) -> Option<usize> {
    let lowest = if *bits == 0 { None } else { Some(bits.trailing_zeros() as usize) };
    *bits &= bits.wrapping_sub(1);
    lowest
}

impl<T, S> Seat<T, S> {
    pub fn new(number: u32, places: Box<[Place]>, state: State<T, S>) -> Seat<T, S> {
        let (inbox, lacks) = (Mutex::new(Vec::new()), AtomicU32::new(state.lacks()));
        Seat { number, places, inbox, is_busy: AtomicBool::new(false), lacks, state: Mutex::new(state) }
    }

    // Those of its places whose bits are set.
    pub fn places_of(&self, bits: u64) -> impl Iterator<Item = &Place> {
        self.places.iter().enumerate().filter(move |it| bits >> it.0 & 1 == 1).map(|it| it.1)
    }
}

impl<T, S> State<T, S> {
    pub fn new(site: Site, degree: usize, own: S, journals: bool) -> State<T, S> {
        State {
            site,
            ate: 0,
            before: 0,
            empty: 0,
            eats: false,
            hungry: false,
            forks: 0,
            clean: 0,
            values: (0..degree).map(|_| None).collect(),
            own: Some(Box::new(own)),
            put_off: 0,
            urgent: 0,
            requests: vec![PutOff::default(); degree],
            is_hurried: false,
            has_nudged: false,
            looked: 0,
            streak: 0,
            queue: VecDeque::new(),
            is_counted: false,
            journal: if journals { Some(Vec::new()) } else { None },
            drained: Vec::new(),
        }
    }

    // A new site is here. It has no fork yet.
    pub fn set_anew(&mut self, site: Site) {
        self.site = site;
        self.before += u64::from(self.ate);
        self.ate = 0;
        self.forks = 0;
        self.clean = 0;
        self.urgent = 0;
        self.is_hurried = false;
        self.has_nudged = false;
        self.streak = 0;
        self.is_counted = false;
    }

    pub fn has_fork(&mut self, place: usize, value: Option<Box<T>>) {
        self.values[place] = value;
        self.forks |= bit(place as u64);
    }

    // How many forks are elsewhere.
    pub fn lacks(&self) -> u32 {
        self.requests.len() as u32 - self.forks.count_ones()
    }

    // The places whose fork it asks for. None if it eats, or if it does not ask.
    pub fn lacking(&self) -> u64 {
        if self.hungry && !self.eats { !self.forks } else { 0 }
    }

    // Nobody eats, asks or waits here.
    pub fn is_idle(&self) -> bool {
        !self.eats && !self.hungry && self.queue.is_empty()
    }

    // Writes the event into the journal, before it is done.
    pub fn note(&mut self, site: u32, kind: Kind) {
        if let Some(journal) = &mut self.journal {
            journal.push(Event { site, kind });
        }
    }
}

impl<T: Send, S: Send> OpenTable<T, S> {
    // Takes the letters that have come. With patience a request is put off until `settle` takes it.
    pub(super) fn drain(&self, seat: &Seat<T, S>, state: &mut State<T, S>) -> Result<()> {
        {
            let mut inbox = lock(&seat.inbox);
            if inbox.is_empty() {
                return Ok(());
            }
            std::mem::swap(&mut *inbox, &mut state.drained);
        }
        let mut drained = std::mem::take(&mut state.drained);
        for post in drained.drain(..) {
            self.arrive(seat, state, post)?;
        }
        state.drained = drained;
        Ok(())
    }

    fn arrive(&self, seat: &Seat<T, S>, state: &mut State<T, S>, post: Post<T>) -> Result<()> {
        let i = usize::from(post.place);
        if matches!(post.put_by, Kind::Ask(_)) && self.manner.patience > 0 {
            // If nobody is here, nothing is put off, unless somebody comes again and again: between two meals nobody is
            // here either. Then `settle` has a neighbour look.
            let is_urgent = post.is_urgent || state.is_idle() && state.streak < 2;
            state.put_off |= bit(post.place);
            state.urgent = state.urgent & !bit(post.place) | u64::from(is_urgent) << i;
            state.requests[i] = PutOff { letter: post.letter, ate: state.ate };
            return Ok(());
        }
        state.note(seat.number, Kind::Take(u32::from(post.place)));
        state.site.take(post.letter.bytes())?;
        if matches!(post.put_by, Kind::Give(_)) {
            state.has_fork(i, post.value);
            state.clean |= bit(post.place);
            seat.lacks.store(state.lacks(), Ordering::Relaxed);
        }
        Ok(())
    }

    // Takes the requests that were put off and may not wait any longer. One for a clean fork changes nothing before the
    // meal, so it waits. `wants` says whether somebody is here for a meal.
    pub(super) fn settle(
        &self,
        seat: &Seat<T, S>,
        state: &mut State<T, S>,
        todo: &mut Todo,
        wants: bool,
        patience: u32,
    ) -> Result<()> {
        let due = state.put_off & !state.clean;
        if due == 0 {
            return Ok(());
        }
        let may_stay = if wants || state.hungry { wants && state.lacks() == 0 } else { true };
        let (mut rest, mut is_over) = (due, !may_stay);
        while let Some(i) = take_lowest(&mut rest) {
            let is_urgent = !wants && state.urgent >> i & 1 == 1;
            is_over |= is_urgent || state.ate - state.requests[i].ate >= patience;
        }
        if is_over {
            self.take_requests(seat, state, due)?;
            // The next to eat is not kept waiting by the others.
            let next = (0u32..).zip(seat.places.iter()).find(|it| due >> it.0 & 1 == 1 && self.lacks(it.1) == 1);
            return next.map_or(Ok(()), |it| self.put(seat, state, todo, Kind::Give(it.0)));
        }
        if !wants && !state.has_nudged {
            self.nudge(seat, state, todo, due);
        }
        Ok(())
    }

    // How many forks the neighbour at a place lacks, or lacked a moment ago.
    fn lacks(&self, place: &Place) -> u32 {
        self.seats[place.neighbour as usize].lacks.load(Ordering::Relaxed)
    }

    // Somebody may come for this worker soon, or nobody. A neighbour is to look: one that lacks no other fork, since it
    // is the next to eat, or else the one that has waited longest.
    fn nudge(&self, seat: &Seat<T, S>, state: &mut State<T, S>, todo: &mut Todo, due: u64) {
        let asks = seat.places.iter().enumerate().filter(|it| due >> it.0 & 1 == 1);
        let first = asks.min_by_key(|it| (self.lacks(it.1) > 1, state.requests[it.0].ate));
        todo.nudge |= first.map_or(0, |it| bit(it.1.neighbour));
        todo.nudgers |= bit(seat.number);
        state.has_nudged = true;
        state.looked = state.ate;
    }

    fn take_requests(&self, seat: &Seat<T, S>, state: &mut State<T, S>, mut places: u64) -> Result<()> {
        state.has_nudged = false;
        state.streak = 0;
        state.put_off &= !places;
        while let Some(i) = take_lowest(&mut places) {
            state.note(seat.number, Kind::Take(i as u32));
            let letter = state.requests[i].letter;
            state.site.take(letter.bytes())?;
        }
        Ok(())
    }

    // Does an event that is none of a meal, and pushes its letter to the receiver, which is to be visited.
    pub(super) fn put(
        &self,
        seat: &Seat<T, S>,
        state: &mut State<T, S>,
        todo: &mut Todo,
        kind: Kind,
    ) -> Result<()> {
        state.note(seat.number, kind);
        let letter = Letter::of(state.site.act(kind)?);
        let mut post = Post { letter, put_by: kind, place: 0, is_urgent: state.is_hurried, value: None };
        let i = match kind {
            Kind::Give(i) => {
                state.forks &= !bit(i);
                seat.lacks.store(state.lacks(), Ordering::Relaxed);
                post.value = state.values[i as usize].take();
                i
            }
            Kind::Ask(i) | Kind::Done(i) | Kind::Close(i) => i,
            _ => return Ok(()),
        };
        let place = &seat.places[i as usize];
        post.place = place.there;
        lock(&self.seats[place.neighbour as usize].inbox).push(post);
        todo.visit |= bit(place.neighbour);
        if kind == Kind::Give(i) && self.lacks(place) == 1 {
            todo.first |= bit(place.neighbour);
        }
        Ok(())
    }

    pub(super) fn grow_hungry(&self, seat: &Seat<T, S>, state: &mut State<T, S>) -> Result<()> {
        state.note(seat.number, Kind::Hungry);
        state.site.act(Kind::Hungry)?;
        state.hungry = true;
        seat.is_busy.store(true, Ordering::Relaxed);
        Ok(())
    }

    pub(super) fn begin_meal(&self, seat: &Seat<T, S>, state: &mut State<T, S>) -> Result<()> {
        state.note(seat.number, Kind::Begin);
        state.site.begin()?;
        state.ate += 1;
        state.streak += u32::from(state.streak > 0);
        state.hungry = false;
        state.eats = true;
        state.clean = 0;
        state.is_hurried = false;
        Ok(())
    }

    // While the table is opened anew or closed, the meal is told as failed: then the site may give up those it has left.
    pub(super) fn end_meal(&self, seat: &Seat<T, S>, state: &mut State<T, S>) -> Result<()> {
        state.note(seat.number, Kind::End);
        state.site.end(self.stage() != super::Stage::Open)?;
        state.eats = false;
        seat.is_busy.store(false, Ordering::Relaxed);
        Ok(())
    }
}
