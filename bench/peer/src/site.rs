//! A site, over any kind of link and bell.

use crate::plan::{Fork, Plan};
use crate::turns::{Note, Watch};
use std::sync::{Arc, Barrier};
use std::thread;

pub enum Letter {
    Token,
    Fork(Fork),
    Done,
    Close,
}

/// The kinds of letters, as far as a bell tells them apart.
#[derive(Clone, Copy)]
pub enum Kind {
    Token,
    Fork,
    Other,
}

impl Letter {
    #[inline]
    fn kind(&self) -> Kind {
        match self {
            Letter::Token => Kind::Token,
            Letter::Fork(_) => Kind::Fork,
            Letter::Done | Letter::Close => Kind::Other,
        }
    }
}

/// What lets a site do something that can do nothing: a token for a dirty fork, the last fork that is missing, Done and
/// Close.
pub struct Wants {
    /// The places of the dirty forks, a bit each.
    dirty: u64,
    missing: u32,
}

impl Wants {
    /// Whether the letter that came at this place is wanted. A fork lowers the number of those that are missing.
    pub fn are_met(&mut self, place: u32, kind: Kind) -> bool {
        match kind {
            Kind::Token => self.dirty & (1 << place) != 0,
            Kind::Fork => {
                self.missing -= 1;
                self.missing == 0
            }
            Kind::Other => true,
        }
    }
}

/// In one direction of an edge never more than a token, the fork, Done and Close are under way.
pub const LINK: usize = 4;

/// A kind of links and bells. A bell tells its site at which place a letter lies, once for each letter.
pub trait Net {
    /// Whether the sites wait at a gate until each has its thread.
    const GATE: bool = false;
    /// Whether a site takes the letters that have arrived before each meal. If it does not, and has all its forks, it
    /// eats meal after meal.
    const POLITE: bool = false;
    type Sender;
    type Receiver;
    type Ringer: Clone;
    type Bell;
    fn link() -> (Self::Sender, Self::Receiver);
    fn bell(site: usize, capacity: usize) -> (Self::Ringer, Self::Bell);
    fn send(link: &mut Self::Sender, letter: Letter);
    fn take(link: &mut Self::Receiver) -> Letter;
    fn ring(bell: &mut Self::Ringer, place: u32, kind: Kind);
    /// Waits for a letter. A bell that knows what its site wants may let the others lie.
    fn wait(bell: &mut Self::Bell, wants: impl FnOnce() -> Wants) -> u32;
    /// Another letter that came before the wait ended, for a bell that is told of many at once.
    #[inline]
    fn more(_: &mut Self::Bell) -> Option<u32> {
        None
    }
    /// A letter that has arrived, if there is one. It never waits.
    fn poll(_: &mut Self::Bell) -> Option<u32> {
        None
    }
    /// How often the site was woken, for a bell that counts that.
    fn wakes(_: &Self::Bell) -> u64 {
        0
    }
}

/// A site's end of an edge.
struct End<N: Net> {
    edge: usize,
    neighbour: usize,
    fork: Option<Fork>,
    dirty: bool,
    token: bool,
    done_sent: bool,
    done_taken: bool,
    close_sent: bool,
    close_taken: bool,
    sender: N::Sender,
    receiver: N::Receiver,
    ringer: N::Ringer,
    /// The neighbour's place for this edge.
    place: u32,
}

impl<N: Net> End<N> {
    #[inline]
    fn send(&mut self, letter: Letter) {
        let kind = letter.kind();
        N::send(&mut self.sender, letter);
        N::ring(&mut self.ringer, self.place, kind);
    }
}

/// What a site with these ends wants, none of which has its token beside a dirty fork.
fn wants_of<N: Net>(ends: &[End<N>]) -> Wants {
    let mut wants = Wants { dirty: 0, missing: 0 };
    for (place, end) in ends.iter().enumerate() {
        if end.fork.is_none() {
            wants.missing += 1;
        } else if end.dirty {
            wants.dirty |= 1 << place;
        }
    }
    wants
}

/// What a run came to: the forks in the order of their edges, the letters taken, how often a site was woken, and the
/// notes.
pub struct Ran {
    pub forks: Vec<Fork>,
    pub letters: u64,
    pub wakes: u64,
    pub notes: Vec<Note>,
}

pub struct Site<N: Net, W: Watch> {
    name: usize,
    jobs: u64,
    turns: u32,
    /// What the turns work on.
    word: u32,
    ends: Vec<End<N>>,
    pub bell: N::Bell,
    /// Letters taken.
    pub letters: u64,
    watch: W,
}

impl<N: Net, W: Watch> Site<N, W> {
    /// Gives and asks, and says Done and Close, at each end where that may be; then a meal, if one may begin. Was there
    /// any?
    pub fn step(&mut self) -> bool {
        let (mut any, mut ready) = (false, true);
        let hungry = self.jobs > 0;
        if hungry {
            self.watch.hungry();
        }
        for end in &mut self.ends {
            if end.token && end.dirty && end.fork.is_some() {
                let mut fork = end.fork.take().unwrap();
                end.dirty = false;
                fork.go(end.neighbour);
                end.send(Letter::Fork(fork));
                any = true;
            }
            if hungry {
                if end.fork.is_none() {
                    ready = false;
                    if end.token {
                        end.token = false;
                        end.send(Letter::Token);
                        self.watch.ask(end.edge);
                        any = true;
                    }
                }
                continue;
            }
            if !end.done_sent {
                end.done_sent = true;
                end.send(Letter::Done);
                any = true;
            }
            if end.done_taken && !end.close_sent {
                end.close_sent = true;
                end.send(Letter::Close);
                any = true;
            }
        }
        // Here no end has its token beside a dirty fork.
        if hungry && ready {
            self.jobs -= 1;
            self.watch.begin();
            for end in &mut self.ends {
                end.dirty = true;
                end.fork.as_mut().unwrap().eat(self.name);
            }
            for _ in 0..self.turns {
                self.word ^= self.word << 13;
                self.word ^= self.word >> 17;
                self.word ^= self.word << 5;
            }
            any = true;
        }
        any
    }

    /// Takes one letter at the place.
    #[inline]
    pub fn take(&mut self, place: u32) {
        self.letters += 1;
        let end = &mut self.ends[place as usize];
        match N::take(&mut end.receiver) {
            Letter::Token => end.token = true,
            Letter::Fork(fork) => end.fork = Some(fork),
            Letter::Done => end.done_taken = true,
            Letter::Close => end.close_taken = true,
        }
    }

    pub fn is_finished(&self) -> bool {
        self.jobs == 0
            && self
                .ends
                .iter()
                .all(|end| end.close_sent && end.close_taken)
    }

    fn run(&mut self) {
        loop {
            loop {
                if N::POLITE {
                    while let Some(place) = N::poll(&mut self.bell) {
                        self.take(place);
                    }
                }
                if !self.step() {
                    break;
                }
            }
            if self.is_finished() {
                return;
            }
            let place = N::wait(&mut self.bell, || wants_of(&self.ends));
            self.take(place);
            while let Some(place) = N::more(&mut self.bell) {
                self.take(place);
            }
        }
    }

    /// The sites of the plan: each fork at the lower end, dirty, its token at the higher end.
    pub fn all(plan: &Plan) -> Vec<Site<N, W>> {
        let order = Arc::default();
        let at = plan.edges_at();
        let bells = at
            .iter()
            .enumerate()
            .map(|(site, edges)| N::bell(site, LINK * edges.len().max(1)));
        let (ringers, bells): (Vec<_>, Vec<_>) = bells.unzip();
        let mut sites: Vec<Site<N, W>> = bells
            .into_iter()
            .enumerate()
            .map(|(name, bell)| Site {
                name,
                jobs: plan.jobs,
                turns: plan.turns,
                word: 2_463_534_242,
                ends: Vec::new(),
                bell,
                letters: 0,
                watch: W::new(name, &order),
            })
            .collect();
        for (edge, &(low, high)) in plan.edges.iter().enumerate() {
            let (up, from_low) = N::link();
            let (down, from_high) = N::link();
            let (low_place, high_place) =
                (sites[low].ends.len() as u32, sites[high].ends.len() as u32);
            let mut add =
                |site: usize, neighbour: usize, sender, receiver, place, fork: Option<Fork>| {
                    sites[site].ends.push(End {
                        edge,
                        neighbour,
                        dirty: fork.is_some(),
                        token: fork.is_none(),
                        fork,
                        done_sent: false,
                        done_taken: false,
                        close_sent: false,
                        close_taken: false,
                        sender,
                        receiver,
                        ringer: ringers[neighbour].clone(),
                        place,
                    })
                };
            add(
                low,
                high,
                up,
                from_high,
                high_place,
                Some(Fork::default()),
            );
            add(high, low, down, from_low, low_place, None);
        }
        sites
    }

    pub fn collect(sites: Vec<Site<N, W>>) -> Ran {
        let letters = sites.iter().map(|site| site.letters).sum();
        let wakes = sites.iter().map(|site| N::wakes(&site.bell)).sum();
        let mut forks: Vec<(usize, Fork)> = Vec::new();
        let mut notes = Vec::new();
        for site in sites {
            forks.extend(site.ends.into_iter().filter_map(|end| Some((end.edge, end.fork?))));
            notes.extend(site.watch.into_notes());
        }
        forks.sort_unstable_by_key(|fork| fork.0);
        let forks = forks.into_iter().map(|fork| fork.1).collect();
        Ran { forks, letters, wakes, notes }
    }
}

/// Each site in a thread of its own.
pub fn run<N: Net, W: Watch>(plan: &Plan) -> Ran
where
    Site<N, W>: Send,
{
    let mut sites = Site::<N, W>::all(plan);
    let gate = Barrier::new(plan.sites);
    thread::scope(|scope| {
        for site in &mut sites {
            let gate = &gate;
            scope.spawn(move || {
                if N::GATE {
                    gate.wait();
                }
                site.run()
            });
        }
    });
    Site::collect(sites)
}
