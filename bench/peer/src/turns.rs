//! How often a site that waits is overtaken: what the sites note in a run, and what is counted from it.
//!
//! A site is overtaken once for each meal that a neighbour begins while the site waits for its own next meal. The wait
//! is counted from two moments:
//!
//! - the site's hunger: it begins to work for its next meal;
//! - its ask on the edge between the two: from now on the neighbour can know, because a letter was put or a ticket was
//!   drawn. It is noted just after that. If it were noted before, a thread that loses its processor in between would
//!   seem to be overtaken by whoever could not know. A mutex shows nobody who wants it, so there the ask is noted just
//!   before the mutex is taken.

use crate::plan::Plan;
use std::sync::atomic::{AtomicU64, Ordering};
use std::sync::Arc;
use std::time::Instant;

#[derive(Clone, Copy)]
pub enum What {
    Hungry,
    /// At this edge.
    Ask(usize),
    Begin,
    /// It had waited for this number of nanoseconds.
    Waited(u64),
}

/// What a site did, and its number in the order of what all sites noted.
pub struct Note {
    pub at: u64,
    pub site: usize,
    pub what: What,
}

/// The notes of one site.
pub trait Watch: Send {
    fn new(site: usize, order: &Arc<AtomicU64>) -> Self;
    /// The site is hungry. Only the first such call before a meal counts.
    fn hungry(&mut self);
    fn ask(&mut self, edge: usize);
    /// A meal begins. The site has all its forks or locks, so two neighbours note their meals in the right order.
    fn begin(&mut self);
    fn into_notes(self) -> Vec<Note>;
}

/// Takes no notes, and costs nothing: for the runs whose time is measured.
pub struct Blind;

impl Watch for Blind {
    fn new(_: usize, _: &Arc<AtomicU64>) -> Self {
        Blind
    }
    #[inline]
    fn hungry(&mut self) {}
    #[inline]
    fn ask(&mut self, _: usize) {}
    #[inline]
    fn begin(&mut self) {}
    fn into_notes(self) -> Vec<Note> {
        Vec::new()
    }
}

/// Takes notes in one order with all other sites. That makes each of them slower.
pub struct Noting {
    site: usize,
    order: Arc<AtomicU64>,
    is_hungry: bool,
    notes: Vec<Note>,
}

impl Noting {
    fn note(&mut self, what: What) {
        let at = self.order.fetch_add(1, Ordering::SeqCst);
        self.notes.push(Note { at, site: self.site, what });
    }
}

impl Watch for Noting {
    fn new(site: usize, order: &Arc<AtomicU64>) -> Self {
        Noting { site, order: order.clone(), is_hungry: false, notes: Vec::new() }
    }
    fn hungry(&mut self) {
        if !self.is_hungry {
            self.is_hungry = true;
            self.note(What::Hungry);
        }
    }
    fn ask(&mut self, edge: usize) {
        self.note(What::Ask(edge));
    }
    fn begin(&mut self) {
        self.is_hungry = false;
        self.note(What::Begin);
    }
    fn into_notes(self) -> Vec<Note> {
        self.notes
    }
}

/// Keeps the longest wait of a site for a meal, by a clock, and notes it at the end. The first meal is left out: its wait
/// has the start of the threads in it.
pub struct Timing {
    site: usize,
    since: Option<Instant>,
    is_first: bool,
    longest: u64,
}

impl Watch for Timing {
    fn new(site: usize, _: &Arc<AtomicU64>) -> Self {
        Timing { site, since: None, is_first: true, longest: 0 }
    }
    fn hungry(&mut self) {
        if !self.is_first && self.since.is_none() {
            self.since = Some(Instant::now());
        }
    }
    fn ask(&mut self, _: usize) {}
    fn begin(&mut self) {
        self.is_first = false;
        if let Some(since) = self.since.take() {
            self.longest = self.longest.max(since.elapsed().as_nanos() as u64);
        }
    }
    fn into_notes(self) -> Vec<Note> {
        vec![Note { at: 0, site: self.site, what: What::Waited(self.longest) }]
    }
}

/// Returns the longest wait in the notes of all sites, in nanoseconds.
pub fn longest_wait(notes: &[Note]) -> u64 {
    let waits = notes.iter().map(|note| if let What::Waited(nanos) = note.what { nanos } else { 0 });
    waits.max().unwrap_or(0)
}

/// The largest of some counts, their sum, and how many they are.
#[derive(Clone, Copy, Debug, Default, PartialEq)]
pub struct Counts {
    pub most: u64,
    pub sum: u64,
    pub times: u64,
}

impl Counts {
    fn add(&mut self, count: u64) {
        self.most = self.most.max(count);
        self.sum += count;
        self.times += 1;
    }
    pub fn mean(&self) -> f64 {
        self.sum as f64 / self.times.max(1) as f64
    }
    pub fn join(&mut self, other: Counts) {
        self.most = self.most.max(other.most);
        self.sum += other.sum;
        self.times += other.times;
    }
}

/// How often sites were overtaken by each of their neighbours.
#[derive(Clone, Copy, Debug, Default, PartialEq)]
pub struct Overtakes {
    /// Since its hunger, for each meal and each neighbour.
    pub since_hunger: Counts,
    /// Since its ask, for each ask.
    pub since_ask: Counts,
}

/// Counts the overtakes in the notes of all sites.
pub fn overtakes(plan: &Plan, mut notes: Vec<Note>) -> Overtakes {
    notes.sort_unstable_by_key(|note| note.at);
    let at = plan.edges_at();
    let mut begun = vec![0; plan.sites];
    // For each edge and each end of it, lower and higher: how many meals the neighbour had begun by that moment.
    let mut by_hunger = vec![[0, 0]; plan.edges.len()];
    let mut by_ask = vec![[None, None]; plan.edges.len()];
    let mut found = Overtakes::default();
    let end_of = |site, edge: usize| usize::from(plan.edges[edge].1 == site);
    let neighbour_of = |site, edge: usize| plan.edges[edge].0 + plan.edges[edge].1 - site;
    for Note { site, what, .. } in notes {
        match what {
            What::Hungry => {
                for &edge in &at[site] {
                    by_hunger[edge][end_of(site, edge)] = begun[neighbour_of(site, edge)];
                }
            }
            What::Waited(_) => {}
            What::Ask(edge) => by_ask[edge][end_of(site, edge)] = Some(begun[neighbour_of(site, edge)]),
            What::Begin => {
                begun[site] += 1;
                for &edge in &at[site] {
                    let (end, now) = (end_of(site, edge), begun[neighbour_of(site, edge)]);
                    found.since_hunger.add(now - by_hunger[edge][end]);
                    if let Some(then) = by_ask[edge][end].take() {
                        found.since_ask.add(now - then);
                    }
                }
            }
        }
    }
    found
}

#[cfg(test)]
mod tests {
    use super::*;

    fn notes(list: &[(usize, What)]) -> Vec<Note> {
        list.iter().zip(0..).map(|(&(site, what), at)| Note { at, site, what }).collect()
    }

    fn counts(most: u64, sum: u64, times: u64) -> Counts {
        Counts { most, sum, times }
    }

    #[test]
    fn a_list_of_three_sites() {
        use What::{Ask, Begin, Hungry};
        // Edge 0 is between the sites 0 and 1, and edge 1 between 1 and 2.
        let plan = Plan::of("path:3", 1, 0).unwrap();
        let list = notes(&[
            (1, Hungry),
            (0, Hungry),
            (0, Begin), // 0 was not overtaken
            (1, Ask(0)),
            (2, Hungry),
            (2, Begin), // nor was 2
            (0, Hungry),
            (0, Begin), // nor 0
            (0, Hungry),
            (0, Begin), // nor 0
            (1, Ask(1)),
            (0, Hungry),
            (0, Ask(0)),
            (1, Begin), // by 0 three times since its hunger and twice since it asked; by 2 once, and not since it asked
            (0, Begin), // by 1 once, since both
        ]);
        let found = overtakes(&plan, list);
        assert_eq!(found.since_hunger, counts(3, 3 + 1 + 1, 4 + 1 + 2));
        assert_eq!(found.since_ask, counts(2, 2 + 1, 3));
    }

    #[test]
    fn the_order_is_that_of_the_numbers() {
        let plan = Plan::of("path:2", 1, 0).unwrap();
        use What::{Ask, Begin, Hungry};
        let mut list = notes(&[(0, Hungry), (0, Ask(0)), (1, Begin), (1, Begin), (0, Begin)]);
        list.reverse();
        assert_eq!(overtakes(&plan, list).since_ask, counts(2, 2, 1));
    }

    #[test]
    fn an_ask_is_for_one_meal() {
        let plan = Plan::of("path:2", 1, 0).unwrap();
        let first = [(0, What::Hungry), (0, What::Ask(0)), (0, What::Begin), (1, What::Hungry), (1, What::Begin)];
        let second = [(0, What::Hungry), (0, What::Begin)];
        let found = overtakes(&plan, notes(&[&first[..], &second].concat()));
        // Site 0 had its second meal without an ask, and nobody was overtaken.
        assert_eq!(found.since_ask, counts(0, 0, 1));
        assert_eq!(found.since_hunger, counts(0, 0, 3));
    }

    #[test]
    fn the_longest_wait_is_from_the_first_hunger_and_not_of_the_first_meal() {
        let nap = || std::thread::sleep(std::time::Duration::from_millis(2));
        let mut watch = Timing::new(0, &Arc::default());
        watch.hungry();
        nap();
        watch.begin();
        assert_eq!(watch.longest, 0);
        watch.hungry();
        nap();
        watch.hungry();
        nap();
        watch.begin();
        let longest = watch.longest;
        assert!(longest >= 4_000_000);
        watch.hungry();
        watch.begin();
        let mut notes = watch.into_notes();
        notes.extend(Timing::new(1, &Arc::default()).into_notes());
        assert!(longest_wait(&notes) >= longest);
    }

    #[test]
    fn sums_of_runs() {
        let mut all = counts(2, 5, 4);
        all.join(counts(7, 7, 2));
        assert_eq!((all, all.mean()), (counts(7, 12, 6), 2.0));
    }
}
