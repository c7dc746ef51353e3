//! All sites in one thread.

use crate::plan::Plan;
use crate::site::{Kind, Letter, Net, Ran, Site, Wants, LINK};
use crate::turns::Watch;
use std::cell::RefCell;
use std::collections::VecDeque;
use std::rc::Rc;

/// Does the steps of the sites: whose bell rang first has the next turn.
pub fn replay<W: Watch>(plan: &Plan) -> Ran {
    let mut sites = Site::<Queues, W>::all(plan);
    for site in &mut sites {
        while site.step() {}
    }
    while let Some((site, place)) = RUNG.with_borrow_mut(|rung| rung.pop_front()) {
        sites[site].take(place);
        while sites[site].step() {}
    }
    assert!(sites.iter().all(Site::is_finished));
    Site::collect(sites)
}

/// The bells of all sites are one queue, of sites and places.
struct Queues;

thread_local! {
    static RUNG: RefCell<VecDeque<(usize, u32)>> = const { RefCell::new(VecDeque::new()) };
}

impl Net for Queues {
    type Sender = Rc<RefCell<VecDeque<Letter>>>;
    type Receiver = Rc<RefCell<VecDeque<Letter>>>;
    type Ringer = usize;
    type Bell = ();
    fn link() -> (Self::Sender, Self::Receiver) {
        let queue = Rc::new(RefCell::new(VecDeque::with_capacity(LINK)));
        (queue.clone(), queue)
    }
    fn bell(site: usize, _: usize) -> (usize, ()) {
        (site, ())
    }
    #[inline]
    fn send(link: &mut Self::Sender, letter: Letter) {
        link.borrow_mut().push_back(letter)
    }
    #[inline]
    fn take(link: &mut Self::Receiver) -> Letter {
        link.borrow_mut().pop_front().unwrap()
    }
    #[inline]
    fn ring(bell: &mut usize, place: u32, _: Kind) {
        RUNG.with_borrow_mut(|rung| rung.push_back((*bell, place)))
    }
    fn wait(_: &mut (), _: impl FnOnce() -> Wants) -> u32 {
        unreachable!()
    }
}
