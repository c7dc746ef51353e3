//! Bells that wake their site only for a letter that lets it do something.

use crate::nets::{Consumer, Producer, Rings};
use crate::site::{Kind, Letter, Net, Wants};
use std::mem;
use std::sync::atomic::{AtomicBool, Ordering};
use std::sync::{Arc, Condvar, Mutex};

/// Rings, with a door for each bell. A polite site checks its door before each meal.
pub struct Quiet<const IS_POLITE: bool>;

/// A door between a site and its neighbours.
pub struct Door {
    inside: Mutex<Inside>,
    woken: Condvar,
    /// Whether letters came that the site was not told of, so that a check that finds none takes no mutex.
    has_rung: AtomicBool,
}

struct Inside {
    /// The places of the letters that the site was not told of.
    places: Vec<u32>,
    /// While the site sleeps, what wakes it.
    wants: Option<Wants>,
}

/// A site's side of its door.
pub struct Bell {
    door: Arc<Door>,
    /// The places that the last look found and that are left.
    places: Vec<u32>,
    wakes: u64,
}

impl<const IS_POLITE: bool> Net for Quiet<IS_POLITE> {
    // Without it the first sites would be through before the last one starts.
    const GATE: bool = true;
    const POLITE: bool = IS_POLITE;
    type Sender = Producer;
    type Receiver = Consumer;
    type Ringer = Arc<Door>;
    type Bell = Bell;
    fn link() -> (Producer, Consumer) {
        Rings::link()
    }
    fn bell(_: usize, capacity: usize) -> (Arc<Door>, Bell) {
        let inside = Mutex::new(Inside { places: Vec::with_capacity(capacity), wants: None });
        let door = Arc::new(Door { inside, woken: Condvar::new(), has_rung: AtomicBool::new(false) });
        let bell = Bell { door: door.clone(), places: Vec::with_capacity(capacity), wakes: 0 };
        (door, bell)
    }
    #[inline]
    fn send(link: &mut Producer, letter: Letter) {
        Rings::send(link, letter)
    }
    #[inline]
    fn take(link: &mut Consumer) -> Letter {
        Rings::take(link)
    }
    fn ring(door: &mut Arc<Door>, place: u32, kind: Kind) {
        let mut inside = door.inside.lock().unwrap();
        inside.places.push(place);
        door.has_rung.store(true, Ordering::Release);
        if inside.wants.as_mut().is_some_and(|wants| wants.are_met(place, kind)) {
            inside.wants = None;
            drop(inside);
            door.woken.notify_one();
        }
    }
    fn wait(bell: &mut Bell, wants: impl FnOnce() -> Wants) -> u32 {
        let mut inside = bell.door.inside.lock().unwrap();
        if inside.places.is_empty() {
            inside.wants = Some(wants());
            while inside.wants.is_some() {
                inside = bell.door.woken.wait(inside).unwrap();
            }
            bell.wakes += 1;
        }
        mem::swap(&mut inside.places, &mut bell.places);
        bell.door.has_rung.store(false, Ordering::Relaxed);
        drop(inside);
        bell.places.pop().unwrap()
    }
    #[inline]
    fn poll(bell: &mut Bell) -> Option<u32> {
        if bell.places.is_empty() && bell.door.has_rung.load(Ordering::Acquire) {
            let mut inside = bell.door.inside.lock().unwrap();
            mem::swap(&mut inside.places, &mut bell.places);
            bell.door.has_rung.store(false, Ordering::Relaxed);
        }
        bell.places.pop()
    }
    #[inline]
    fn more(bell: &mut Bell) -> Option<u32> {
        bell.places.pop()
    }
    fn wakes(bell: &Bell) -> u64 {
        bell.wakes
    }
}
