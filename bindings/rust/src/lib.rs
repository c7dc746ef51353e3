//! The proved rules of Chandy and Misra's dining philosophers.
//!
//! - [`Table`] is a lock manager: workers share a value at each edge, and any thread eats for any worker.
//! - [`World`] has all sites of a plan in one thread, and is stepped event by event.
//! - [`Site`] is one site, whose letters are bytes: carry them to the neighbour, in order, by any means.
//! - [`PlanBuilder`] makes the plan of a world or of sites by calls, and [`Plan::read`] of a text.
//!
//! The library is linked as `libdine.a`, or compiled from C: see `docs/BINDINGS.md`. Its rules are proved; this crate
//! is only tested.
#![warn(missing_docs)]

mod builder;
mod causes;
mod open;
mod run;
// It declares all calls of dine.h, also those that nothing here needs.
#[allow(dead_code)]
mod sys;
mod table;

/// No letter has more bytes.
pub const LETTER_MAX: usize = 29;

// What a turn returns if there is no event.
const WAITS: i64 = -16;
const FINISHED: i64 = -17;

use std::cell::UnsafeCell;
use std::fmt;

pub use builder::PlanBuilder;
pub use causes::{Cause, MAX_EDGES, MAX_JOBS, MAX_NAME, MAX_NUMBER, MAX_SITES, MAX_TURNS};
pub use open::{AsyncMeal, Closed, LockFuture, Meal, OpenTable, Stay};
pub use run::{Done, Watch};
pub use table::{EdgeId, Table, WorkerId};

/// Why a call has no answer.
#[derive(Clone, Copy, Debug, PartialEq, Eq)]
#[non_exhaustive]
pub enum Error {
    /// The rules do not allow the event now. Nothing changed.
    NotNow,
    /// There is no such site, edge, place or event, or the site does not have the fork of the place.
    NoSuch,
    /// An allocation failed.
    Memory,
    /// The site eats.
    Eating,
    /// The bytes are no letter, for this reason.
    NoLetter(LetterFault),
    /// The rules do not allow this letter now, for this reason.
    Breach(Breach),
    /// The text is no plan, or what a builder or a table would have is none, for this reason.
    NoPlan(Refusal),
    /// A worker or an edge is of another table.
    OtherTable,
    /// The table is closed.
    Closed,
    /// This thread eats at this table, and would wait for itself.
    InMeal,
    /// A job panicked while it had a value of this worker.
    Poisoned,
    /// No journals were kept: [`Table::keep_journals`].
    NoJournals,
    /// The table is broken, since an allocation of the library failed.
    Gone,
    /// Another answer, which should not come.
    Other(i64),
}

/// Why bytes are no letter.
#[derive(Clone, Copy, Debug, PartialEq, Eq)]
pub enum LetterFault {
    /// There are too few bytes, or too many.
    Length,
    /// The byte behind the number of the run is no kind.
    Kind,
    /// The neighbour cannot have done that with the fork.
    Unlawful,
    /// The letter is of an edge that the site does not have.
    Edge,
    /// The letter is of another run.
    OtherRun,
}

/// Why the rules do not allow a letter now.
#[derive(Clone, Copy, Debug, PartialEq, Eq)]
pub enum Breach {
    // words breaches, by tools/words
    /// A letter after Close.
    AfterClose,
    /// A Request while the fork is away or the token is here, or after Done, or of another edge, or from a site that
    /// ate all its meals.
    RequestOutOfTurn,
    /// A Fork, although the fork or the token is here.
    ForkOutOfTurn,
    /// A Fork that is not the fork of this edge, or whose log is not as it has to be.
    StrangeFork,
    /// A second Done; or, while the fork is here, a Done of a site that does not resign, before the log has all its
    /// meals.
    DoneOutOfTurn,
    /// A Close before both sites said Done.
    ClosedEarly,
    // end
}

/// Why a text, or what calls describe, is no plan.
#[derive(Clone, Copy, Debug, PartialEq, Eq)]
pub struct Refusal {
    /// The first cause that holds.
    pub cause: Cause,
    /// Where it holds, if it is about one site or edge.
    pub position: Option<Position>,
}

/// A site or an edge of a text, by its number from 0.
#[derive(Clone, Copy, Debug, PartialEq, Eq)]
pub enum Position {
    /// A site.
    Site(u32),
    /// An edge.
    Edge(u32),
}

// Where the cause holds for which a text is no plan, by the words of the library, such as `6 BadName at site 0`.
fn position_in(text: &str) -> Option<Position> {
    let mut bytes = [0u8; 40];
    // SAFETY: both pointers lead to as many bytes as are said.
    let len = unsafe { sys::dine_plan_refusal(text.as_ptr(), text.len(), bytes.as_mut_ptr(), bytes.len()) };
    let words = std::str::from_utf8(bytes.get(..usize::try_from(len).ok()?)?).ok()?;
    let (rest, number) = words.rsplit_once(' ')?;
    let number = number.parse().ok()?;
    match rest.rsplit_once(' ')?.1 {
        "site" => Some(Position::Site(number)),
        "edge" => Some(Position::Edge(number)),
        _ => None,
    }
}

/// What `dine check` prints behind `plan refused: `, such as `6 BadName at site 0`.
impl fmt::Display for Refusal {
    fn fmt(&self, f: &mut fmt::Formatter<'_>) -> fmt::Result {
        write!(f, "{} {:?}", self.cause as u8, self.cause)?;
        match self.position {
            Some(Position::Site(n)) => write!(f, " at site {n}"),
            Some(Position::Edge(n)) => write!(f, " at edge {n}"),
            None => Ok(()),
        }
    }
}

impl fmt::Display for Error {
    fn fmt(&self, f: &mut fmt::Formatter<'_>) -> fmt::Result {
        match self {
            Error::NotNow => f.write_str("the rules do not allow the event now"),
            Error::NoSuch => f.write_str("there is no such site, edge, place or event, or its fork is elsewhere"),
            Error::Memory => f.write_str("an allocation failed"),
            Error::Eating => f.write_str("the site eats"),
            Error::NoLetter(LetterFault::OtherRun) => f.write_str("the letter is of another run"),
            Error::NoLetter(it) => write!(f, "the bytes are no letter: {it:?}"),
            Error::Breach(it) => write!(f, "the rules do not allow this letter now: {it:?}"),
            Error::NoPlan(refusal) => write!(f, "no plan: {refusal}. {}", refusal.cause.words()),
            Error::OtherTable => f.write_str("a worker or an edge is of another table"),
            Error::Closed => f.write_str("the table is closed"),
            Error::InMeal => f.write_str("this thread eats at this table already"),
            Error::Poisoned => f.write_str("a job panicked while it had a value of this worker"),
            Error::NoJournals => f.write_str("no journals were kept: Table::keep_journals"),
            Error::Gone => f.write_str("the table is broken, since an allocation failed"),
            Error::Other(n) => write!(f, "status {n}"),
        }
    }
}

impl std::error::Error for Error {}

/// The answer, or why there is none.
pub type Result<T> = std::result::Result<T, Error>;

fn answer(status: i64) -> Result<u64> {
    match status {
        0.. => Ok(status as u64),
        -3 => Err(Error::NotNow),
        -4 => Err(Error::NoSuch),
        -5 => Err(Error::Memory),
        -7 => Err(Error::Eating),
        -11 => Err(Error::NoLetter(LetterFault::Length)),
        -12 => Err(Error::NoLetter(LetterFault::Kind)),
        -13 => Err(Error::NoLetter(LetterFault::Unlawful)),
        -14 => Err(Error::NoLetter(LetterFault::Edge)),
        -15 => Err(Error::NoLetter(LetterFault::OtherRun)),
        // words breaches by status, by tools/words
        -21 => Err(Error::Breach(Breach::AfterClose)),
        -22 => Err(Error::Breach(Breach::RequestOutOfTurn)),
        -23 => Err(Error::Breach(Breach::ForkOutOfTurn)),
        -24 => Err(Error::Breach(Breach::StrangeFork)),
        -25 => Err(Error::Breach(Breach::DoneOutOfTurn)),
        -26 => Err(Error::Breach(Breach::ClosedEarly)),
        // end
        _ => Err(match Cause::of(-100 - status) {
            Some(cause) => Error::NoPlan(Refusal { cause, position: None }),
            None => Error::Other(status),
        }),
    }
}

/// A number for a run of the plan with this text, for [`Site::open_in`]. `random` is drawn once for each run, and all
/// processes of the run are told it. A process that has another text, or was told of another run, has another number,
/// unless chance has it. It is FNV-1a of the eight bytes of `random`, the least first, and of the text: no defence
/// against whoever means harm.
///
/// ```
/// use dine::run_number;
/// assert_eq!(run_number("version = 1\n", 1984), 0x3dce_6814_d6b7_2b26);
/// assert_ne!(run_number("version = 1\n", 1984), run_number("version = 1\n", 1985));
/// assert_ne!(run_number("version = 1\n", 1984), run_number("version = 2\n", 1984));
/// ```
pub fn run_number(text: &str, random: u64) -> u64 {
    let bytes = random.to_le_bytes().into_iter().chain(text.bytes());
    bytes.fold(0xcbf2_9ce4_8422_2325, |sum, byte| (sum ^ u64::from(byte)).wrapping_mul(0x0100_0000_01b3))
}

/// What a site does in an event. A number is a place.
#[derive(Clone, Copy, Debug, PartialEq, Eq, Hash)]
pub enum Kind {
    // words kinds, by tools/words
    /// Takes the next letter in the link to the site.
    Take(u32),
    /// Sends a dirty fork that the neighbour asked for: the release rule.
    Give(u32),
    /// Ends a meal.
    End,
    /// Begins a meal.
    Begin,
    /// Drops the jobs that it has left, after a meal that failed.
    Quit,
    /// Grows hungry.
    Hungry,
    /// Sends the token to ask for the fork: the request rule.
    Ask(u32),
    /// Says that it will ask no more.
    Done(u32),
    /// Says that it will send nothing more.
    Close(u32),
    // end
}

impl Kind {
    /// Returns the number of the kind, as in `dine.h`, and the place, which is 0 if the kind has none.
    pub fn numbers(self) -> (u32, u32) {
        match self {
            // words kinds to numbers, by tools/words
            Kind::Take(i) => (0, i),
            Kind::Give(i) => (1, i),
            Kind::End => (2, 0),
            Kind::Begin => (3, 0),
            Kind::Quit => (4, 0),
            Kind::Hungry => (5, 0),
            Kind::Ask(i) => (6, i),
            Kind::Done(i) => (7, i),
            Kind::Close(i) => (8, i),
            // end
        }
    }

    /// Returns the kind with this number, as in `dine.h`. A kind without a place does not look at it.
    ///
    /// ```
    /// use dine::Kind;
    /// let (number, place) = Kind::Give(3).numbers();
    /// assert_eq!(Kind::of(number, place), Some(Kind::Give(3)));
    /// assert_eq!(Kind::of(9, 0), None);
    /// ```
    pub fn of(kind: u32, place: u32) -> Option<Kind> {
        Some(match kind {
            // words kinds by number, by tools/words
            0 => Kind::Take(place),
            1 => Kind::Give(place),
            2 => Kind::End,
            3 => Kind::Begin,
            4 => Kind::Quit,
            5 => Kind::Hungry,
            6 => Kind::Ask(place),
            7 => Kind::Done(place),
            8 => Kind::Close(place),
            // end
            _ => return None,
        })
    }
}

/// What a site did in a turn, or why it did nothing.
#[derive(Clone, Copy, Debug, PartialEq, Eq, Hash)]
pub enum Turn<'a> {
    /// It did this event, and put this letter, which is empty if the event puts none. After [`Kind::Begin`] do the job,
    /// and call [`Site::end`].
    Did(Kind, &'a [u8]),
    /// It can do nothing before it takes a letter.
    Waits,
    /// It has done all, and put and taken all letters.
    Finished,
}

/// An event of a world.
#[derive(Clone, Copy, Debug, PartialEq, Eq, Hash)]
pub struct Event {
    /// The site that does it.
    pub site: u32,
    /// What it does.
    pub kind: Kind,
}

/// A stay of a fork at one end: the site, the number of its first meal, and the number of its meals.
#[derive(Clone, Copy, Debug, PartialEq, Eq)]
pub struct Period {
    /// The site.
    pub site: u32,
    /// The number of its first meal with the fork.
    pub first: u32,
    /// How many meals it ate.
    pub count: u32,
}

/// What a site is doing.
#[derive(Clone, Copy, Debug, PartialEq, Eq)]
pub enum Phase {
    /// It wants nothing.
    Thinking,
    /// It wants to eat, and lacks forks or has not begun.
    Hungry,
    /// It eats.
    Eating,
}

fn phase_of(n: u64) -> Phase {
    match n {
        0 => Phase::Thinking,
        1 => Phase::Hungry,
        _ => Phase::Eating,
    }
}

// A handle that is closed when it is dropped. It is not `Sync`.
struct Handle(UnsafeCell<sys::Handle>);

// SAFETY: the library proves `Send` of its handle, and a value of this type is on one thread at a time.
unsafe impl Send for Handle {}

impl Handle {
    fn closed() -> Handle {
        let at = std::ptr::null_mut();
        Handle(UnsafeCell::new(sys::Handle { at, state: 0 }))
    }

    // Each call takes the handle for itself, and this type is on one thread.
    fn get(&self) -> *mut sys::Handle {
        self.0.get()
    }

    fn periods(&self, call: impl Fn(*mut sys::Handle, *mut u32, usize) -> i64) -> Result<Vec<Period>> {
        let mut numbers = vec![0u32; 3 * 16];
        loop {
            let count = answer(call(self.get(), numbers.as_mut_ptr(), numbers.len()))? as usize;
            if 3 * count <= numbers.len() {
                let periods = numbers[..3 * count].chunks_exact(3);
                return Ok(periods.map(|p| Period { site: p[0], first: p[1], count: p[2] }).collect());
            }
            numbers.resize(3 * count, 0);
        }
    }
}

impl Drop for Handle {
    fn drop(&mut self) {
        // SAFETY: the handle is ours, and closed or open.
        unsafe { sys::dine_close(self.get()) };
    }
}

/// A plan: sites with their jobs, and edges. It is read from a text, or built by a [`PlanBuilder`].
///
/// ```
/// let plan = dine::Plan::read("version = 1\n[[site]]\nname = \"a\"\njobs = []\n")?;
/// assert_eq!((plan.sites(), plan.name(0)?, plan.jobs(0)?), (1, "a".to_string(), 0));
/// # Ok::<(), dine::Error>(())
/// ```
pub struct Plan {
    handle: Handle,
}

// SAFETY of the calls below: the handle is this value's own, no other call runs on it, since the type is not `Sync`,
// and each pointer leads to as many elements as are said.
impl Plan {
    /// Reads a plan text.
    ///
    /// # Errors
    ///
    /// `NoPlan` if the text is none, and `Memory`.
    pub fn read(text: &str) -> Result<Plan> {
        let handle = Handle::closed();
        match answer(unsafe { sys::dine_plan_open(text.as_ptr(), text.len(), handle.get()) }) {
            Ok(_) => Ok(Plan { handle }),
            Err(Error::NoPlan(it)) => Err(Error::NoPlan(Refusal { position: position_in(text), ..it })),
            Err(error) => Err(error),
        }
    }

    /// Returns the number of sites.
    pub fn sites(&self) -> u32 {
        answer(unsafe { sys::dine_plan_sites(self.handle.get()) }).unwrap_or(0) as u32
    }

    /// Returns the number of edges.
    pub fn edges(&self) -> u32 {
        answer(unsafe { sys::dine_plan_edges(self.handle.get()) }).unwrap_or(0) as u32
    }

    /// Returns the version of the text's format, 1 or 2.
    pub fn version(&self) -> u32 {
        answer(unsafe { sys::dine_plan_version(self.handle.get()) }).unwrap_or(0) as u32
    }

    /// Returns the number of jobs of a site.
    pub fn jobs(&self, site: u32) -> Result<u32> {
        Ok(answer(unsafe { sys::dine_plan_jobs(self.handle.get(), site) })? as u32)
    }

    /// Returns the name of a site.
    pub fn name(&self, site: u32) -> Result<String> {
        let mut bytes = [0u8; MAX_NAME as usize];
        let len = answer(unsafe { sys::dine_plan_name(self.handle.get(), site, bytes.as_mut_ptr(), bytes.len()) })?;
        Ok(String::from_utf8_lossy(&bytes[..len as usize]).into_owned())
    }

    /// Returns the site with this name.
    pub fn site_named(&self, name: &str) -> Option<u32> {
        (0..self.sites()).find(|site| self.name(*site).as_deref() == Ok(name))
    }

    /// Returns the two ends of an edge, the lower site first.
    pub fn ends(&self, edge: u32) -> Result<(u32, u32)> {
        let mut raw = sys::Ends::default();
        answer(unsafe { sys::dine_plan_ends(self.handle.get(), edge, &mut raw) })?;
        Ok((raw.lower, raw.higher))
    }
}

/// All sites of a plan in one thread.
///
/// ```
/// # let text = "version = 1\n[[site]]\nname = \"a\"\njobs = [{ name = \"x\" }]\n";
/// let mut world = dine::World::open(&dine::Plan::read(text)?)?;
/// while let Some(event) = world.nth(0) {
///     world.step(event)?;
/// }
/// assert_eq!(world.ate(0)?, 1);
/// # Ok::<(), dine::Error>(())
/// ```
pub struct World {
    handle: Handle,
}

impl World {
    /// Opens the world of a plan before its first event.
    pub fn open(plan: &Plan) -> Result<World> {
        let handle = Handle::closed();
        answer(unsafe { sys::dine_world_open(plan.handle.get(), handle.get()) })?;
        Ok(World { handle })
    }

    /// How many events there can be from the start. This is proved.
    pub fn bound(&self) -> u64 {
        answer(unsafe { sys::dine_world_bound(self.handle.get()) }).unwrap_or(0)
    }

    /// The enabled events, in the fixed order.
    pub fn enabled(&self) -> Vec<Event> {
        let count = answer(unsafe { sys::dine_world_count(self.handle.get()) }).unwrap_or(0) as u32;
        (0..count).filter_map(|n| self.nth(n)).collect()
    }

    /// The n-th of them.
    pub fn nth(&self, n: u32) -> Option<Event> {
        let mut raw = sys::Event::default();
        answer(unsafe { sys::dine_world_enabled(self.handle.get(), n, &mut raw) }).ok()?;
        let kind = Kind::of(raw.kind, raw.place)?;
        Some(Event { site: raw.site, kind })
    }

    /// Does the event. If it is not enabled, nothing changes.
    pub fn step(&mut self, event: Event) -> Result<()> {
        let (kind, place) = event.kind.numbers();
        let raw = sys::Event { site: event.site, kind, place };
        answer(unsafe { sys::dine_world_step(self.handle.get(), &raw) })?;
        Ok(())
    }

    /// Does for each choice the enabled event of this number, and passes over a choice that has none. Returns the number
    /// of events.
    pub fn replay(&mut self, choices: &[u32]) -> u64 {
        answer(unsafe { sys::dine_world_replay(self.handle.get(), choices.as_ptr(), choices.len()) }).unwrap_or(0)
    }

    /// Does the first enabled event until none is enabled, and returns the number of events.
    pub fn finish(&mut self) -> u64 {
        answer(unsafe { sys::dine_world_finish(self.handle.get()) }).unwrap_or(0)
    }

    /// Does what sites did elsewhere, from the journal of each, and returns one order of all these events. The world
    /// accepts each event in its turn, so what is proved of every schedule holds of this one.
    ///
    /// # Errors
    ///
    /// `NotNow` if there is no order. Then the world is where no journal goes on.
    pub fn order(&mut self, journals: &[Vec<Event>]) -> Result<Vec<Event>> {
        let (mut done, mut next, mut before) = (Vec::new(), vec![0; journals.len()], None);
        while before != Some(done.len()) {
            before = Some(done.len());
            for (journal, at) in journals.iter().zip(&mut next) {
                while *at < journal.len() && self.step(journal[*at]).is_ok() {
                    done.push(journal[*at]);
                    *at += 1;
                }
            }
        }
        let is_whole = journals.iter().zip(&next).all(|(journal, at)| *at == journal.len());
        if is_whole { Ok(done) } else { Err(Error::NotNow) }
    }

    /// The phase of a site.
    pub fn phase(&self, site: u32) -> Result<Phase> {
        Ok(phase_of(answer(unsafe { sys::dine_world_phase(self.handle.get(), site) })?))
    }

    /// The number of meals that a site began.
    pub fn ate(&self, site: u32) -> Result<u32> {
        Ok(answer(unsafe { sys::dine_world_ate(self.handle.get(), site) })? as u32)
    }

    /// Returns the value of an edge.
    pub fn value(&self, edge: u32) -> Result<u64> {
        answer(unsafe { sys::dine_world_value(self.handle.get(), edge) })
    }

    /// Replays the choices and finishes. Returns what `dine replay --choices` prints. The plan is that of the world.
    pub fn replay_text(&mut self, plan: &Plan, choices: &[u32]) -> Result<String> {
        let events = self.replay(choices) + self.finish();
        let names = (0..plan.sites()).map(|site| plan.name(site)).collect::<Result<Vec<_>>>()?;
        let mut text = String::new();
        for edge in 0..plan.edges() {
            let (low, high) = plan.ends(edge)?;
            let mut entries = Vec::new();
            for (i, period) in self.log(edge)?.iter().enumerate() {
                let name = &names[period.site as usize];
                if i > 0 {
                    entries.push(format!("to {name}"));
                }
                entries.extend((0..period.count).map(|k| format!("{name}#{}", period.first + k)));
            }
            let log = if entries.is_empty() { String::new() } else { format!(" {}", entries.join(", ")) };
            let value = if plan.version() == 2 { format!(" = {}", self.value(edge)?) } else { String::new() };
            text += &format!("edge {edge} {} {}:{log}{value}\n", names[low as usize], names[high as usize]);
        }
        Ok(text + &format!("events {events} of {}\n", self.bound()))
    }

    /// The log of a fork.
    pub fn log(&self, edge: u32) -> Result<Vec<Period>> {
        self.handle.periods(|h, out, room| unsafe { sys::dine_world_fork(h, edge, out, room) })
    }
}

/// What a site has at a place.
#[derive(Clone, Copy, Debug)]
pub struct Place {
    /// The edge.
    pub edge: u32,
    /// The site at its other end.
    pub neighbour: u32,
    /// Whether the fork is here.
    pub has_fork: bool,
    /// Whether the request token is here.
    pub has_token: bool,
    /// Whether the fork is here and dirty: it is in the meal, or was eaten with since it came.
    pub is_dirty: bool,
    /// Whether Close was taken there.
    pub is_closed: bool,
}

/// One site. It may go to another thread, and its letters are bytes.
///
/// ```
/// use dine::{Kind, Plan, Site};
/// # let job = "jobs = [{ name = \"x\" }]";
/// # let text = format!("version = 1\n[[site]]\nname = \"a\"\n{job}\n[[site]]\nname = \"b\"\n{job}\n[[edge]]\nends = [\"a\", \"b\"]\n");
/// let plan = Plan::read(&text)?;
/// let (mut a, mut b) = (Site::open(&plan, 0)?, Site::open(&plan, 1)?);
/// b.act(Kind::Hungry)?;
/// a.take(b.act(Kind::Ask(0))?)?;
/// assert_eq!(a.next(), Some(Kind::Give(0)));
/// # Ok::<(), dine::Error>(())
/// ```
pub struct Site {
    handle: Handle,
    number: u32,
    room: Box<[u8]>,
    // The edges of places that were broken off.
    broken: Vec<u32>,
}

impl Site {
    /// Opens the site with this number before its first event, in the run 0. For sites in processes [`Site::open_in`] is
    /// the better call.
    pub fn open(plan: &Plan, site: u32) -> Result<Site> {
        Site::open_in(plan, site, 0)
    }

    /// Opens the site in the run with this number. All sites of a run are opened with one number, and each run has
    /// another: [`run_number`] makes one. A site refuses the letters of other runs, before it looks at anything else.
    pub fn open_in(plan: &Plan, site: u32, run: u64) -> Result<Site> {
        let handle = Handle::closed();
        answer(unsafe { sys::dine_site_open_in(plan.handle.get(), site, run, handle.get()) })?;
        let room = vec![0; LETTER_MAX].into_boxed_slice();
        Ok(Site { handle, number: site, room, broken: Vec::new() })
    }

    fn state(&self) -> sys::SiteState {
        let mut raw = sys::SiteState::default();
        unsafe { sys::dine_site_state(self.handle.get(), &mut raw) };
        raw
    }

    /// What it is doing.
    pub fn phase(&self) -> Phase {
        phase_of(u64::from(self.state().phase))
    }

    /// How many meals it began.
    pub fn ate(&self) -> u32 {
        self.state().ate
    }

    /// How many places it has.
    pub fn degree(&self) -> u32 {
        self.state().degree
    }

    /// Whether it has done all, and put and taken all letters.
    pub fn is_finished(&self) -> bool {
        self.state().finished == 1
    }

    /// What it has at a place.
    pub fn place(&self, place: u32) -> Result<Place> {
        let mut raw = sys::Place::default();
        answer(unsafe { sys::dine_site_place(self.handle.get(), place, &mut raw) })?;
        Ok(Place {
            edge: raw.edge,
            neighbour: raw.neighbour,
            has_fork: raw.has_fork == 1,
            has_token: raw.has_token == 1,
            is_dirty: raw.is_dirty == 1,
            is_closed: raw.is_closed == 1,
        })
    }

    /// The first event that it may do without a letter.
    pub fn next(&self) -> Option<Kind> {
        let mut raw = sys::Event::default();
        match unsafe { sys::dine_site_next(self.handle.get(), &mut raw) } {
            1 => Kind::of(raw.kind, raw.place),
            _ => None,
        }
    }

    /// Does that event, and returns it with the letter that it puts. After [`Kind::Begin`] do the job, and call
    /// [`Site::end`].
    ///
    /// ```
    /// # let text = "version = 1\n[[site]]\nname = \"a\"\njobs = [{ name = \"x\" }]\n";
    /// use dine::{Kind, Turn};
    /// let mut site = dine::Site::open(&dine::Plan::read(text)?, 0)?;
    /// loop {
    ///     match site.turn()? {
    ///         Turn::Did(Kind::Begin, _) => site.end(false)?, // the job is done before this call
    ///         Turn::Did(_, letter) => assert_eq!(letter, []), // else it is for a neighbour
    ///         Turn::Waits => unreachable!("no neighbour has a letter for this site"),
    ///         Turn::Finished => break,
    ///     }
    /// }
    /// assert_eq!(site.ate(), 1);
    /// # Ok::<(), dine::Error>(())
    /// ```
    ///
    /// # Errors
    ///
    /// `Eating` during a meal.
    pub fn turn(&mut self) -> Result<Turn<'_>> {
        let (mut raw, out, room) = (sys::Event::default(), self.room.as_mut_ptr(), self.room.len());
        let status = unsafe { sys::dine_site_turn(self.handle.get(), &mut raw, out, room) };
        match status {
            WAITS => return Ok(Turn::Waits),
            FINISHED => return Ok(Turn::Finished),
            _ => {}
        }
        let len = answer(status)? as usize;
        let kind = Kind::of(raw.kind, raw.place).ok_or(Error::Other(status))?;
        Ok(Turn::Did(kind, &self.room[..len]))
    }

    /// Does an event that is none of a meal and takes no letter. Returns the letter that it puts, empty if none.
    pub fn act(&mut self, kind: Kind) -> Result<&[u8]> {
        if let Kind::Begin | Kind::End = kind {
            return Err(Error::NoSuch);
        }
        let ((kind, place), out, room) = (kind.numbers(), self.room.as_mut_ptr(), self.room.len());
        let event = sys::Event { site: self.number, kind, place };
        let len = answer(unsafe { sys::dine_site_act(self.handle.get(), &event, out, room) })?;
        Ok(&self.room[..len as usize])
    }

    /// Gives the link of a place up, as after the loss of its connection. Returns the letter, which is Close. From then
    /// on the site is never finished: see [`Site::is_stuck`].
    pub fn break_off(&mut self, place: u32) -> Result<&[u8]> {
        let (out, room) = (self.room.as_mut_ptr(), self.room.len());
        let len = answer(unsafe { sys::dine_site_break(self.handle.get(), place, out, room) })?;
        self.broken.push(self.place(place)?.edge);
        Ok(&self.room[..len as usize])
    }

    /// Returns whether the site can never go on, since a link was broken off: it has meals left that can never begin, as
    /// a fork is lost with the neighbour; or it has done all that it can, and no other neighbour has a letter for it.
    pub fn is_stuck(&self) -> bool {
        if self.broken.is_empty() || self.phase() == Phase::Eating {
            return false;
        }
        let places: Vec<_> = (0..self.degree()).filter_map(|i| self.place(i).ok()).collect();
        let is_lost = |it: &Place| !it.has_fork && self.broken.contains(&it.edge);
        let is_over = |it: &Place| it.is_closed || self.broken.contains(&it.edge);
        match (self.phase(), self.next()) {
            (Phase::Hungry, None) | (_, Some(Kind::Hungry)) => places.iter().any(is_lost),
            (_, None) => places.iter().all(is_over),
            _ => false,
        }
    }

    /// Takes a letter, also while the site eats, and returns the place at which it arrived. If the bytes are no letter
    /// that is allowed now, nothing changes.
    pub fn take(&mut self, letter: &[u8]) -> Result<u32> {
        let place = answer(unsafe { sys::dine_site_take(self.handle.get(), letter.as_ptr(), letter.len()) })?;
        Ok(place as u32)
    }

    /// Begins a meal.
    pub fn begin(&mut self) -> Result<()> {
        answer(unsafe { sys::dine_site_begin(self.handle.get()) })?;
        Ok(())
    }

    /// Ends the meal.
    pub fn end(&mut self, failed: bool) -> Result<()> {
        answer(unsafe { sys::dine_site_end(self.handle.get(), failed) })?;
        Ok(())
    }

    /// The log of the fork in hand at a place; `NoSuch` if the neighbour has it.
    pub fn log(&self, place: u32) -> Result<Vec<Period>> {
        self.handle.periods(|h, out, room| unsafe { sys::dine_site_fork(h, place, out, room) })
    }

    /// The value of the fork in hand at a place; `NoSuch` if the neighbour has it.
    pub fn value(&self, place: u32) -> Result<u64> {
        answer(unsafe { sys::dine_site_value(self.handle.get(), place) })
    }
}

impl fmt::Debug for Plan {
    fn fmt(&self, f: &mut fmt::Formatter<'_>) -> fmt::Result {
        f.debug_struct("Plan").field("sites", &self.sites()).field("edges", &self.edges()).finish_non_exhaustive()
    }
}

impl fmt::Debug for World {
    fn fmt(&self, f: &mut fmt::Formatter<'_>) -> fmt::Result {
        f.debug_struct("World").field("enabled", &self.enabled()).finish_non_exhaustive()
    }
}

impl fmt::Debug for Site {
    fn fmt(&self, f: &mut fmt::Formatter<'_>) -> fmt::Result {
        f.debug_struct("Site").field("phase", &self.phase()).field("ate", &self.ate()).finish_non_exhaustive()
    }
}
