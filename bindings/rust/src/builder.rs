//! Plans by calls, over the proved builder of the library.

use crate::{answer, sys, Cause, Error, Handle, Plan, Position, Refusal, Result};
use std::fmt;

/// A plan by calls, with no text in between.
///
/// Sites and edges get numbers from 0, in the order in which they are added. The jobs of a site have numbers from 1,
/// which are their names. What no plan can have is refused at once, by the call that asks for it, and nothing changes
/// then. So [`finish`](PlanBuilder::finish) refuses only a plan without sites.
///
/// ```
/// let mut builder = dine::PlanBuilder::new()?;
/// let (ann, bob) = (builder.site("ann", 50)?, builder.site("bob", 20)?);
/// let edge = builder.edge(ann, bob)?;
/// builder.value(edge, 100)?;
/// builder.sets(bob, 20, 7)?;
/// let plan = builder.finish()?;
/// assert_eq!((plan.jobs(ann)?, plan.ends(edge)?), (50, (ann, bob)));
///
/// // `ann` has a site already.
/// let refusal = builder.site("ann", 1).unwrap_err();
/// assert_eq!(refusal.to_string(), "no plan: 7 SiteTwice at site 2. An earlier site has the name of this site.");
/// # Ok::<(), dine::Error>(())
/// ```
pub struct PlanBuilder {
    handle: Handle,
    sites: u32,
    edges: u32,
}

// SAFETY of the calls below: the handle is this value's own, no other call runs on it, since the type is not `Sync`,
// and each pointer leads to as many elements as are said.
impl PlanBuilder {
    /// Makes a builder without sites and edges.
    ///
    /// # Errors
    ///
    /// `Memory` if an allocation fails.
    pub fn new() -> Result<PlanBuilder> {
        let handle = Handle::closed();
        answer(unsafe { sys::dine_plan_builder_open(handle.get()) })?;
        Ok(PlanBuilder { handle, sites: 0, edges: 0 })
    }

    /// Adds a site with a name of its own and this number of jobs, and returns its number.
    ///
    /// # Errors
    ///
    /// `NoPlan` with the cause if the name is not 1 to 32 letters of ASCII, digits, `_` or `-`, if an earlier site has
    /// it, if there are 64 sites, or if it has more than 1,000 jobs; `Memory` if an allocation fails.
    pub fn site(&mut self, name: &str, jobs: u32) -> Result<u32> {
        let status = unsafe { sys::dine_plan_builder_site(self.handle.get(), name.as_ptr(), name.len(), jobs) };
        let number = placed(status, Position::Site(self.sites))? as u32;
        self.sites = number + 1;
        Ok(number)
    }

    /// Adds an edge between two sites, in either order, and returns its number. Its value is 0.
    ///
    /// # Errors
    ///
    /// `NoPlan` with the cause if one of the two is the number of no site, if both are one, if they have an edge
    /// already, or if there are 512 edges; `Memory` if an allocation fails.
    pub fn edge(&mut self, a: u32, b: u32) -> Result<u32> {
        let status = unsafe { sys::dine_plan_builder_edge(self.handle.get(), a, b) };
        let number = placed(status, Position::Edge(self.edges))? as u32;
        self.edges = number + 1;
        Ok(number)
    }

    /// Sets the value of an edge before the first meal.
    ///
    /// # Errors
    ///
    /// `NoPlan` with the cause if the value is above 1,000,000, and `NoSuch` if there is no such edge.
    pub fn value(&mut self, edge: u32, value: u32) -> Result<()> {
        let status = unsafe { sys::dine_plan_builder_value(self.handle.get(), edge, value) };
        placed(status, Position::Edge(edge)).map(drop)
    }

    /// Makes a site drop the jobs that it has left after one failed. Else it goes on.
    ///
    /// # Errors
    ///
    /// `NoSuch` if there is no such site.
    pub fn resign(&mut self, site: u32) -> Result<()> {
        answer(unsafe { sys::dine_plan_builder_resign(self.handle.get(), site) }).map(drop)
    }

    /// Sets the number of turns of job `k` of a site, from 1. Turns are work of a run on threads; a world has none.
    ///
    /// # Errors
    ///
    /// `NoPlan` with the cause if there are more than 1,000,000, and `NoSuch` if there is no such job.
    pub fn turns(&mut self, site: u32, k: u32, turns: u32) -> Result<()> {
        let status = unsafe { sys::dine_plan_builder_turns(self.handle.get(), site, k, turns) };
        placed(status, Position::Site(site)).map(drop)
    }

    /// Makes job `k` of a site fail, from 1.
    ///
    /// # Errors
    ///
    /// `NoSuch` if there is no such job.
    pub fn fails(&mut self, site: u32, k: u32) -> Result<()> {
        answer(unsafe { sys::dine_plan_builder_fails(self.handle.get(), site, k) }).map(drop)
    }

    /// Has the meal of job `k` of a site, from 1, add this amount to the value of each edge of the site.
    ///
    /// # Errors
    ///
    /// `NoPlan` with the cause if the amount is above 1,000,000, and `NoSuch` if there is no such job.
    pub fn adds(&mut self, site: u32, k: u32, amount: u32) -> Result<()> {
        self.act(site, k, false, amount)
    }

    /// Has the meal of job `k` of a site, from 1, set the value of each edge of the site to this amount.
    ///
    /// # Errors
    ///
    /// Those of [`PlanBuilder::adds`].
    pub fn sets(&mut self, site: u32, k: u32, amount: u32) -> Result<()> {
        self.act(site, k, true, amount)
    }

    fn act(&mut self, site: u32, k: u32, sets: bool, amount: u32) -> Result<()> {
        let status = unsafe { sys::dine_plan_builder_act(self.handle.get(), site, k, sets, amount) };
        placed(status, Position::Site(site)).map(drop)
    }

    /// Makes the plan, of version 2 of the format. The builder stays as it is, and may go on.
    ///
    /// # Errors
    ///
    /// `NoPlan` with the cause `NoSite` if there is no site, and `Memory` if an allocation fails.
    pub fn finish(&self) -> Result<Plan> {
        let handle = Handle::closed();
        answer(unsafe { sys::dine_plan_builder_finish(self.handle.get(), handle.get()) })?;
        Ok(Plan { handle })
    }
}

// The answer of a call. A cause that is about a site or an edge is about this one.
fn placed(status: i64, position: Position) -> Result<u64> {
    answer(status).map_err(|error| match error {
        Error::NoPlan(Refusal { cause, .. }) if !matches!(cause, Cause::TooManySites | Cause::TooManyEdges) => {
            Error::NoPlan(Refusal { cause, position: Some(position) })
        }
        error => error,
    })
}

impl fmt::Debug for PlanBuilder {
    fn fmt(&self, f: &mut fmt::Formatter<'_>) -> fmt::Result {
        f.debug_struct("PlanBuilder").field("sites", &self.sites).field("edges", &self.edges).finish_non_exhaustive()
    }
}
