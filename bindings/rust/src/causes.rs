//! Why a text is no plan: the causes of `PlanFault`, and the limits of a plan.

// words limits, by tools/words
/// The greatest number of sites of a plan.
pub const MAX_SITES: u32 = 64;
/// The greatest number of edges of a plan.
pub const MAX_EDGES: u32 = 512;
/// The greatest number of turns of a job.
pub const MAX_TURNS: u32 = 1_000_000;
/// The greatest number of bytes of a name.
pub const MAX_NAME: u32 = 32;
/// The greatest number of jobs of a site.
pub const MAX_JOBS: u32 = 1_000;
/// The greatest amount of an act, and the greatest value of an edge before the first meal.
pub const MAX_NUMBER: u32 = 1_000_000;
// end

/// Why a text is no plan. The number of a cause is that of `docs/FORMAT.md`.
#[derive(Clone, Copy, Debug, PartialEq, Eq, Hash)]
pub enum Cause {
    // words causes, by tools/words
    /// The text is no TOML, or no UTF-8.
    NotToml = 1,
    /// The plan has no `version`, or one that is not the whole number 1 or 2.
    Version = 2,
    /// A table has a key that plans do not have there, or not in this version.
    UnknownKey = 3,
    /// A site or a job has no `name`, or an edge no `ends`.
    MissingKey = 4,
    /// A value is of the wrong kind, such as a text for a number, or is a number below 0.
    WrongKind = 5,
    /// The name of this site, or of one of its jobs, is not 1 to 32 ASCII letters, digits, `_` or `-`.
    BadName = 6,
    /// An earlier site has the name of this site.
    SiteTwice = 7,
    /// There is no site.
    NoSite = 8,
    /// There are more than 64 sites.
    TooManySites = 9,
    /// This site has more than 1,000 jobs.
    TooManyJobs = 10,
    /// A job of this site has `turns` above 1,000,000.
    TurnsTooLarge = 11,
    /// An end of this edge is no site's name.
    UnknownEnd = 12,
    /// Both ends of this edge are one site.
    Loop = 13,
    /// An earlier edge joins the two sites of this one.
    EdgeTwice = 14,
    /// There are more than 512 edges.
    TooManyEdges = 15,
    /// A job of this site has both `add` and `set`.
    TwoActs = 17,
    /// A job of this site has `add` or `set` above 1,000,000.
    ActTooLarge = 18,
    /// The value of this edge is above 1,000,000.
    ValueTooLarge = 19,
    /// `on_fault` of this site is neither `go` nor `resign`.
    UnknownPolicy = 20,
    // end
}

impl Cause {
    /// Returns the cause in a sentence.
    pub fn words(self) -> &'static str {
        use Cause::*;
        match self {
            // words causes said, by tools/words
            NotToml => "The text is no TOML, or no UTF-8.",
            Version => "The plan has no `version`, or one that is not the whole number 1 or 2.",
            UnknownKey => "A table has a key that plans do not have there, or not in this version.",
            MissingKey => "A site or a job has no `name`, or an edge no `ends`.",
            WrongKind => "A value is of the wrong kind, such as a text for a number, or is a number below 0.",
            BadName => "The name of this site, or of one of its jobs, is not 1 to 32 ASCII letters, digits, `_` or `-`.",
            SiteTwice => "An earlier site has the name of this site.",
            NoSite => "There is no site.",
            TooManySites => "There are more than 64 sites.",
            TooManyJobs => "This site has more than 1,000 jobs.",
            TurnsTooLarge => "A job of this site has `turns` above 1,000,000.",
            UnknownEnd => "An end of this edge is no site's name.",
            Loop => "Both ends of this edge are one site.",
            EdgeTwice => "An earlier edge joins the two sites of this one.",
            TooManyEdges => "There are more than 512 edges.",
            TwoActs => "A job of this site has both `add` and `set`.",
            ActTooLarge => "A job of this site has `add` or `set` above 1,000,000.",
            ValueTooLarge => "The value of this edge is above 1,000,000.",
            UnknownPolicy => "`on_fault` of this site is neither `go` nor `resign`.",
            // end
        }
    }

    pub(crate) fn of(number: i64) -> Option<Cause> {
        use Cause::*;
        Some(match number {
            // words causes by number, by tools/words
            1 => NotToml,
            2 => Version,
            3 => UnknownKey,
            4 => MissingKey,
            5 => WrongKind,
            6 => BadName,
            7 => SiteTwice,
            8 => NoSite,
            9 => TooManySites,
            10 => TooManyJobs,
            11 => TurnsTooLarge,
            12 => UnknownEnd,
            13 => Loop,
            14 => EdgeTwice,
            15 => TooManyEdges,
            17 => TwoActs,
            18 => ActTooLarge,
            19 => ValueTooLarge,
            20 => UnknownPolicy,
            // end
            _ => return None,
        })
    }
}
