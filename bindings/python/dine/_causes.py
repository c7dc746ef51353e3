"""Why a text is no plan: the causes of PlanFault, and the limits of a plan."""
from enum import IntEnum

# words limits, by tools/words
#: The greatest number of sites of a plan.
MAX_SITES = 64
#: The greatest number of edges of a plan.
MAX_EDGES = 512
#: The greatest number of turns of a job.
MAX_TURNS = 1_000_000
#: The greatest number of bytes of a name.
MAX_NAME = 32
#: The greatest number of jobs of a site.
MAX_JOBS = 1_000
#: The greatest amount of an act, and the greatest value of an edge before the first meal.
MAX_NUMBER = 1_000_000
# end


class Cause(IntEnum):
    """Why a text is no plan. The number of a cause is that of docs/FORMAT.md."""

    # words causes, by tools/words
    #: The text is no TOML, or no UTF-8.
    NotToml = 1
    #: The plan has no `version`, or one that is not the whole number 1 or 2.
    Version = 2
    #: A table has a key that plans do not have there, or not in this version.
    UnknownKey = 3
    #: A site or a job has no `name`, or an edge no `ends`.
    MissingKey = 4
    #: A value is of the wrong kind, such as a text for a number, or is a number below 0.
    WrongKind = 5
    #: The name of this site, or of one of its jobs, is not 1 to 32 ASCII letters, digits, `_` or `-`.
    BadName = 6
    #: An earlier site has the name of this site.
    SiteTwice = 7
    #: There is no site.
    NoSite = 8
    #: There are more than 64 sites.
    TooManySites = 9
    #: This site has more than 1,000 jobs.
    TooManyJobs = 10
    #: A job of this site has `turns` above 1,000,000.
    TurnsTooLarge = 11
    #: An end of this edge is no site's name.
    UnknownEnd = 12
    #: Both ends of this edge are one site.
    Loop = 13
    #: An earlier edge joins the two sites of this one.
    EdgeTwice = 14
    #: There are more than 512 edges.
    TooManyEdges = 15
    #: A job of this site has both `add` and `set`.
    TwoActs = 17
    #: A job of this site has `add` or `set` above 1,000,000.
    ActTooLarge = 18
    #: The value of this edge is above 1,000,000.
    ValueTooLarge = 19
    #: `on_fault` of this site is neither `go` nor `resign`.
    UnknownPolicy = 20
    # end
