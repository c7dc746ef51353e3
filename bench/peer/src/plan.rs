//! The plan of a run, and the forks with their logs.

/// How many sites a plan has at the most, as with ours: the places of a site are bits of one word.
const MOST: usize = 64;

pub struct Plan {
    pub sites: usize,
    /// Each edge (lower, higher), in increasing order.
    pub edges: Vec<(usize, usize)>,
    pub jobs: u64,
    /// The steps of xorshift in each job.
    pub turns: u32,
}

impl Plan {
    pub fn of(text: &str, jobs: u64, turns: u32) -> Option<Plan> {
        let (kind, size) = text.split_once(':')?;
        let (sites, edges) = graph(kind, size).filter(|(sites, _)| (1..=MOST).contains(sites))?;
        let mut edges: Vec<_> = edges
            .into_iter()
            .map(|(one, other)| (one.min(other), one.max(other)))
            .collect();
        edges.sort_unstable();
        edges.dedup();
        Some(Plan { sites, edges, jobs, turns })
    }

    /// The edges at each site, in increasing order.
    pub fn edges_at(&self) -> Vec<Vec<usize>> {
        let mut at = vec![Vec::new(); self.sites];
        for (edge, &(lower, higher)) in self.edges.iter().enumerate() {
            at[lower].push(edge);
            at[higher].push(edge);
        }
        at
    }
}

fn graph(kind: &str, size: &str) -> Option<(usize, Vec<(usize, usize)>)> {
    if kind == "grid" {
        let (width, height) = size.split_once('x')?;
        let (width, height): (usize, usize) = (width.parse().ok()?, height.parse().ok()?);
        let across = (0..height).flat_map(|y| (1..width).map(move |x| (y * width + x - 1, y * width + x)));
        let down = (1..height).flat_map(|y| (0..width).map(move |x| ((y - 1) * width + x, y * width + x)));
        return Some((width * height, across.chain(down).collect()));
    }
    let n: usize = size.parse().ok()?;
    let edges = match kind {
        "ring" if n >= 3 => (0..n).map(|v| (v, (v + 1) % n)).collect(),
        "path" => (1..n).map(|v| (v - 1, v)).collect(),
        "star" => (1..n).map(|v| (0, v)).collect(),
        "complete" => (0..n).flat_map(|u| (u + 1..n).map(move |v| (u, v))).collect(),
        // each site has an edge to the eight after it, round a ring
        "band" if n > 16 => (0..n).flat_map(|u| (1..9).map(move |far| (u, (u + far) % n))).collect(),
        _ => return None,
    };
    Some((n, edges))
}

#[derive(Clone, Copy)]
enum Entry {
    Meal { site: u32 },
    Move { to: u32 },
}

/// The fork of an edge, with its log.
#[derive(Default)]
pub struct Fork {
    log: Vec<Entry>,
}

impl Fork {
    #[inline]
    pub fn eat(&mut self, site: usize) {
        self.log.push(Entry::Meal { site: site as u32 });
    }

    #[inline]
    pub fn go(&mut self, to: usize) {
        self.log.push(Entry::Move { to: to as u32 });
    }

    /// A meal of a site that comes for the fork where it lies, at first at the lower end.
    #[inline]
    pub fn eat_from(&mut self, site: usize, lower: usize) {
        let at = match self.log.last() {
            None => lower as u32,
            Some(&(Entry::Meal { site } | Entry::Move { to: site })) => site,
        };
        if at != site as u32 {
            self.go(site);
        }
        self.eat(site);
    }

    /// Checks the log: each end ate all its jobs, each where the fork was.
    pub fn check(&self, (lower, higher): (usize, usize), jobs: u64) {
        let (mut at, mut ate) = (lower as u32, [0, 0]);
        for entry in &self.log {
            match *entry {
                Entry::Meal { site } => {
                    assert_eq!(site, at);
                    ate[usize::from(site as usize == higher)] += 1;
                }
                Entry::Move { to } => {
                    assert_ne!(at, to);
                    at = to;
                }
            }
        }
        assert_eq!(ate, [jobs, jobs]);
    }
}
