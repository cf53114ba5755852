//! A chart as the team of one region runs over it: what is outside is cut away, barriers of deeper regions
//! are plain nodes, deeper constructs count for nothing. Starts and ends are those that the library's Phases
//! writes.

use crate::Error;
use bohrali::layout::{ConstructKind, NodeKind, BYTES_PHASES};
use bohrali::limits::MOST_NODES;
use bohrali::Region;
use region::Chart;
use std::collections::VecDeque;

/// What a node is to the region's team.
#[derive(Clone, Copy, Debug, PartialEq, Eq)]
pub enum Role {
    Outside,
    Plain,
    Barrier,
    Begin(usize),
    End(usize),
}

/// A construct with its begin and end.
#[derive(Clone, Debug)]
pub struct Frame {
    pub kind: ConstructKind,
    pub parent: Option<usize>,
    /// Of a critical the number of its name.
    pub name: u16,
    /// Of a master the thread that goes in.
    pub filter: usize,
    pub begin: usize,
    pub end: usize,
    /// The sections of a sections construct.
    pub sections: Vec<usize>,
    /// Of a section a shortest path from its begin to its end, and the end of its sections construct.
    pub through: Vec<usize>,
}

/// Sets of constructs are masks, a bit each; so are sets of barriers, by their place in `barriers`.
#[derive(Clone, Debug)]
pub struct View<'a> {
    pub bytes: &'a [u8],
    pub region: Region,
    pub chart: Chart,
    pub start: usize,
    pub finish: usize,
    pub role: Vec<Role>,
    pub next: Vec<Vec<usize>>,
    pub constructs: Vec<Frame>,
    /// By node the region's own constructs that it is inside.
    pub around: Vec<u64>,
    /// The same, with a section's begin and end counted as inside it.
    pub held: Vec<u64>,
    /// By rising node number, Start and Finish among them.
    pub barriers: Vec<usize>,
    pub starts: Vec<u64>,
    pub ends: Vec<u64>,
}

/// The members of a mask.
pub fn bits(mask: u64) -> impl Iterator<Item = usize> {
    (0..64).filter(move |&i| mask >> i & 1 == 1)
}

impl<'a> View<'a> {
    pub fn read(bytes: &'a [u8], region: Region) -> Result<View<'a>, Error> {
        let mut phases = [0; BYTES_PHASES * MOST_NODES];
        let written = bohrali::phases(bytes, region, &mut phases)?;
        let chart = Chart::decode(bytes).ok_or(Error::Unread)?;
        let mut view = View::outlined(bytes, region, chart).ok_or(Error::Unread)?;
        for masks in phases[..written].chunks_exact(BYTES_PHASES) {
            let mask = |half: &[u8]| half.iter().rfold(0, |mask, &x| mask << 8 | u64::from(x));
            view.starts.push(mask(&masks[..8]));
            view.ends.push(mask(&masks[8..]));
        }
        let known = view.starts.len() == view.role.len();
        known.then_some(view).ok_or(Error::Unread)
    }

    /// All but starts and ends; none where the records are not those of an admitted chart.
    fn outlined(bytes: &'a [u8], region: Region, chart: Chart) -> Option<View<'a>> {
        let mut constructs = frames(&chart)?;
        let own = own_constructs(&chart, region);
        let (start, finish) = match region {
            Region::Outermost => (0, chart.nodes.len().checked_sub(1)?),
            Region::Parallel(c) => (constructs.get(c)?.begin, constructs.get(c)?.end),
        };
        let numbers = 0..chart.nodes.len();
        let role = numbers.clone().map(|v| match v == start || v == finish {
            true => Role::Barrier,
            false => role(&chart, region, own, v),
        });
        let role: Vec<Role> = role.collect();
        let around: Vec<u64> = numbers.clone().map(|v| around(&chart, v) & own).collect();
        let held = |(role, around): (&Role, &u64)| around | section_at(&constructs, *role);
        let held: Vec<u64> = role.iter().zip(&around).map(held).collect();
        let next = successors(&chart, &role, start, finish)?;
        for c in bits(own) {
            constructs[c].through = through(&constructs, &next, &held, c)?;
        }
        Some(View {
            bytes,
            region,
            start,
            finish,
            barriers: numbers.filter(|&v| role[v] == Role::Barrier).collect(),
            next,
            constructs,
            role,
            around,
            held,
            starts: Vec::new(),
            ends: Vec::new(),
            chart,
        })
    }

    pub fn nodes(&self) -> usize {
        self.role.len()
    }

    /// A node of the region that is no barrier: one that there are answers for.
    pub fn is_open(&self, v: usize) -> bool {
        let role = self.role.get(v);
        role.is_some_and(|x| !matches!(x, Role::Outside | Role::Barrier))
    }

    pub fn kind(&self, c: usize) -> ConstructKind {
        self.constructs[c].kind
    }

    pub fn of_kind(&self, mask: u64, kind: ConstructKind) -> impl Iterator<Item = usize> + '_ {
        bits(mask).filter(move |&c| self.kind(c) == kind)
    }

    /// The master around a node; there is at most one.
    pub fn master(&self, v: usize) -> Option<usize> {
        self.of_kind(self.around[v], ConstructKind::Master).next()
    }

    /// The thread that alone comes to a node, where it is inside a master.
    pub fn filter(&self, v: usize) -> Option<usize> {
        self.master(v).map(|c| self.constructs[c].filter)
    }

    /// The do of which a node is inside an ordered.
    pub fn ordered_of(&self, v: usize) -> Option<usize> {
        let mut ordered = self.of_kind(self.around[v], ConstructKind::Ordered);
        self.constructs[ordered.next()?].parent
    }

    /// A shortest path from a construct's end back to its begin that passes no barrier; none where it does not return.
    pub fn way_back(&self, c: usize) -> Option<Vec<usize>> {
        let Frame { begin, end, .. } = self.constructs[c];
        let is_open = |v: usize| self.role[v] != Role::Barrier;
        shortest(&self.next, end, begin, is_open)
    }

    /// The name numbers of the criticals that a node is inside.
    pub fn names(&self, v: usize) -> impl Iterator<Item = u16> + '_ {
        let criticals = self.of_kind(self.around[v], ConstructKind::Critical);
        criticals.map(|c| self.constructs[c].name)
    }

    /// A name that both nodes are inside a critical of: its lock keeps threads at them apart.
    pub fn common_name(&self, a: usize, b: usize) -> Option<u16> {
        self.names(a).find(|&name| self.names(b).any(|x| x == name))
    }
}

fn frames(chart: &Chart) -> Option<Vec<Frame>> {
    let numbered = (0u8..).zip(&chart.constructs);
    let frame = |(c, own): (u8, &region::Construct)| {
        let sections = chart.constructs_of(ConstructKind::Section);
        let of_it = sections.filter(|&x| chart.construct(x).is_some_and(|x| x.parent == Some(c)));
        Some(Frame {
            kind: own.kind,
            parent: own.parent.map(usize::from),
            name: own.name,
            filter: own.filter.into(),
            begin: chart.begin(c)?.into(),
            end: chart.end(c)?.into(),
            sections: of_it.map(usize::from).collect(),
            through: Vec::new(),
        })
    };
    numbered.map(frame).collect()
}

/// The constructs that count in a region: no parallels, and the nearest parallel around them is the region's.
fn own_constructs(chart: &Chart, region: Region) -> u64 {
    let is_parallel = |c: u8| {
        let own = chart.construct(c);
        own.is_some_and(|x| x.kind == ConstructKind::Parallel)
    };
    let region_of = |c: u8| match chart.enclosing(c).find(|&x| is_parallel(x)) {
        Some(parallel) => Region::Parallel(parallel.into()),
        None => Region::Outermost,
    };
    let numbers = (0u8..).take(chart.constructs.len());
    let own = numbers.filter(|&c| !is_parallel(c) && region_of(c) == region);
    own.fold(0, |mask, c| mask | 1 << c)
}

/// All constructs that a node is inside.
fn around(chart: &Chart, v: usize) -> u64 {
    let around = u8::try_from(v).into_iter().flat_map(|v| chart.around(v));
    around.fold(0, |mask, c| mask | 1 << c)
}

/// What a node is that is neither Start nor Finish of the region.
fn role(chart: &Chart, region: Region, own: u64, v: usize) -> Role {
    let inside = match region {
        Region::Outermost => true,
        Region::Parallel(c) => around(chart, v) >> c & 1 == 1,
    };
    let node = chart.nodes[v];
    let construct = node.construct.map(usize::from);
    let counted = construct.filter(|&c| own >> c & 1 == 1);
    match (node.kind, counted) {
        _ if !inside => Role::Outside,
        (NodeKind::Barrier, _)
            if Region::from(construct.unwrap_or(Region::OUTERMOST)) == region =>
        {
            Role::Barrier
        }
        (NodeKind::Begin, Some(c)) => Role::Begin(c),
        (NodeKind::End, Some(c)) => Role::End(c),
        _ => Role::Plain,
    }
}

/// The section that a node begins or ends, as a mask.
fn section_at(constructs: &[Frame], role: Role) -> u64 {
    match role {
        Role::Begin(c) | Role::End(c) if constructs[c].kind == ConstructKind::Section => 1 << c,
        _ => 0,
    }
}

/// The edges between nodes of the region; none leads into its Start or out of its Finish.
fn successors(
    chart: &Chart,
    role: &[Role],
    start: usize,
    finish: usize,
) -> Option<Vec<Vec<usize>>> {
    let mut next = vec![Vec::new(); role.len()];
    for &(from, to) in &chart.edges {
        let (from, to) = (usize::from(from), usize::from(to));
        let outside = *role.get(from)? == Role::Outside || *role.get(to)? == Role::Outside;
        if !outside && from != finish && to != start {
            next[from].push(to);
        }
    }
    Some(next)
}

/// The nodes behind a section's begin on a shortest path to its end, and the end of its sections construct,
/// the begin first; empty for what is no section.
fn through(
    constructs: &[Frame],
    next: &[Vec<usize>],
    held: &[u64],
    c: usize,
) -> Option<Vec<usize>> {
    let Frame { begin, end, .. } = constructs[c];
    if constructs[c].kind != ConstructKind::Section {
        return Some(Vec::new());
    }
    let mut path = shortest(next, begin, end, |w| held[w] >> c & 1 == 1)?;
    path.push(constructs[constructs[c].parent?].end);
    Some(path)
}

/// A shortest path between two nodes whose other nodes are all open.
fn shortest(
    next: &[Vec<usize>],
    from: usize,
    to: usize,
    is_open: impl Fn(usize) -> bool,
) -> Option<Vec<usize>> {
    let mut before = vec![None; next.len()];
    let mut pending = VecDeque::from([from]);
    while let Some(v) = pending.pop_front() {
        for &w in &next[v] {
            if before[w].is_none() && w != from && is_open(w) {
                before[w] = Some(v);
                pending.push_back(w);
            }
        }
    }
    let mut path = vec![to];
    let mut v = to;
    while v != from {
        v = before[v]?;
        path.push(v);
    }
    path.reverse();
    Some(path)
}
