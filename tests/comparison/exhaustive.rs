//! The exhaustive program: document 01's rules carried out by trying everything, for blocks small enough for that.
//!
//! It shares no code with the picker and does nothing in the picker's way. Edges are a set of pairs, looked through
//! from the start at every step; sets are found by trying all masks; functions are truth tables; the need is counted by
//! fixing variables in every way and comparing what is left.

use std::collections::{BTreeMap, BTreeSet, HashSet};

/// Components with more members than this have truth tables that are too long.
pub const MOST_MEMBERS: usize = 10;

/// With more flip-flops than this there are too many sets to try.
pub const MOST_TRIED: usize = 16;

/// A node room longer than this counts as this long.
pub const MOST_NODES: u64 = 65_536;

pub type Flops = BTreeSet<usize>;
pub type Edges = BTreeSet<(usize, usize)>;

/// "Bit w of row v is set where an edge goes from v to w", without the edges from a flip-flop to itself.
pub fn edges_as_lent(rows: &[u64]) -> Edges {
    let pairs = (0..rows.len()).flat_map(|v| (0..64).map(move |w| (v, w)));
    pairs.filter(|&(v, w)| v != w && bit(rows[v], w)).collect()
}

pub fn bit(mask: u64, place: usize) -> bool {
    mask >> place & 1 == 1
}

pub fn mask(flops: impl IntoIterator<Item = usize>) -> u64 {
    flops.into_iter().map(|v| 1u64 << v).sum()
}

fn sources(v: usize, edges: &Edges) -> Vec<usize> {
    edges.iter().filter(|e| e.1 == v).map(|e| e.0).collect()
}

fn targets(v: usize, edges: &Edges) -> Vec<usize> {
    edges.iter().filter(|e| e.0 == v).map(|e| e.1).collect()
}

/// The edges with both ends among the given flip-flops.
fn among(flops: &Flops, edges: &Edges) -> Edges {
    edges.iter().copied().filter(|(u, v)| flops.contains(u) && flops.contains(v)).collect()
}

// Loops and the lightest set

/// Whether the kept ones hold a loop: whatever has no edge in from the others left can be on none and goes; a loop is
/// held if something stays.
pub fn holds_loop(kept: u64, edges: &Edges) -> bool {
    let mut left = kept;
    loop {
        let fed = edges.iter().filter(|e| bit(left, e.0) && bit(left, e.1)).fold(0, |fed, e| fed | 1 << e.1);
        if fed == left {
            return left != 0;
        }
        left = fed;
    }
}

/// The cost of a set: "the sum of its members' costs".
pub fn weight(set: u64, costs: &[u32]) -> u64 {
    (0..costs.len()).filter(|&v| bit(set, v)).map(|v| u64::from(costs[v])).sum()
}

/// The lightest set, out of all sets of the given flip-flops, that meets every loop among them; as cost and mask, which
/// is how sets are compared.
fn lightest_among(flops: &[usize], edges: &Edges, costs: &[u32]) -> (u64, u64) {
    let all = mask(flops.iter().copied());
    let mut lightest = (weight(all, costs), all);
    for choice in 0..1u64 << flops.len() {
        let set = mask((0..flops.len()).filter(|&place| bit(choice, place)).map(|place| flops[place]));
        if (weight(set, costs), set) < lightest && !holds_loop(all & !set, edges) {
            lightest = (weight(set, costs), set);
        }
    }
    lightest
}

/// The lightest set of a block, as cost and mask. Where there are too many flip-flops to try all sets of them, all sets
/// of each component are tried. None if a component has too many members.
pub fn lightest(rows: &[u64], costs: &[u32]) -> Option<(u64, u64)> {
    let edges = edges_as_lent(rows);
    let all: Vec<usize> = (0..rows.len()).collect();
    if all.len() <= MOST_TRIED {
        return Some(lightest_among(&all, &edges, costs));
    }
    let parts = components(&all.into_iter().collect(), &edges);
    let small = parts.iter().all(|part| part.len() <= MOST_TRIED);
    let each = parts.iter().map(|part| lightest_among(part, &edges, costs));
    small.then(|| each.fold((0, 0), |sum, part| (sum.0 + part.0, sum.1 | part.1)))
}

// Reduction

#[derive(Clone, Copy, Debug, PartialEq)]
pub enum Done {
    Dropped,
    Forced,
    Folded(usize),
}

/// The block under reduction, and the steps made so far.
#[derive(Clone, Debug)]
pub struct Reduced {
    pub steps: Vec<(usize, Done)>,
    pub live: Flops,
    pub forced: Flops,
    pub edges: Edges,
}

impl Reduced {
    /// Row v, "in which only edges among live flip-flops stand".
    pub fn row(&self, v: usize) -> u64 {
        mask(targets(v, &self.edges))
    }

    /// What a rule does with v, if it applies to v.
    fn rule(&self, rule: u32, v: usize, costs: &[u32]) -> Option<Done> {
        let (ins, outs) = (sources(v, &self.edges), targets(v, &self.edges));
        let only = match rule {
            1 => return self.edges.contains(&(v, v)).then_some(Done::Forced),
            2 => return (ins.is_empty() || outs.is_empty()).then_some(Done::Dropped),
            3 => ins,
            _ => outs,
        };
        match only[..] {
            [u] if costs[u] < costs[v] || costs[u] == costs[v] && u < v => Some(Done::Folded(u)),
            _ => None,
        }
    }

    /// "In each step the lowest-numbered rule that applies to any live flip-flop is used, on the lowest such
    /// flip-flop."
    fn next(&self, costs: &[u32]) -> Option<(u32, usize, Done)> {
        let tries = (1..=4).flat_map(|rule| self.live.iter().map(move |&v| (rule, v)));
        tries.filter_map(|(rule, v)| self.rule(rule, v, costs).map(|done| (rule, v, done))).next()
    }

    fn step(&mut self, rule: u32, v: usize, done: Done) {
        match done {
            Done::Dropped => {}
            Done::Forced => {
                self.forced.insert(v);
            }
            Done::Folded(u) if rule == 3 => self.edges.extend(targets(v, &self.edges).into_iter().map(|w| (u, w))),
            Done::Folded(u) => self.edges.extend(sources(v, &self.edges).into_iter().map(|w| (w, u))),
        }
        self.live.remove(&v);
        self.edges = among(&self.live, &self.edges);
        self.steps.push((v, done));
    }
}

/// Reduction of a block by as many steps as the limit allows, "fewer only when no rule applies".
pub fn reduce(rows: &[u64], costs: &[u32], limit: u64) -> Reduced {
    let mut block = Reduced {
        steps: Vec::new(),
        live: (0..rows.len()).collect(),
        forced: Flops::new(),
        edges: edges_as_lent(rows),
    };
    while (block.steps.len() as u64) < limit {
        let Some((rule, v, done)) = block.next(costs) else { break };
        block.step(rule, v, done);
    }
    block
}

// Components

/// All pairs of which the second can be reached from the first by one edge or more.
fn reachable_pairs(edges: &Edges) -> Edges {
    let mut pairs = edges.clone();
    loop {
        let further: Edges =
            pairs.iter().flat_map(|&(u, v)| edges.range((v, 0)..(v + 1, 0)).map(move |e| (u, e.1))).collect();
        if further.is_subset(&pairs) {
            return pairs;
        }
        pairs.extend(further);
    }
}

/// The components, by lowest flip-flop: live flip-flops that reach each other, two or more.
pub fn components(live: &Flops, edges: &Edges) -> Vec<Vec<usize>> {
    let pairs = reachable_pairs(&among(live, edges));
    let part = |&v: &usize| -> Vec<usize> {
        live.iter().copied().filter(|&w| w == v || pairs.contains(&(v, w)) && pairs.contains(&(w, v))).collect()
    };
    let parts: BTreeSet<Vec<usize>> = live.iter().map(part).collect();
    parts.into_iter().filter(|part| part.len() >= 2).collect()
}

// The search

/// Where the search is when it is at v, the flip-flops still being visited: the first path in the order of the targets
/// that leads from the lowest flip-flop to v and is at none twice. (The search goes on to a target exactly when v can
/// be reached from there past none of those being visited.)
fn being_visited(lowest: usize, v: usize, edges: &Edges) -> Vec<usize> {
    let mut path = vec![lowest];
    while *path.last().unwrap() != v {
        let outside: Edges = edges.iter().copied().filter(|e| !path.contains(&e.0) && !path.contains(&e.1)).collect();
        let onward = reachable_pairs(&outside);
        let at = *path.last().unwrap();
        let next = targets(at, edges).into_iter().find(|&w| !path.contains(&w) && (w == v || onward.contains(&(w, v))));
        path.push(next.expect("a component's members reach each other"));
    }
    path
}

/// B: "flip-flop u is in B when an edge from u reaches one still being visited."
pub fn feedback(part: &[usize], edges: &Edges) -> Flops {
    let edges = among(&part.iter().copied().collect(), edges);
    let in_b = |u: &usize| being_visited(part[0], *u, &edges).iter().any(|&w| edges.contains(&(*u, w)));
    part.iter().copied().filter(in_b).collect()
}

// The cycle function and the need

/// A function of a component's kept variables, as its values in order: the values with the lowest variable 0 first, and
/// so on in each half.
type Table = Vec<bool>;

fn joined(f: &Table, g: &Table, join: fn(bool, bool) -> bool) -> Table {
    f.iter().zip(g).map(|(&a, &b)| join(a, b)).collect()
}

/// A component with its listed functions so far.
struct Listing<'a> {
    part: &'a [usize],
    edges: Edges,
    b: Flops,
    listed: HashSet<Table>,
}

impl Listing<'_> {
    fn constant(&self, value: bool) -> Table {
        vec![value; 1 << self.part.len()]
    }

    fn variable(&self, v: usize) -> Table {
        let place = self.part.iter().position(|&w| w == v).expect("a member of the component");
        let half = 1 << (self.part.len() - 1 - place);
        (0..1 << self.part.len()).map(|values| values & half != 0).collect()
    }

    /// The OR of functions; that of the first one, two, .. of them is listed.
    fn any_of(&mut self, functions: &[Table]) -> Table {
        let mut any = self.constant(false);
        for f in functions {
            any = joined(&any, f, |a, b| a | b);
            self.listed.insert(any.clone());
        }
        any
    }

    /// Fi(v), and Fi of whatever outside B it rests on. The ones known already stand in `done`.
    fn value(&mut self, v: usize, before: &BTreeMap<usize, Table>, done: &mut BTreeMap<usize, Table>) -> Table {
        if let Some(known) = done.get(&v) {
            return known.clone();
        }
        let ins = sources(v, &self.edges);
        let functions: Vec<Table> = ins
            .into_iter()
            .map(|u| if self.b.contains(&u) { before[&u].clone() } else { self.value(u, before, done) })
            .collect();
        let any = self.any_of(&functions);
        let product = joined(&self.variable(v), &any, |a, b| a & b);
        self.listed.insert(product.clone());
        done.insert(v, product.clone());
        product
    }
}

/// All listed functions of a component.
fn listed_functions(part: &[usize], edges: &Edges) -> HashSet<Table> {
    let edges = among(&part.iter().copied().collect(), edges);
    let b = feedback(part, &edges);
    let mut listing = Listing { part, edges, b: b.clone(), listed: HashSet::new() };
    for &v in part {
        let variable = listing.variable(v);
        listing.listed.insert(variable);
    }
    let mut before: BTreeMap<usize, Table> = b.iter().map(|&u| (u, listing.constant(true))).collect();
    for _ in 0..b.len() {
        let mut done = BTreeMap::new();
        for &v in part {
            listing.value(v, &before, &mut done);
        }
        before = done;
    }
    let of_b: Vec<Table> = b.iter().map(|u| before[u].clone()).collect();
    listing.any_of(&of_b);
    listing.listed
}

/// The need of a component: "the number of different non-constant functions got from the listed ones by fixing the
/// first j variables, j from 0 on, in every way."
pub fn need(part: &[usize], edges: &Edges) -> u64 {
    assert!(part.len() <= MOST_MEMBERS, "too many members for truth tables");
    let listed = listed_functions(part, edges);
    let mut different: HashSet<&[bool]> = HashSet::new();
    for function in &listed {
        for j in 0..=part.len() {
            different.extend(function.chunks(1 << (part.len() - j)).map(without_idle_tops));
        }
    }
    different.retain(|f| f.len() > 1);
    different.len() as u64
}

/// A function without those first variables that it doesn't turn on: two of these are the same values exactly when they
/// are the same function, and a constant is a single value.
fn without_idle_tops(mut f: &[bool]) -> &[bool] {
    while f.len() > 1 && f[..f.len() / 2] == f[f.len() / 2..] {
        f = &f[..f.len() / 2];
    }
    f
}

/// The components' needs, in their order, each with the component's lowest flip-flop. None if a component has too many
/// members.
pub fn needs(live: &Flops, edges: &Edges) -> Option<Vec<(usize, u64)>> {
    let parts = components(live, edges);
    let small = parts.iter().all(|part| part.len() <= MOST_MEMBERS);
    small.then(|| parts.iter().map(|part| (part[0], need(part, edges))).collect())
}
