//! What the tests share: the example of docs/RULES.md, small graphs, memory that shows what was written, and the
//! example programs.
#![allow(dead_code)]

pub mod programs;

use pavrenni::raw::{self, Scratch};
use pavrenni::{Code, Error, Graph, Item, Mechanism, Model, BOUNDARY};
use std::fmt::Debug;

/// What memory holds before a call that is to leave it untouched.
pub const UNTOUCHED: u64 = 0x5a5a_5a5a_5a5a_5a5a;
pub const UNTOUCHED_ENTRY: u32 = 0x5a5a_5a5a;

/// The example model of docs/RULES.md, "Frames".
pub fn example() -> Model {
    Model::new(2, 1).with_mechanisms([Mechanism::new(0.25, [0], [0]), Mechanism::new(0.25, [0, 1], [])])
}

/// Its graph: edge 0 from detector 0 to the boundary, edge 1 from 0 to 1.
pub fn example_graph() -> Graph {
    example().compile().unwrap()
}

/// The pair edge alone.
pub fn pair_graph() -> Graph {
    Graph { detectors: 2, observables: 1, edge_u: vec![0], edge_v: vec![1], edge_weight: vec![1.0], edge_obs: vec![0] }
}

/// Detector 0 at the boundary with observables 0 and 64; detectors 1 and 2 joined, with observable 3. Rows have two
/// words.
pub fn islands() -> Graph {
    Graph {
        detectors: 3,
        observables: 65,
        edge_u: vec![0, 1],
        edge_v: vec![BOUNDARY, 2],
        edge_weight: vec![1.0, 2.0],
        edge_obs: vec![1, 1, 8, 0],
    }
}

/// A line of detectors with both ends at the boundary, an observable for each edge up to O.
pub fn line(detectors: usize, observables: usize) -> Graph {
    let words = observables.div_ceil(64);
    let edges = detectors + 1;
    let mut graph = Graph {
        detectors,
        observables,
        edge_u: (0..edges).map(|e| e.saturating_sub(1) as u32).collect(),
        edge_v: (0..edges).map(|e| if e == 0 || e == detectors { BOUNDARY } else { e as u32 }).collect(),
        edge_weight: (0..edges).map(|e| 0.5 + (e * 7 % 5) as f64).collect(),
        edge_obs: vec![0; edges * words],
    };
    for e in 0..edges.min(observables) {
        graph.edge_obs[e * words + e / 64] |= 1 << (e % 64);
    }
    graph
}

/// The code of a refusal and the values that it names.
#[track_caller]
pub fn refused_with<T: Debug>(answer: Result<T, Error>) -> (Code, Option<Item>, Option<usize>, Option<u32>) {
    let error = answer.unwrap_err();
    (error.code, error.at, error.detector, error.rounds)
}

/// Numbers that look random, the same in each run.
pub struct Numbers(pub u64);

impl Numbers {
    pub fn next(&mut self) -> u64 {
        self.0 = self.0.wrapping_mul(6364136223846793005).wrapping_add(1442695040888963407);
        self.0 ^ self.0 >> 29
    }

    /// A row of this width, one bit in four lit.
    pub fn row(&mut self, width: usize) -> Vec<u64> {
        let mut row: Vec<u64> = (0..width.div_ceil(64)).map(|_| self.next() & self.next()).collect();
        let tail = width % 64;
        if tail > 0 {
            *row.last_mut().unwrap() &= (1 << tail) - 1;
        }
        row
    }
}

pub fn scratch_for(graph: &Graph) -> Scratch {
    Scratch::with_lengths(&raw::lengths(graph.detectors, graph.edges()))
}

/// What no table holds at rest.
pub trait Stale: Clone {
    const STALE: Self;
}

impl Stale for u8 {
    const STALE: u8 = 0xa5;
}
impl Stale for u16 {
    const STALE: u16 = 0xa5a5;
}
impl Stale for u32 {
    const STALE: u32 = 0xdead_beef;
}
impl Stale for u64 {
    const STALE: u64 = 0xdead_beef_dead_beef;
}
impl Stale for f64 {
    const STALE: f64 = f64::NAN;
}
impl Stale for bool {
    const STALE: bool = true;
}
impl<T: Stale, const N: usize> Stale for [T; N] {
    const STALE: [T; N] = [T::STALE; N];
}

/// A change of the vectors of a struct, by the name of the vector.
pub type Change<T> = (&'static str, fn(&mut T));

/// For each of the vectors named: the change that drops its last entry.
#[macro_export]
macro_rules! one_short {
    ($kind:ty: $($name:ident),* $(,)?) => {
        vec![$((stringify!($name), (|x| { x.$name.pop().expect("an entry to drop"); }) as fn(&mut $kind))),*] as Vec<$crate::common::Change<$kind>>
    };
}

/// Makes each of the vectors named longer by three stale entries.
#[macro_export]
macro_rules! lengthen {
    ($x:expr; $($name:ident),* $(,)?) => {
        $({ let n = $x.$name.len() + 3; $x.$name.resize(n, $crate::common::Stale::STALE); })*
    };
}

/// Fills each of the vectors named with stale entries.
#[macro_export]
macro_rules! fill_stale {
    ($x:expr; $($name:ident),* $(,)?) => {
        $($x.$name.fill($crate::common::Stale::STALE);)*
    };
}

/// The decoder's scratch slices, each one entry or row short.
pub fn short_scratch() -> Vec<Change<Scratch>> {
    one_short!(Scratch: adj_offsets, adj, tree, flags, stacks, links, growth, sat)
}

pub fn lengthen_scratch(scratch: &mut Scratch) {
    lengthen!(scratch; adj_offsets, adj, tree, flags, stacks, links, growth, sat);
}

pub fn fill_scratch(scratch: &mut Scratch) {
    fill_stale!(scratch; adj_offsets, adj, tree, flags, stacks, links, growth, sat);
}

/// A lent graph's tables, each one entry short.
pub fn short_tables() -> Vec<Change<Graph>> {
    one_short!(Graph: edge_u, edge_v, edge_weight, edge_obs)
}

/// Lent graphs that are refused, with code and edge. Each has two edges and one word a row.
pub fn refused_graphs() -> Vec<(Graph, u32, usize)> {
    let change = |code, edge, change: fn(&mut Graph)| {
        let mut graph = example_graph();
        change(&mut graph);
        (graph, code, edge)
    };
    vec![
        change(1, 0, |g| g.detectors = 4097),
        change(1, 0, |g| g.detectors = usize::MAX),
        change(1, 0, |g| g.observables = 129),
        change(1, 0, |g| g.observables = usize::MAX),
        // 5: an end, the order of a pair, observable bits
        change(5, 0, |g| g.edge_u[0] = 2),
        change(5, 0, |g| g.edge_u[0] = BOUNDARY),
        change(5, 1, |g| g.edge_v[1] = 2),
        change(5, 1, |g| g.edge_v[1] = BOUNDARY - 1),
        change(5, 1, |g| g.edge_v[1] = 0),
        change(5, 1, |g| (g.edge_u[1], g.edge_v[1]) = (1, 0)),
        change(5, 0, |g| g.edge_obs[0] = 2),
        change(5, 1, |g| g.edge_obs[1] = 1 << 63),
        // 4: a weight
        change(4, 0, |g| g.edge_weight[0] = f64::NAN),
        change(4, 0, |g| g.edge_weight[0] = -f64::MIN_POSITIVE),
        change(4, 1, |g| g.edge_weight[1] = 1024.0000000000002),
        change(4, 1, |g| g.edge_weight[1] = f64::NEG_INFINITY),
        // edge by edge, and of one edge 5 first
        change(4, 0, |g| (g.edge_weight[0], g.edge_v[1]) = (-1.0, 0)),
        change(5, 0, |g| (g.edge_weight[0], g.edge_u[0]) = (-1.0, 2)),
        // 2 comes before both, 1 before 2
        change(2, 0, |g| {
            g.edge_u[0] = 2;
            g.edge_obs.pop();
        }),
        change(1, 0, |g| {
            g.detectors = 4097;
            g.edge_u.pop();
        }),
    ]
}
