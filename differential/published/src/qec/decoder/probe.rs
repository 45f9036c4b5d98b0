//! Shim: a child module, so it reads the decoder's private fields. It changes no extracted text.
use super::*;

/// The compiled tables: (u, v, weight bits, observable words).
pub struct Tables {
    pub num_detectors: usize,
    pub num_observables: usize,
    pub u: Vec<u32>,
    pub v: Vec<u32>,
    pub weight: Vec<f64>,
    pub obs: Vec<u64>,
}

pub fn tables(d: &UnionFindDecoder) -> Tables {
    Tables {
        num_detectors: d.num_detectors,
        num_observables: d.num_observables,
        u: d.edge_u.clone(),
        v: d.edge_v.clone(),
        weight: d.edge_weight.clone(),
        obs: d.edge_obs.clone(),
    }
}

/// A decoder over lent tables (parallel edges and any weights allowed).
pub fn from_tables(t: &Tables) -> UnionFindDecoder {
    let (adj_offsets, adj_edge) = adjacency_span(t.num_detectors, &t.u, &t.v);
    UnionFindDecoder {
        num_detectors: t.num_detectors,
        num_observables: t.num_observables,
        obs_words: t.num_observables.div_ceil(64),
        edge_u: t.u.clone(),
        edge_v: t.v.clone(),
        edge_weight: t.weight.clone(),
        edge_obs: t.obs.clone(),
        adj_offsets,
        adj_edge,
    }
}

/// The same graph with observable e set on edge e alone: the unmodified decoder's row is then
/// the set of corrected edges.
pub fn one_hot(d: &UnionFindDecoder) -> UnionFindDecoder {
    let edges = d.edge_u.len();
    let words = edges.div_ceil(64);
    let mut edge_obs = vec![0u64; edges * words];
    for e in 0..edges {
        edge_obs[e * words + e / 64] |= 1 << (e % 64);
    }
    UnionFindDecoder { num_observables: edges, obs_words: words, edge_obs, ..d.clone() }
}

/// What the original leaves readable about one shot.
#[derive(Debug, Clone, PartialEq)]
pub struct Captured {
    pub stuck: Option<u32>,
    /// From the stamp counter: one tick per shot, one per loop entry of `grow_clusters`.
    pub rounds: u64,
    /// Peeled edges in order (empty when stuck).
    pub list: Vec<u32>,
    pub saturated: Vec<u32>,
}

pub struct Capture {
    one_hot: UnionFindDecoder,
    scratch: DecodeScratch,
}

impl Capture {
    pub fn new(d: &UnionFindDecoder) -> Self {
        let one_hot = one_hot(d);
        let scratch = DecodeScratch::new(&one_hot);
        Capture { one_hot, scratch }
    }

    fn saturated(&self) -> Vec<u32> {
        let s = &self.scratch;
        (0..s.edge_stamp.len()).filter(|&e| s.edge_stamp[e] == s.shot_stamp && s.edge_saturated[e]).map(|e| e as u32).collect()
    }

    /// Runs the original `decode_shot` for set, rounds and Stuck.
    pub fn shot_set(&mut self, row: &[u64]) -> Captured {
        let before = self.scratch.stamp;
        let words = self.one_hot.obs_words;
        let mut out = vec![0u64; words];
        let answer = UnionFindDecoder::decode_shot(&self.one_hot, row, &mut out, &mut self.scratch);
        let ticks = self.scratch.stamp - before;
        let rounds = ticks.saturating_sub(2);
        let mut list = Vec::new();
        for (w, &bits) in out.iter().enumerate() {
            let mut bits = bits;
            while bits != 0 {
                list.push((w * 64) as u32 + bits.trailing_zeros());
                bits &= bits - 1;
            }
        }
        let saturated = if ticks == 1 { Vec::new() } else { self.saturated() };
        match answer {
            Ok(()) => Captured { stuck: None, rounds, list, saturated },
            Err(stuck) => Captured { stuck: Some(stuck.detector), rounds, list: Vec::new(), saturated },
        }
    }

    /// As `shot_set`, then peels again cluster by cluster with the original `peel_cluster` to
    /// get the order: per cluster, the edges of `order` reversed that are in the row, then the
    /// boundary edge. Only the loop at the end of `decode_shot` is imitated here.
    pub fn shot_list(&mut self, row: &[u64]) -> Captured {
        let mut c = self.shot_set(row);
        if c.stuck.is_some() || c.list.is_empty() {
            return c;
        }
        let d = &self.one_hot;
        let s = &mut self.scratch;
        let defects = s.defects.clone();
        // Give back what the first peeling consumed: marks of lit and walked vertices.
        for v in 0..d.num_detectors {
            s.dfs_stamp[v] = 0;
            s.peeled_stamp[v] = 0;
            s.defect_stamp[v] = 0;
        }
        for &v in &defects {
            s.defect_stamp[v as usize] = s.shot_stamp;
        }
        let mut list = Vec::new();
        for &v in &defects {
            let root = s.find(v);
            if s.peeled_stamp[root as usize] == s.shot_stamp {
                continue;
            }
            s.peeled_stamp[root as usize] = s.shot_stamp;
            let mut out = vec![0u64; d.obs_words];
            d.peel_cluster(root, &mut out, s);
            let has = |e: u32| out[e as usize / 64] >> (e % 64) & 1 == 1;
            for &(_, edge, _) in s.order.iter().rev() {
                if has(edge) {
                    list.push(edge);
                }
            }
            let b = s.boundary_edge[root as usize];
            if b != EDGE_NONE && has(b) {
                list.push(b);
            }
        }
        let mut sorted = list.clone();
        sorted.sort_unstable();
        assert_eq!(sorted, c.list, "ordered capture disagrees with the captured set");
        c.list = list;
        c
    }
}

pub struct Lister(DecodeScratch);
impl Lister {
    pub fn new(d: &UnionFindDecoder) -> Self {
        Lister(DecodeScratch::new(d))
    }
    /// The original's listing loop.
    pub fn list(&mut self, row: &[u64]) -> &[u32] {
        list_lit_span(row, &mut self.0);
        &self.0.defects
    }
}
