//! A second implementation, from the words of docs/RULES.md alone: labels and scans, no union-find, no stamps, no adjacency, no hash maps. `Reading`
//! puts a slip or a misreading into it; `Reading::default()` agrees with the original.

use crate::model::{bit, words, Graph, Mechanism, Model, Refusal, Symptom, BOUNDARY};
use crate::rules::MAX_MECHANISMS;

#[derive(Debug, Clone, Copy, PartialEq)]
pub enum Places {
    /// The earliest of the places that the active parts had as the round began.
    Round,
    /// The same words at each single merge: two odd clusters that merge lose their place, even if a third joins in the same round.
    EachMerge,
    LowestDetector,
    FirstLit,
}

#[derive(Debug, Clone, Copy, PartialEq)]
pub enum Walk {
    /// Marked and pushed when first met, the last pushed taken, unwound in the reverse of marking.
    Marked,
    Recursive,
    Breadth,
    /// Unwound in the reverse of the order in which vertices are taken.
    UnwoundAsTaken,
    DescendingEdges,
}

#[derive(Debug, Clone, Copy, PartialEq)]
pub enum StuckName {
    LowestOfCluster,
    LowestLit,
    /// The lowest component that no edges explain, which need not be the first stuck in order.
    LowestComponent,
}

#[derive(Debug, Clone, Copy, PartialEq)]
pub enum Cover {
    First,
    Last,
    /// Appended mechanisms are candidates too.
    WithAppended,
    /// Mechanisms of probability 0 are no candidates.
    WithoutZero,
}

#[derive(Debug, Clone, Copy, PartialEq)]
pub enum Adding {
    Rounded,
    /// One product contracted into the sum.
    Fused,
    /// Nothing added for p = 0, so that a kept minus zero stays.
    ZeroSkipped,
}

#[derive(Debug, Clone, Copy)]
pub struct Reading {
    pub places: Places,
    pub walk: Walk,
    pub stuck: StuckName,
    pub cover: Cover,
    pub adding: Adding,
    pub count_by_cluster: bool,
    pub added_clause: bool,
    pub tolerance: f64,
    pub one_edge_per_round: bool,
    pub all_at_once: bool,
    pub exit_at_lit: bool,
    pub parallel_merged: bool,
    pub growth_left: bool,
    pub first_duplicate: bool,
    pub components_must_add_up: bool,
    pub refuse_zero_triple: bool,
    pub equal_replaces: bool,
    pub fused_weight: bool,
    pub stuck_round_counted: bool,
    pub row_overwritten: bool,
    pub rate_zero_first: bool,
}

impl Default for Reading {
    fn default() -> Self {
        Reading {
            places: Places::Round,
            walk: Walk::Marked,
            stuck: StuckName::LowestOfCluster,
            cover: Cover::First,
            adding: Adding::Rounded,
            count_by_cluster: false,
            added_clause: true,
            tolerance: 1e-9,
            one_edge_per_round: false,
            all_at_once: false,
            exit_at_lit: false,
            parallel_merged: false,
            growth_left: false,
            first_duplicate: false,
            components_must_add_up: false,
            refuse_zero_triple: false,
            equal_replaces: false,
            fused_weight: false,
            stuck_round_counted: false,
            row_overwritten: false,
            rate_zero_first: false,
        }
    }
}

/// q with p added.
fn add(q: f64, p: f64, adding: Adding) -> f64 {
    let second = p * (1.0 - q);
    match adding {
        Adding::Rounded => q * (1.0 - p) + second,
        Adding::Fused => q.mul_add(1.0 - p, second),
        Adding::ZeroSkipped if p == 0.0 => q,
        Adding::ZeroSkipped => q * (1.0 - p) + second,
    }
}

fn xor_lists(a: &[usize], b: &[usize]) -> Vec<usize> {
    let mut out: Vec<usize> = a.iter().filter(|x| !b.contains(x)).chain(b.iter().filter(|x| !a.contains(x))).copied().collect();
    out.sort();
    out
}

/// The first cover in the order of ascending choices (the last, if the candidates are turned round), or none.
fn first_cover(uncovered: &[usize], observables: &[usize], from: usize, kept: &[(usize, &Mechanism)]) -> Option<Vec<usize>> {
    if uncovered.is_empty() {
        return if observables.is_empty() { Some(Vec::new()) } else { None };
    }
    for at in from..kept.len() {
        let (number, candidate) = kept[at];
        if candidate.detectors.is_empty() || !candidate.detectors.iter().all(|x| uncovered.contains(x)) {
            continue;
        }
        let rest = xor_lists(uncovered, &candidate.detectors);
        if let Some(mut cover) = first_cover(&rest, &xor_lists(observables, &candidate.observables), at + 1, kept) {
            cover.insert(0, number);
            return Some(cover);
        }
    }
    None
}

fn cover_of(m: &Mechanism, out: &[Mechanism], kept: usize, cover: Cover) -> Option<Vec<usize>> {
    let pool = if cover == Cover::WithAppended { out.len() } else { kept };
    let inside = |x: &Mechanism| x.detectors.iter().all(|d| m.detectors.contains(d));
    let wanted = |x: &Mechanism| inside(x) && !(cover == Cover::WithoutZero && x.probability == 0.0);
    let mut candidates: Vec<(usize, &Mechanism)> = out[..pool].iter().enumerate().filter(|(_, x)| wanted(x)).collect();
    if cover == Cover::Last {
        candidates.reverse();
    }
    first_cover(&m.detectors, &m.observables, 0, &candidates)
}

fn split_by_components(m: &Mechanism, r: &Reading) -> bool {
    let whole = |list: fn(&Symptom) -> &Vec<usize>| m.components.iter().fold(Vec::new(), |sum, c| xor_lists(&sum, list(c)));
    !m.components.is_empty()
        && m.components.iter().all(|c| c.0.len() == 1 || c.0.len() == 2)
        && (!r.components_must_add_up || whole(|c| &c.0) == m.detectors && whole(|c| &c.1) == m.observables)
}

/// The decomposed model, the mechanism without a cover (6), or no place left (1).
pub fn decompose(model: &Model, r: &Reading) -> Result<Model, Refusal> {
    let mut out: Vec<Mechanism> = model.mechanisms.iter().filter(|m| m.detectors.len() <= 2).cloned().collect();
    let kept = out.len();
    for (number, m) in model.mechanisms.iter().enumerate().filter(|(_, m)| m.detectors.len() > 2) {
        if split_by_components(m, r) {
            for c in &m.components {
                let equal = |x: &Mechanism| x.detectors == c.0 && x.observables == c.1;
                let found = if r.first_duplicate { out.iter().position(equal) } else { out.iter().rposition(equal) };
                if found.is_none() && out.len() == MAX_MECHANISMS {
                    return Err(Refusal::new(1, 0, 0));
                }
                let at = found.unwrap_or_else(|| {
                    out.push(Mechanism { probability: 0.0, detectors: c.0.clone(), observables: c.1.clone(), components: Vec::new() });
                    out.len() - 1
                });
                out[at].probability = add(out[at].probability, m.probability, r.adding);
            }
            continue;
        }
        for at in cover_of(m, &out, kept, r.cover).ok_or(Refusal::new(6, number, 0))? {
            out[at].probability = add(out[at].probability, m.probability, r.adding);
        }
    }
    Ok(Model { mechanisms: out, ..*model })
}

/// The weight of a probability, each operation rounded once unless it is fused.
pub fn weight(p: f64, fused: bool) -> f64 {
    let y = (1.0 - p) / p;
    if y <= 1.0 {
        return 0.0;
    }
    if y == f64::INFINITY {
        return y;
    }
    let (mut m, mut k) = (y, 0.0);
    while m >= 2.0 {
        m /= 2.0;
        k += 1.0;
    }
    let t = (m - 1.0) / (m + 1.0);
    let s = t * t;
    let entry = |i: u32| 1.0 / f64::from(2 * i + 1);
    let r = (0..15).rev().fold(entry(15), |r, i| if fused { r.mul_add(s, entry(i)) } else { r * s + entry(i) });
    k * f64::from_bits(0x3fe62e42fefa39ef) + (2.0 * t) * r
}

/// The edge graph of a model whose lists pass, or 4 or 7 with the mechanism.
pub fn compile(model: &Model, r: &Reading) -> Result<Graph, Refusal> {
    let mut graph = Graph { detectors: model.detectors, observables: model.observables, ..Graph::default() };
    let mut probability: Vec<f64> = Vec::new();
    for (number, m) in model.mechanisms.iter().enumerate() {
        let p = m.probability;
        if !(0.0..1.0).contains(&p) {
            return Err(Refusal::new(4, number, 0));
        }
        let over = m.detectors.len() > 2;
        if (p == 0.0 || m.detectors.is_empty()) && !(over && r.refuse_zero_triple) {
            continue;
        }
        if over {
            return Err(Refusal::new(7, number, 0));
        }
        let (u, v) = (m.detectors[0], m.detectors.get(1).copied());
        let mut observables = vec![0u64; words(model.observables)];
        m.observables.iter().for_each(|&x| observables[x / 64] |= 1 << (x % 64));
        let same = |e: &usize| graph.edge_u[*e] == u as u32 && graph.edge_v[*e] == v.map_or(BOUNDARY, |v| v as u32);
        match (0..graph.edges()).find(same) {
            None => {
                graph.push(u, v, 0.0, &observables);
                probability.push(p);
            }
            Some(e) if p > probability[e] || (r.equal_replaces && p == probability[e]) => {
                probability[e] = p;
                let at = e * observables.len();
                graph.edge_obs[at..at + observables.len()].copy_from_slice(&observables);
            }
            Some(_) => {}
        }
    }
    graph.edge_weight = probability.iter().map(|&p| weight(p, r.fused_weight)).collect();
    Ok(graph)
}

#[derive(Debug, Clone, PartialEq)]
pub struct Shot {
    pub stuck: Option<u32>,
    pub rounds: u64,
    pub list: Vec<u32>,
    pub saturated: Vec<u32>,
}

/// The clusters of a shot: a detector's label is the lowest detector of its cluster.
struct Clusters<'a> {
    graph: &'a Graph,
    reading: &'a Reading,
    lit: Vec<bool>,
    label: Vec<u32>,
    growth: Vec<f64>,
    saturated: Vec<bool>,
    /// Edges that a reading leaves out.
    absent: Vec<bool>,
}

impl Clusters<'_> {
    fn ends(&self, e: usize) -> (usize, Option<usize>) {
        let v = self.graph.edge_v[e];
        (self.graph.edge_u[e] as usize, if v == BOUNDARY { None } else { Some(v as usize) })
    }

    /// By label: odd, and without a saturated boundary edge.
    fn active(&self) -> Vec<bool> {
        let mut active = vec![false; self.lit.len()];
        for (x, &l) in self.label.iter().enumerate() {
            active[l as usize] ^= self.lit[x];
        }
        for e in 0..self.saturated.len() {
            if let (true, (u, None)) = (self.saturated[e], self.ends(e)) {
                active[self.label[u] as usize] = false;
            }
        }
        active
    }

    /// Step 1: how often each unsaturated edge is counted, or the label of the first cluster with none.
    fn count(&self, places: &[u32]) -> Result<Vec<u32>, u32> {
        let mut placed = vec![false; self.lit.len()];
        places.iter().for_each(|&l| placed[l as usize] = true);
        let mut has = vec![false; self.lit.len()];
        let mut count = vec![0; self.saturated.len()];
        for e in (0..count.len()).filter(|&e| !self.saturated[e] && !self.absent[e]) {
            let (u, v) = self.ends(e);
            let labels = [Some(self.label[u]), v.map(|v| self.label[v])];
            let within = self.reading.count_by_cluster && labels[0] == labels[1];
            for l in labels.into_iter().take(if within { 1 } else { 2 }).flatten() {
                if placed[l as usize] {
                    count[e] += 1;
                    has[l as usize] = true;
                }
            }
        }
        match places.iter().find(|&&l| !has[l as usize]) {
            Some(&l) => Err(l),
            None => Ok(count),
        }
    }

    /// Step 2: the edges that saturate, ascending.
    fn grow(&mut self, count: &[u32]) -> Vec<usize> {
        let counted: Vec<usize> = (0..count.len()).filter(|&e| count[e] > 0).collect();
        let step = |e: usize| (self.graph.edge_weight[e] - self.growth[e]) / f64::from(count[e]);
        let (mut least, mut at) = (step(counted[0]), counted[0]);
        for &e in &counted {
            if step(e) < least {
                (least, at) = (step(e), e);
            }
        }
        let r = self.reading;
        let mut new = Vec::new();
        for &e in &counted {
            self.growth[e] += f64::from(count[e]) * least;
            let reaches = self.growth[e] + r.tolerance >= self.graph.edge_weight[e];
            let saturates = reaches || (r.added_clause && e == at) || r.all_at_once;
            if saturates && !(r.one_edge_per_round && e != at) {
                new.push(e);
            }
        }
        new
    }

    /// Step 3 for one edge.
    fn merge(&mut self, e: usize) {
        self.saturated[e] = true;
        if let (u, Some(v)) = self.ends(e) {
            let (a, b) = (self.label[u], self.label[v]);
            if a != b {
                self.label.iter_mut().filter(|l| **l == a || **l == b).for_each(|l| *l = a.min(b));
            }
        }
    }

    /// Step 3, and the places that the active clusters then have.
    fn merge_all(&mut self, new: &[usize], places: &[u32]) -> Vec<u32> {
        if self.reading.places == Places::EachMerge {
            return self.merge_by_edge(new, places);
        }
        new.iter().for_each(|&e| self.merge(e));
        let active = self.active();
        let in_order: Vec<u32> = match self.reading.places {
            // A label is a detector of its cluster, so it tells where the cluster now is.
            Places::FirstLit => (0..self.lit.len()).filter(|&x| self.lit[x]).map(|x| self.label[x]).collect(),
            Places::LowestDetector => (0..self.lit.len() as u32).filter(|&x| self.label[x as usize] == x).collect(),
            _ => places.iter().map(|&l| self.label[l as usize]).collect(),
        };
        let mut out: Vec<u32> = Vec::new();
        for l in in_order {
            if active[l as usize] && !out.contains(&l) {
                out.push(l);
            }
        }
        out
    }

    fn merge_by_edge(&mut self, new: &[usize], places: &[u32]) -> Vec<u32> {
        let mut held: Vec<(usize, u32)> = places.iter().copied().enumerate().collect();
        for &e in new {
            let (u, v) = self.ends(e);
            let parts = [self.label[u], self.label[v.unwrap_or(u)]];
            self.merge(e);
            let earliest = held.iter().filter(|(_, l)| parts.contains(l)).map(|(i, _)| *i).min();
            held.retain(|(_, l)| !parts.contains(l));
            if let (Some(place), true) = (earliest, self.active()[self.label[u] as usize]) {
                held.push((place, self.label[u]));
            }
        }
        held.sort();
        held.into_iter().map(|(_, l)| l).collect()
    }

    fn stuck_name(&self, label: u32) -> u32 {
        let cluster = |x: &usize| self.label[*x] == label;
        match self.reading.stuck {
            StuckName::LowestOfCluster => (0..self.lit.len()).find(cluster).unwrap() as u32,
            StuckName::LowestLit => (0..self.lit.len()).find(|x| cluster(x) && self.lit[*x]).unwrap() as u32,
            StuckName::LowestComponent => {
                let mut whole = Clusters {
                    lit: self.lit.clone(),
                    label: (0..self.lit.len() as u32).collect(),
                    growth: Vec::new(),
                    saturated: vec![false; self.saturated.len()],
                    absent: Vec::new(),
                    ..*self
                };
                (0..self.saturated.len()).for_each(|e| whole.merge(e));
                let active = whole.active();
                (0..self.lit.len()).find(|&l| active[l]).unwrap() as u32
            }
        }
    }

    /// The saturated pair edges at a detector, by number, with their other ends.
    fn neighbours(&self, x: usize) -> Vec<(usize, usize)> {
        let pairs = (0..self.saturated.len()).filter(|&e| self.saturated[e]);
        let mut near: Vec<(usize, usize)> = pairs
            .filter_map(|e| match self.ends(e) {
                (u, Some(v)) if u == x => Some((e, v)),
                (u, Some(v)) if v == x => Some((e, u)),
                _ => None,
            })
            .collect();
        if self.reading.walk == Walk::DescendingEdges {
            near.reverse();
        }
        near
    }

    /// The walk from `start`: (vertex, edge, parent) in the order to be unwound backwards.
    fn walk(&self, start: usize) -> Vec<(usize, usize, usize)> {
        let mut marked = vec![false; self.lit.len()];
        marked[start] = true;
        let (mut order, mut taken) = (Vec::new(), Vec::new());
        if self.reading.walk == Walk::Recursive {
            self.visit(start, &mut marked, &mut order);
            return order;
        }
        let mut stack = vec![start];
        while !stack.is_empty() {
            let x = if self.reading.walk == Walk::Breadth { stack.remove(0) } else { stack.pop().unwrap() };
            taken.push(x);
            for (e, far) in self.neighbours(x) {
                if !marked[far] {
                    marked[far] = true;
                    order.push((far, e, x));
                    stack.push(far);
                }
            }
        }
        if self.reading.walk == Walk::UnwoundAsTaken {
            order.sort_by_key(|(vertex, _, _)| taken.iter().position(|t| t == vertex));
        }
        order
    }

    fn visit(&self, x: usize, marked: &mut [bool], order: &mut Vec<(usize, usize, usize)>) {
        for (e, far) in self.neighbours(x) {
            if !marked[far] {
                marked[far] = true;
                order.push((far, e, x));
                self.visit(far, marked, order);
            }
        }
    }

    /// The edges peeled, clusters in order of first lit detector.
    fn peel(&self) -> Vec<u32> {
        let mut now = self.lit.clone();
        let (mut list, mut done) = (Vec::new(), Vec::new());
        for first in (0..self.lit.len()).filter(|&x| self.lit[x]) {
            let l = self.label[first];
            if done.contains(&l) {
                continue;
            }
            done.push(l);
            let exits = |&e: &usize| {
                let (u, v) = self.ends(e);
                self.saturated[e] && v.is_none() && self.label[u] == l && !(self.reading.exit_at_lit && !self.lit[u])
            };
            let exit = (0..self.saturated.len()).find(exits);
            let start = exit.map_or(l as usize, |e| self.ends(e).0);
            for (vertex, edge, parent) in self.walk(start).into_iter().rev() {
                if now[vertex] {
                    now[vertex] = false;
                    now[parent] = !now[parent];
                    list.push(edge as u32);
                }
            }
            if let (true, Some(e)) = (now[start], exit) {
                list.push(e as u32);
            }
        }
        list
    }
}

/// One shot. `left` holds the growth that a reading leaves from the shot before.
pub fn decode_shot(graph: &Graph, row: &[u64], r: &Reading, left: &mut Vec<f64>) -> Shot {
    let n = graph.edges();
    let lit: Vec<bool> = (0..graph.detectors).map(|x| bit(row, x)).collect();
    let earlier = |e: usize| (0..e).any(|f| graph.edge_u[f] == graph.edge_u[e] && graph.edge_v[f] == graph.edge_v[e]);
    let mut c = Clusters {
        graph,
        reading: r,
        label: (0..lit.len() as u32).collect(),
        lit,
        growth: if r.growth_left && left.len() == n { left.clone() } else { vec![0.0; n] },
        saturated: vec![false; n],
        absent: (0..n).map(|e| r.parallel_merged && earlier(e)).collect(),
    };
    let mut places: Vec<u32> = (0..c.lit.len() as u32).filter(|&x| c.lit[x as usize]).collect();
    let (mut rounds, mut stuck) = (0, None);
    while !places.is_empty() {
        match c.count(&places) {
            Err(label) => {
                stuck = Some(c.stuck_name(label));
                rounds += u64::from(r.stuck_round_counted);
                break;
            }
            Ok(count) => {
                let new = c.grow(&count);
                places = c.merge_all(&new, &places);
                rounds += 1;
            }
        }
    }
    let list = if stuck.is_some() { Vec::new() } else { c.peel() };
    let saturated = (0..n as u32).filter(|&e| c.saturated[e as usize]).collect();
    *left = c.growth;
    Shot { stuck, rounds, list, saturated }
}
