//! Decomposition and compiling: every refusal, every table short, exact and longer, and what the outputs hold after.

mod common;

use common::*;
use pavrenni::raw::{self, CompileScratch, DecomposeScratch, Tables};
use pavrenni::{sys, Code, Component, Graph, Item, Mechanism, Model};

/// A triple that a single and a pair cover.
fn covered() -> Model {
    Model {
        detectors: 3,
        observables: 1,
        mechanisms: vec![
            Mechanism::new(0.25, [0], [0]).with_components([Component::new([0], [0])]),
            Mechanism::new(0.25, [1, 2], []),
            Mechanism::new(0.25, [0, 1, 2], [0]),
        ],
    }
}

/// A triple whose two components are new mechanisms.
fn suggested() -> Model {
    let triple = Mechanism::new(0.25, [0, 1, 2], [0]).with_components([Component::new([0], [0]), Component::new([1, 2], [])]);
    Model { detectors: 3, observables: 1, mechanisms: vec![triple] }
}

fn short_model_tables() -> Vec<Change<Tables>> {
    one_short!(Tables: probability, detector_counts, observable_counts, component_counts, component_detectors, component_observables, entries)
}

fn lengthen_tables(tables: &mut Tables) {
    lengthen!(tables; probability, detector_counts, observable_counts, component_counts, component_detectors, component_observables, entries);
}

fn fill_tables(tables: &mut Tables) {
    fill_stale!(tables; probability, detector_counts, observable_counts, component_counts, component_detectors, component_observables, entries);
}

/// Changes of a model that both calls refuse, with code and mechanism. All have three mechanisms.
fn refused_models() -> Vec<(Model, u32, usize)> {
    let change = |code, at, change: fn(&mut Model)| {
        let mut model = covered();
        change(&mut model);
        (model, code, at)
    };
    vec![
        change(1, 0, |m| m.detectors = 4097),
        change(1, 0, |m| m.detectors = usize::MAX),
        change(1, 0, |m| m.observables = 129),
        change(1, 0, |m| m.observables = usize::MAX),
        // 4
        change(4, 0, |m| m.mechanisms[0].probability = 1.0),
        change(4, 1, |m| m.mechanisms[1].probability = -f64::MIN_POSITIVE),
        change(4, 0, |m| m.mechanisms[0].probability = f64::NAN),
        change(4, 0, |m| m.mechanisms[0].probability = f64::INFINITY),
        // 5: not ascending, repeated, out of range, too long
        change(5, 1, |m| m.mechanisms[1].detectors = vec![2, 1]),
        change(5, 1, |m| m.mechanisms[1].detectors = vec![1, 1]),
        change(5, 1, |m| m.mechanisms[1].detectors = vec![1, 3]),
        change(5, 1, |m| m.mechanisms[1].detectors = vec![u32::MAX]),
        change(5, 0, |m| m.mechanisms[0].observables = vec![1]),
        change(5, 0, |m| m.mechanisms[0].observables = vec![0, 0]),
        change(5, 0, |m| m.mechanisms[0].components[0].detectors = vec![3]),
        change(5, 0, |m| m.mechanisms[0].components[0].observables = vec![1]),
        change(5, 1, |m| (m.detectors, m.mechanisms[1].detectors) = (4096, (0..17).collect())),
        change(5, 1, |m| (m.observables, m.mechanisms[1].observables) = (128, (0..17).collect())),
        change(5, 0, |m| (m.detectors, m.mechanisms[0].components[0].detectors) = (4096, (0..17).collect())),
        change(5, 1, |m| m.mechanisms[1].components = vec![Component::new([0], []); 17]),
        // mechanism by mechanism, and of one 5 first
        change(4, 0, |m| (m.mechanisms[0].probability, m.mechanisms[1].detectors) = (1.0, vec![1, 1])),
        change(5, 1, |m| (m.mechanisms[1].probability, m.mechanisms[1].detectors) = (1.0, vec![1, 1])),
        change(5, 0, |m| (m.mechanisms[1].probability, m.mechanisms[0].observables) = (1.0, vec![1])),
    ]
}

// ---- decomposition

/// A call with all its memory: output tables no longer than the model given, full of stale entries.
#[derive(Clone)]
struct Decomposing {
    counts: [usize; 3],
    model: Tables,
    out: Tables,
    scratch: DecomposeScratch,
}

impl Decomposing {
    fn of(model: &Model) -> Decomposing {
        let counts = [model.detectors, model.observables, model.mechanisms.len()];
        let tables = Tables::of(model);
        let mut out = tables.clone();
        fill_tables(&mut out);
        let scratch = DecomposeScratch::with_lengths(&raw::decompose_lengths(counts[0], counts[2]));
        Decomposing { counts, model: tables, out, scratch }
    }

    fn run(&mut self) -> sys::Model {
        raw::decompose(self.counts, &self.model, &mut self.out, &mut self.scratch)
    }

    /// Refused so, with all output tables zero, as long as they are and longer.
    #[track_caller]
    fn refused(self, code: u32, first: usize) {
        let mut longer = self.clone();
        lengthen_tables(&mut longer.out);
        // where the lent places decide, longer tables are another call
        let calls = if code == 1 || code == 2 { vec![self] } else { vec![self, longer] };
        for mut call in calls {
            let answer = call.run();
            assert_eq!(answer, sys::Model { code, first, second: 0, mechanisms: 0, components: 0, entries: 0 });
            assert_zero(&call.out);
        }
    }
}

#[track_caller]
fn assert_zero(tables: &Tables) {
    assert!(tables.probability.iter().all(|p| p.to_bits() == 0));
    let columns = [
        &tables.detector_counts,
        &tables.observable_counts,
        &tables.component_counts,
        &tables.component_detectors,
        &tables.component_observables,
    ];
    assert!(columns.iter().all(|column| column.iter().all(|count| *count == 0)));
    assert!(tables.entries.iter().all(|entry| *entry == 0));
}

fn decomposing(change: impl Fn(&mut Decomposing)) -> Decomposing {
    let mut call = Decomposing::of(&covered());
    change(&mut call);
    call
}

fn short_decompose_scratch() -> Vec<Change<DecomposeScratch>> {
    one_short!(DecomposeScratch: starts, before, last_of, first_of, next_of, numbers, masks, words0, words1, earlier)
}

#[test]
fn decomposed_into_exact_and_longer_tables() {
    let mut exact = decomposing(|_| ());
    let mut longer = decomposing(|call| lengthen_tables(&mut call.out));
    lengthen!(longer.scratch; starts, before, last_of, first_of, next_of, numbers, masks, words0, words1, earlier);
    lengthen_tables(&mut longer.model);
    for call in [&mut exact, &mut longer] {
        let before = call.out.clone();
        let answer = call.run();
        assert_eq!(answer, sys::Model { code: 0, first: 0, second: 0, mechanisms: 2, components: 1, entries: 6 });
        let mechanisms = call.out.mechanisms(2).unwrap();
        assert_eq!(mechanisms[0], Mechanism { probability: 0.375, ..covered().mechanisms[0].clone() });
        assert_eq!(mechanisms[1], Mechanism::new(0.375, [1, 2], []));
        // past what was written, as before
        assert!(call.out.probability[2..].iter().all(|p| p.is_nan()));
        assert_eq!(call.out.detector_counts[2..], before.detector_counts[2..]);
        assert_eq!(call.out.observable_counts[2..], before.observable_counts[2..]);
        assert_eq!(call.out.component_counts[2..], before.component_counts[2..]);
        assert_eq!(call.out.component_detectors[1..], before.component_detectors[1..]);
        assert_eq!(call.out.component_observables[1..], before.component_observables[1..]);
        assert_eq!(call.out.entries[6..], before.entries[6..]);
    }
}

#[test]
fn decomposition_refuses_short_memory() {
    for (name, shorten) in short_model_tables() {
        println!("{name}");
        decomposing(|call| shorten(&mut call.model)).refused(2, 0);
        decomposing(|call| shorten(&mut call.out)).refused(2, 0);
    }
    for (name, shorten) in short_decompose_scratch() {
        println!("{name}");
        decomposing(|call| shorten(&mut call.scratch)).refused(2, 0);
    }
    decomposing(|call| call.model = Tables::default()).refused(2, 0);
    decomposing(|call| call.out = Tables::default()).refused(2, 0);
    decomposing(|call| call.scratch = DecomposeScratch::default()).refused(2, 0);
    decomposing(|call| call.counts[2] = 4).refused(2, 0);
    // a count that tells of more than there is
    decomposing(|call| call.model.detector_counts[0] = 255).refused(2, 0);
    decomposing(|call| call.model.component_counts[2] = 255).refused(2, 0);
}

#[test]
fn decomposition_refuses_models() {
    for (model, code, at) in refused_models() {
        Decomposing::of(&model).refused(code, at);
    }
    decomposing(|call| call.counts[2] = 16385).refused(1, 0);
    decomposing(|call| call.counts[2] = usize::MAX).refused(1, 0);
    // 6: observables that do not match, and a triple of probability 0
    let mut model = covered();
    model.mechanisms[2].observables.clear();
    Decomposing::of(&model).refused(6, 2);
    model.mechanisms[2].probability = 0.0;
    Decomposing::of(&model).refused(6, 2);
    // an appended mechanism covers nothing
    let mut model = suggested();
    model.mechanisms.push(Mechanism::new(0.25, [0, 1, 2], [0]));
    let error = model.decompose().unwrap_err();
    assert_eq!((error.code, error.at), (Code::NoCover, Some(Item::Mechanism(1))));
}

#[test]
fn decomposition_refuses_where_no_place_is_left() {
    // one mechanism given, two left: as many places as the model given has are one too few
    let mut call = Decomposing::of(&suggested());
    call.clone().refused(1, 0);
    // each column decides, and entries do
    call.out = call.model.room();
    for (name, shorten) in short_model_tables() {
        let mut call = call.clone();
        // a mechanism more than is left
        call.out.probability.pop();
        call.out.detector_counts.pop();
        call.out.observable_counts.pop();
        call.out.component_counts.pop();
        assert_eq!(call.clone().run().mechanisms, 2);
        fill_tables(&mut call.out);
        shorten(&mut call.out);
        let places = ["probability", "detector_counts", "observable_counts", "component_counts"].contains(&name);
        call.refused(if places { 1 } else { 2 }, 0);
    }
    // an earlier mechanism's 6 comes first
    let mut model = suggested();
    model.mechanisms.insert(0, Mechanism::new(0.25, [0, 1, 2], []));
    Decomposing::of(&model).refused(6, 0);
}

#[test]
fn decomposition_over_16384_mechanisms() {
    // mechanism i flips detector i mod 4096 and observable i div 4096, so no two are equal
    let single = |i: u32| Mechanism::new(0.001, [i % 4096], [i / 4096]);
    let triple = Mechanism::new(0.25, [0, 1, 2], [0]).with_components([Component::new([0], [0]), Component::new([1, 2], [])]);
    let mut model = Model { detectors: 4096, observables: 4, mechanisms: (0..16383).map(single).collect() };
    model.mechanisms.push(triple.clone());
    let full = model.decompose().unwrap();
    assert_eq!(full.mechanisms.len(), 16384);
    assert_eq!(full.mechanisms[16383], Mechanism::new(0.25, [1, 2], []));
    assert_eq!(full.compile().unwrap().edges(), 4097);
    // a second new mechanism is one too many
    model.mechanisms[16383].components.push(Component::new([2, 3], []));
    assert_eq!(model.decompose().unwrap_err().code, Code::Limit);
    model.mechanisms.push(single(0));
    assert_eq!(model.decompose().unwrap_err().code, Code::Limit);
    assert_eq!(model.compile().unwrap_err().code, Code::Limit);
}

#[test]
fn decomposition_over_stale_scratch() {
    for model in [covered(), suggested(), example()] {
        let mut call = Decomposing::of(&model);
        call.out = call.model.room();
        let mut stale = call.clone();
        fill_stale!(stale.scratch; starts, before, last_of, first_of, next_of, numbers, masks, words0, words1, earlier);
        let answer = call.run();
        for _ in 0..2 {
            assert_eq!(stale.run(), answer);
            assert_eq!(stale.out, call.out);
        }
    }
}

// ---- compiling

#[derive(Clone)]
struct Compiling {
    counts: [usize; 3],
    model: Tables,
    out: Graph,
    scratch: CompileScratch,
}

/// Two mechanisms of one edge and one of another, 65 observables.
fn compiled() -> Model {
    Model {
        detectors: 3,
        observables: 65,
        mechanisms: vec![Mechanism::new(0.25, [0], [64]), Mechanism::new(0.25, [1, 2], []), Mechanism::new(0.125, [0], [])],
    }
}

impl Compiling {
    fn of(model: &Model) -> Compiling {
        let counts = [model.detectors, model.observables, model.mechanisms.len()];
        let words = if model.observables < 1000 { model.observables.div_ceil(64) } else { 1 };
        let mut out = Graph {
            edge_u: vec![0; counts[2]],
            edge_v: vec![0; counts[2]],
            edge_weight: vec![0.0; counts[2]],
            edge_obs: vec![0; counts[2] * words],
            ..Graph::default()
        };
        fill_stale!(out; edge_u, edge_v, edge_weight, edge_obs);
        let scratch = CompileScratch::with_lengths(&raw::compile_lengths(counts[0], counts[2]));
        Compiling { counts, model: Tables::of(model), out, scratch }
    }

    fn run(&mut self) -> sys::Graph {
        raw::compile(self.counts, &self.model, &mut self.out, &mut self.scratch)
    }

    /// Refused so, with all output tables zero, as long as they are and longer.
    #[track_caller]
    fn refused(self, code: u32, first: usize) {
        let mut longer = self.clone();
        lengthen!(longer.out; edge_u, edge_v, edge_weight, edge_obs);
        let calls = if code == 2 { vec![self] } else { vec![self, longer] };
        for mut call in calls {
            assert_eq!(call.run(), sys::Graph { code, first, second: 0, edges: 0 });
            assert!(call.out.edge_u.iter().chain(&call.out.edge_v).all(|end| *end == 0));
            assert!(call.out.edge_weight.iter().all(|weight| weight.to_bits() == 0));
            assert!(call.out.edge_obs.iter().all(|word| *word == 0));
        }
    }
}

fn compiling(change: impl Fn(&mut Compiling)) -> Compiling {
    let mut call = Compiling::of(&compiled());
    change(&mut call);
    call
}

#[test]
fn compiled_into_exact_and_longer_tables() {
    let mut longer = compiling(|call| {
        lengthen!(call.out; edge_u, edge_v, edge_weight, edge_obs);
        lengthen!(call.scratch; edge_p, first, next);
        lengthen_tables(&mut call.model);
    });
    for call in [&mut compiling(|_| ()), &mut longer] {
        assert_eq!(call.run(), sys::Graph { code: 0, first: 0, second: 0, edges: 2 });
        assert_eq!(call.out.edge_u[..2], [0, 1]);
        assert_eq!(call.out.edge_v[..2], [pavrenni::BOUNDARY, 2]);
        assert_eq!(call.out.edge_weight[..2].iter().map(|w| w.to_bits()).collect::<Vec<_>>(), [0x3ff193ea7aad030a; 2]);
        assert_eq!(call.out.edge_obs[..4], [0, 1, 0, 0]);
        // past what was written, as before
        assert!(call.out.edge_u[2..].iter().chain(&call.out.edge_v[2..]).all(|end| *end == u32::STALE));
        assert!(call.out.edge_weight[2..].iter().all(|weight| weight.is_nan()));
        assert!(call.out.edge_obs[4..].iter().all(|word| *word == u64::STALE));
    }
}

#[test]
fn compiling_refuses_short_memory() {
    for (name, shorten) in one_short!(Tables: probability, detector_counts, observable_counts, component_counts, entries) {
        println!("{name}");
        compiling(|call| shorten(&mut call.model)).refused(2, 0);
    }
    for (name, shorten) in short_tables() {
        println!("{name}");
        compiling(|call| shorten(&mut call.out)).refused(2, 0);
    }
    for (name, shorten) in one_short!(CompileScratch: edge_p, first, next) {
        println!("{name}");
        compiling(|call| shorten(&mut call.scratch)).refused(2, 0);
    }
    for (name, shorten) in one_short!(Tables: component_detectors, component_observables) {
        println!("{name}");
        let mut call = Compiling::of(&covered());
        shorten(&mut call.model);
        call.refused(2, 0);
    }
    compiling(|call| call.model = Tables::default()).refused(2, 0);
    compiling(|call| call.out = Graph::default()).refused(2, 0);
    compiling(|call| call.scratch = CompileScratch::default()).refused(2, 0);
}

#[test]
fn compiling_refuses_models() {
    for (model, code, at) in refused_models() {
        Compiling::of(&model).refused(code, at);
    }
    compiling(|call| call.counts[2] = 16385).refused(1, 0);
    compiling(|call| call.counts[2] = usize::MAX).refused(1, 0);
    // 7, unless its probability is zero
    Compiling::of(&covered()).refused(7, 2);
    let mut model = covered();
    model.mechanisms[2].probability = -0.0;
    assert_eq!(model.compile().unwrap().edges(), 2);
    // per mechanism in order: 7 of the first before 5 of the second
    model.mechanisms = vec![Mechanism::new(0.25, [0, 1, 2], []), Mechanism::new(0.25, [1, 1], [])];
    Compiling::of(&model).refused(7, 0);
}

#[test]
fn compiling_over_stale_scratch() {
    let mut call = compiling(|_| ());
    let mut stale = call.clone();
    fill_stale!(stale.scratch; edge_p, first, next);
    let answer = call.run();
    for _ in 0..2 {
        assert_eq!(stale.run(), answer);
        assert_eq!((&stale.out.edge_u, &stale.out.edge_v, &stale.out.edge_obs), (&call.out.edge_u, &call.out.edge_v, &call.out.edge_obs));
    }
}

// ---- models

#[test]
fn models_are_refused_with_their_mechanism() {
    for (model, code, at) in refused_models() {
        let at = if code == 1 { None } else { Some(Item::Mechanism(at)) };
        assert_eq!(refused_with(model.decompose()), (Code::of(code), at, None, None));
        assert_eq!(refused_with(model.compile()), (Code::of(code), at, None, None));
    }
}

#[test]
fn lists_past_a_byte() {
    let refused = |model: &Model| {
        let (decomposed, compiled) = (model.decompose().unwrap_err(), model.compile().unwrap_err());
        assert_eq!(decomposed, compiled);
        (compiled.code, compiled.at)
    };
    let at = |mechanism| Some(Item::Mechanism(mechanism));
    for entries in [17, 255, 256, 257, 272, 300, 512, 4096] {
        let list: Vec<u32> = (0..entries).collect();
        let mut model =
            Model { detectors: 4096, observables: 128, mechanisms: vec![Mechanism::new(0.25, [0], []), Mechanism::new(0.25, &*list, [])] };
        assert_eq!(refused(&model), (Code::Index, at(1)), "{entries} detectors");
        // before 4 of the same mechanism, after a refusal of an earlier one
        model.mechanisms[1].probability = 2.0;
        assert_eq!(refused(&model), (Code::Index, at(1)));
        model.mechanisms[0].probability = 2.0;
        assert_eq!(refused(&model), (Code::Probability, at(0)));
        // the other lists
        model.mechanisms = vec![Mechanism::new(0.25, [], &*list), Mechanism::new(2.0, [], [])];
        assert_eq!(refused(&model), (Code::Index, at(0)), "{entries} observables");
        model.mechanisms[0] = Mechanism::new(0.25, [0], []).with_components([Component::new(&*list, [])]);
        assert_eq!(refused(&model), (Code::Index, at(0)), "a component of {entries} detectors");
        model.mechanisms[0].components = vec![Component::new([], &*list)];
        assert_eq!(refused(&model), (Code::Index, at(0)), "a component of {entries} observables");
        model.mechanisms[0].components = vec![Component::new([0], []); entries as usize];
        assert_eq!(refused(&model), (Code::Index, at(0)), "{entries} components");
        // limits come first
        model.detectors = 4097;
        assert_eq!(refused(&model), (Code::Limit, None));
    }
}

#[test]
fn tables_read_back() {
    for model in [covered(), suggested(), example(), compiled(), Model::default()] {
        let tables = Tables::of(&model);
        assert_eq!(tables.mechanisms(model.mechanisms.len()).as_ref(), Some(&model.mechanisms));
        assert_eq!(tables.mechanisms(model.mechanisms.len() + 1), None);
        assert_eq!(tables.mechanisms(usize::MAX), None);
    }
    // with an entry missing anywhere they are not held
    for (name, shorten) in short_model_tables() {
        let mut tables = Tables::of(&covered());
        shorten(&mut tables);
        assert_eq!(tables.mechanisms(3), None, "{name}");
    }
}

#[test]
fn models_are_written_down() {
    let built = Model::new(3, 1)
        .with_mechanisms([Mechanism::new(0.25, [0], [0]).with_components([Component::new([0], [0])])])
        .with_mechanisms([Mechanism::new(0.25, [1, 2], []), Mechanism::new(0.25, vec![0, 1, 2], vec![0])]);
    assert_eq!(built, covered());
    let more = built.mechanisms[0].clone().with_components([Component::new([], [])]);
    assert_eq!(more.components, [Component { detectors: vec![0], observables: vec![0] }, Component::default()]);
    assert_eq!(Model::new(0, 0), Model::default());
}
