//! The rules of docs/RULES.md, case by case, and the limits.

mod common;

use common::*;
use pavrenni::{mark, Code, Component, Decoder, Item, Marking, Mechanism, Model, BOUNDARY};

#[test]
fn example_shots() {
    let graph = example_graph();
    let mut decoder = Decoder::new(&graph);
    for (word, list, row, rounds) in [(0b00, vec![], 0, 0), (0b01, vec![0], 1, 1), (0b10, vec![1, 0], 1, 2), (0b11, vec![1], 0, 1)] {
        let mut out = [0];
        let shot = decoder.decode_shot(&graph, &[word], 2, &mut out).unwrap();
        assert_eq!((shot.list, out[0], shot.rounds), (list.as_slice(), row, rounds), "shot {word:b}");
        let mut marked = [UNTOUCHED];
        assert_eq!(mark(&graph, &[word], 2, &list, &mut marked), Ok(Marking::Pass));
        assert_eq!(marked, [row]);
    }
}

#[test]
fn pair_edge_alone() {
    let graph = pair_graph();
    let mut decoder = Decoder::new(&graph);
    let mut row = [0];
    let stuck = decoder.decode_shot(&graph, &[0b10], 2, &mut row).unwrap_err();
    assert_eq!((stuck.code, stuck.at, stuck.detector, stuck.rounds), (Code::Stuck, Some(Item::Shot(0)), Some(0), Some(1)));
    let both = decoder.decode_shot(&graph, &[0b11], 2, &mut row).unwrap();
    assert_eq!((both.list, both.rounds), (&[0][..], 1));
}

#[test]
fn weights() {
    let graph = example_graph();
    assert_eq!(graph.edge_weight.iter().map(|w| w.to_bits()).collect::<Vec<_>>(), [0x3ff193ea7aad030a; 2]);
    let weight = |p| Model { detectors: 1, observables: 0, mechanisms: vec![Mechanism::new(p, [0], [])] }.compile().unwrap().edge_weight;
    assert_eq!(weight(0.5), [0.0]);
    assert_eq!(weight(0.75), [0.0]);
    assert_eq!(weight(f64::from_bits(1)), [f64::INFINITY]);
    assert_eq!(weight(0.0), []);
    assert_eq!(weight(-0.0), []);
}

#[test]
fn shared_edges() {
    let compile = |first, second| {
        let mechanisms = vec![Mechanism::new(first, [0, 1], [0]), Mechanism::new(second, [0, 1], [1])];
        Model { detectors: 2, observables: 2, mechanisms }.compile().unwrap()
    };
    // equal probabilities keep the first observables, a greater one replaces them
    assert_eq!(compile(0.25, 0.25).edge_obs, [1]);
    assert_eq!(compile(0.25, 0.125).edge_obs, [1]);
    let replaced = compile(0.125, 0.25);
    assert_eq!((replaced.edge_u, replaced.edge_v, replaced.edge_obs), (vec![0], vec![1], vec![2]));
    assert_eq!(replaced.edge_weight[0].to_bits(), 0x3ff193ea7aad030a);
}

#[test]
fn compiling_skips() {
    // no detectors, probability 0 with three detectors
    let mechanisms = vec![Mechanism::new(0.25, [], [0]), Mechanism::new(0.0, [0, 1, 2], []), Mechanism::new(0.25, [2], [])];
    let graph = Model { detectors: 3, observables: 1, mechanisms }.compile().unwrap();
    assert_eq!((graph.edge_u, graph.edge_v, graph.edge_obs), (vec![2], vec![BOUNDARY], vec![0]));
}

#[test]
fn decomposing() {
    // 0.25 added to 0.25 is 0.375, by a cover
    let mut model = Model {
        detectors: 3,
        observables: 1,
        mechanisms: vec![Mechanism::new(0.25, [0], [0]), Mechanism::new(0.25, [1, 2], []), Mechanism::new(0.25, [0, 1, 2], [0])],
    };
    let covered = model.decompose().unwrap();
    assert_eq!(covered.mechanisms, [Mechanism::new(0.375, [0], [0]), Mechanism::new(0.375, [1, 2], [])]);
    assert_eq!((covered.detectors, covered.observables), (3, 1));

    // a suggestion goes to the last of two duplicates, or to a new mechanism; what is kept keeps its components
    model.mechanisms[1] = Mechanism::new(0.125, [0], [0]);
    model.mechanisms[1].components = vec![Component::new([0], []), Component::new([], [0])];
    model.mechanisms[2].components = vec![Component::new([0], [0]), Component::new([1, 2], [])];
    let split = model.decompose().unwrap();
    assert_eq!(split.mechanisms[0], Mechanism::new(0.25, [0], [0]));
    assert_eq!(split.mechanisms[1].probability, 0.125 * 0.75 + 0.25 * 0.875);
    assert_eq!(split.mechanisms[1].components, model.mechanisms[1].components);
    assert_eq!(split.mechanisms[2], Mechanism::new(0.25, [1, 2], []));
    assert_eq!(split.mechanisms.len(), 3);

    // the empty model
    assert_eq!(Model::default().decompose(), Ok(Model::default()));
    assert_eq!(Model::default().compile().unwrap().edges(), 0);
}

#[test]
fn limits() {
    let detectors =
        |detectors| Model { detectors, observables: 128, mechanisms: vec![Mechanism::new(0.25, [detectors as u32 - 1], [127])] };
    let graph = detectors(4096).decompose().unwrap().compile().unwrap();
    let mut shot = vec![0; 64];
    shot[63] = 1 << 63;
    let mut row = [0; 2];
    assert_eq!(Decoder::new(&graph).decode_shot(&graph, &shot, 4096, &mut row).unwrap().list, [0]);
    assert_eq!(row, [0, 1 << 63]);
    assert_eq!(detectors(4097).decompose().unwrap_err().code, Code::Limit);
    assert_eq!(detectors(4097).compile().unwrap_err().code, Code::Limit);

    let list =
        |entries| Model { detectors: 20, observables: 0, mechanisms: vec![Mechanism::new(0.0, (0..entries).collect::<Vec<_>>(), [])] };
    assert_eq!(list(16).compile().unwrap().edges(), 0);
    let long = list(17).compile().unwrap_err();
    assert_eq!((long.code, long.at), (Code::Index, Some(Item::Mechanism(0))));

    let graph = example_graph();
    let padding = Decoder::new(&graph).decode_shot(&graph, &[4], 2, &mut [0]).unwrap_err();
    assert_eq!((padding.code, padding.at), (Code::Padding, Some(Item::Shot(0))));
}

#[test]
fn no_detectors() {
    let graph = Model { detectors: 0, observables: 1, mechanisms: vec![Mechanism::new(0.25, [], [0])] }.compile().unwrap();
    let mut row = [UNTOUCHED];
    let shot = Decoder::new(&graph).decode_shot(&graph, &[], 0, &mut row).map(|shot| (shot.rounds, shot.list.len()));
    assert_eq!((shot, row), (Ok((0, 0)), [UNTOUCHED]));
    assert_eq!(mark(&graph, &[], 0, &[], &mut row), Ok(Marking::Pass));
    assert_eq!(row, [0]);
}
