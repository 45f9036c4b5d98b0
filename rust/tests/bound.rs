//! The decoder that keeps its graph answers as the one that is lent it.

mod common;

use common::*;
use pavrenni::{mark, BoundDecoder, Decoder, Graph, Packed};

/// The answers of both to the same calls, on this graph with these shots and true observables.
fn same_answers(graph: &Graph, words: &[u64], shots: usize, width: usize, truth: Packed) {
    let (mut lent, mut bound) = (Decoder::new(graph), graph.decoder());
    assert!(std::ptr::eq(bound.graph(), graph));
    let shots = Packed::new(words, shots, width);
    assert_eq!(bound.decode_batch(shots), lent.decode_batch(graph, shots));
    assert_eq!(bound.rate(shots, truth), lent.rate(graph, shots, truth));
    // with what is left in memory, whether there is too much or too little of it
    for length in [0, 3, 100] {
        let (mut left, mut right) = (vec![UNTOUCHED; length], vec![UNTOUCHED; length]);
        assert_eq!(bound.decode_batch_into(shots, &mut left), lent.decode_batch_into(graph, shots, &mut right));
        assert_eq!(left, right);
        assert_eq!(bound.rate_into(shots, truth, &mut left), lent.rate_into(graph, shots, truth, &mut right));
        assert_eq!(left, right);
    }
    for shot in words.chunks_exact(width.div_ceil(64).max(1)) {
        let (mut left, mut right) = ([UNTOUCHED; 2], [UNTOUCHED; 2]);
        let decoded = lent.decode_shot(graph, shot, width, &mut right);
        assert_eq!(bound.decode_shot(shot, width, &mut left), decoded);
        assert_eq!(left, right);
        let list = decoded.map_or(vec![0], |decoded| decoded.list.to_vec());
        for list in [&list[..], &[0, 0], &[u32::MAX], &[]] {
            assert_eq!(bound.mark(shot, width, list, &mut left), mark(graph, shot, width, list, &mut right));
            assert_eq!(left, right);
        }
    }
}

#[test]
fn answers_of_both() {
    let mut numbers = Numbers(5);
    for graph in [example_graph(), pair_graph(), islands(), line(70, 65), line(64, 128)] {
        let width = graph.detectors;
        let words: Vec<u64> = (0..20).flat_map(|_| numbers.row(width)).collect();
        let truth: Vec<u64> = (0..20).flat_map(|_| numbers.row(graph.observables)).collect();
        let packed = Packed::new(&truth, 20, graph.observables);
        same_answers(&graph, &words, 20, width, packed);
        // refusals: the length, the padding, the width, the shape
        same_answers(&graph, &words, 21, width, packed);
        same_answers(&graph, &words, 20, width - 1, packed);
        same_answers(&graph, &words, 20, width + 1, packed);
        same_answers(&graph, &words, 20, width, Packed { shots: 19, ..packed });
        same_answers(&graph, &words, 20, width, Packed { width: graph.observables + 1, ..packed });
    }
}

#[test]
fn refused_lent_graphs() {
    for (graph, ..) in refused_graphs() {
        same_answers(&graph, &[2, 1], 2, 2, Packed::new(&[1, 1], 2, 1));
    }
}

#[test]
fn two_on_one_graph() {
    // the graph is lent to both, and each has memory of its own
    let graph = example_graph();
    let (mut first, mut second) = (graph.decoder(), BoundDecoder::new(&graph));
    let (mut one, mut other) = ([0], [0]);
    let (a, b) = (first.decode_shot(&[2], 2, &mut one).unwrap(), second.decode_shot(&[3], 2, &mut other).unwrap());
    assert_eq!((a.list, b.list, one, other), (&[1, 0][..], &[1][..], [1], [0]));
}
