//! Batches: every refusal, every slice short, exact and longer, and each word that a call leaves.

mod common;

use common::*;
use pavrenni::raw::{self, Scratch};
use pavrenni::{mark, sys, Code, Decoder, Graph, Item, Marking, Packed, MAX_SHOTS};

/// A call with all its memory.
#[derive(Clone)]
struct Call {
    graph: Graph,
    edges: usize,
    rows: Vec<u64>,
    shots: usize,
    width: usize,
    out: Vec<u64>,
    list: Vec<u32>,
    scratch: Scratch,
}

/// Shots of `islands` and the rows they give.
const NOTHING: (u64, [u64; 2]) = (0b000, [0, 0]);
const END: (u64, [u64; 2]) = (0b001, [1, 1]);
const PAIR: (u64, [u64; 2]) = (0b110, [8, 0]);
const ALL: (u64, [u64; 2]) = (0b111, [9, 1]);
/// Stuck, naming detector 1.
const STUCK: u64 = 0b100;

impl Call {
    /// Four shots of `islands`.
    fn example() -> Call {
        let graph = islands();
        let scratch = scratch_for(&graph);
        let rows = vec![END.0, PAIR.0, NOTHING.0, ALL.0];
        Call { graph, edges: 2, rows, shots: 4, width: 3, out: vec![UNTOUCHED; 8], list: vec![0; 3], scratch }
    }

    fn run(&mut self) -> sys::Batch {
        let shots = Packed { words: &self.rows, shots: self.shots, width: self.width };
        raw::decode_batch(&self.graph, self.edges, shots, &mut self.out, &mut self.list, &mut self.scratch)
    }

    /// Refused so, with the output untouched.
    #[track_caller]
    fn refused(mut self, code: u32, first: usize) {
        assert_eq!(self.run(), sys::Batch { code, first, second: 0 });
        assert!(self.out.iter().all(|word| *word == UNTOUCHED), "the output was touched");
    }
}

fn changed(change: impl Fn(&mut Call)) -> Call {
    let mut call = Call::example();
    change(&mut call);
    call
}

const DONE: sys::Batch = sys::Batch { code: 0, first: 0, second: 0 };

#[test]
fn exact_memory() {
    let mut call = Call::example();
    assert_eq!(call.run(), DONE);
    assert_eq!(call.out, [1, 1, 8, 0, 0, 0, 9, 1]);
}

#[test]
fn longer_memory() {
    let mut call = changed(|call| {
        call.out = vec![UNTOUCHED; 13];
        call.list = vec![0; 9];
        lengthen_scratch(&mut call.scratch);
        lengthen!(call.graph; edge_u, edge_v, edge_weight, edge_obs);
    });
    assert_eq!(call.run(), DONE);
    assert_eq!(call.out[..8], [1, 1, 8, 0, 0, 0, 9, 1]);
    assert_eq!(call.out[8..], [UNTOUCHED; 5]);
}

#[test]
fn short_memory() {
    changed(|call| call.out.truncate(7)).refused(2, 0);
    changed(|call| call.out.clear()).refused(2, 0);
    changed(|call| call.list.truncate(2)).refused(2, 0);
    changed(|call| call.list.clear()).refused(2, 0);
    for (name, shorten) in short_scratch() {
        println!("{name}");
        changed(|call| shorten(&mut call.scratch)).refused(2, 0);
    }
    changed(|call| call.scratch = Scratch::default()).refused(2, 0);
    for (name, shorten) in short_tables() {
        println!("{name}");
        changed(|call| shorten(&mut call.graph)).refused(2, 0);
    }
    // more shots than the output has rows for, whatever the data
    changed(|call| call.shots = 5).refused(2, 0);
    changed(|call| call.shots = MAX_SHOTS).refused(2, 0);
}

#[test]
fn refused_lent_graphs() {
    for (graph, code, edge) in refused_graphs() {
        changed(|call| {
            call.graph = graph.clone();
            call.width = 2;
        })
        .refused(code, edge);
    }
    changed(|call| call.edges = 16385).refused(1, 0);
    changed(|call| call.edges = 3).refused(2, 0);
}

#[test]
fn refused_shots() {
    // 8, the product over whole numbers
    changed(|call| call.rows.truncate(3)).refused(8, 0);
    changed(|call| call.rows.push(0)).refused(8, 0);
    changed(|call| call.rows.clear()).refused(8, 0);
    changed(|call| call.width = 65).refused(8, 0);
    changed(|call| call.width = usize::MAX).refused(8, 0);
    changed(|call| (call.width, call.rows) = (0, vec![0])).refused(8, 0);
    // 9 with the lowest shot, before 10
    changed(|call| call.rows[0] = 8).refused(9, 0);
    changed(|call| (call.rows[1], call.rows[3]) = (1 << 63, 8)).refused(9, 1);
    changed(|call| call.rows[3] = 8).refused(9, 3);
    changed(|call| call.width = 2).refused(9, 1);
    // 10
    changed(|call| call.width = 4).refused(10, 0);
    changed(|call| call.width = 64).refused(10, 0);
    changed(|call| (call.width, call.rows) = (0, vec![])).refused(10, 0);
    changed(|call| (call.width, call.shots, call.rows) = (4, 0, vec![])).refused(10, 0);
    // the graph comes before the shots
    changed(|call| (call.graph.edge_weight[0], call.width) = (f64::NAN, usize::MAX)).refused(4, 0);
    // and all shots are looked at before one is decoded
    changed(|call| (call.rows[0], call.rows[3]) = (STUCK, 8)).refused(9, 3);
    changed(|call| (call.rows[0], call.width) = (STUCK, 4)).refused(10, 0);
}

#[test]
fn shots_at_the_limit() {
    // without observables no output is needed, so that the number of shots alone decides
    let none = |call: &mut Call| (call.graph.observables, call.graph.edge_obs) = (0, vec![]);
    let with = |shots, width| {
        changed(|call| {
            none(call);
            (call.shots, call.width, call.rows) = (shots, width, vec![]);
        })
    };
    with(MAX_SHOTS, 3).refused(8, 0);
    with(MAX_SHOTS + 1, 3).refused(1, 0);
    with(usize::MAX, 3).refused(1, 0);
    // 2^24 shots of 2^58 words: 0 words in 64 bits
    with(MAX_SHOTS, usize::MAX).refused(8, 0);
    with(MAX_SHOTS, 0).refused(10, 0);
    // 1 comes before 2
    changed(|call| {
        call.shots = MAX_SHOTS + 1;
        call.out.clear();
    })
    .refused(1, 0);
}

#[test]
fn no_shots() {
    let mut call = changed(|call| (call.shots, call.rows) = (0, vec![]));
    assert_eq!(call.run(), DONE);
    assert_eq!(call.out, [UNTOUCHED; 8]);
    call.out.clear();
    assert_eq!(call.run(), DONE);
}

#[test]
fn stuck_first_middle_and_last() {
    let shots = [END, PAIR, ALL, END, PAIR];
    for stuck in [0, 2, 4] {
        let mut call = changed(|call| {
            call.rows = shots.iter().map(|shot| shot.0).collect();
            call.rows[stuck] = STUCK;
            call.shots = 5;
            call.out = vec![UNTOUCHED; 13];
        });
        assert_eq!(call.run(), sys::Batch { code: 11, first: stuck, second: 1 });
        for (s, shot) in shots.iter().enumerate() {
            let row = &call.out[2 * s..2 * s + 2];
            match s.cmp(&stuck) {
                std::cmp::Ordering::Less => assert_eq!(row, shot.1, "an earlier row is done"),
                std::cmp::Ordering::Equal => assert_eq!(row, [0, 0], "this row is zero"),
                std::cmp::Ordering::Greater => assert_eq!(row, [UNTOUCHED; 2], "a later row is untouched"),
            }
        }
        assert_eq!(call.out[10..], [UNTOUCHED; 3], "words past the last row are untouched");
    }
    // the first of two decides
    let mut call = changed(|call| (call.rows[1], call.rows[3]) = (0b010, STUCK));
    assert_eq!(call.run(), sys::Batch { code: 11, first: 1, second: 1 });
    assert_eq!(call.out, [1, 1, 0, 0, UNTOUCHED, UNTOUCHED, UNTOUCHED, UNTOUCHED]);
}

#[test]
fn stale_scratch() {
    let mut stale = changed(|call| {
        fill_scratch(&mut call.scratch);
        call.list.fill(u32::STALE);
    });
    for _ in 0..2 {
        stale.out.fill(UNTOUCHED);
        assert_eq!(stale.run(), DONE);
        assert_eq!(stale.out, [1, 1, 8, 0, 0, 0, 9, 1]);
    }
    // a Stuck shot leaves nothing for the next call
    let rows = stale.rows.clone();
    stale.rows[2] = STUCK;
    assert_eq!(stale.run().code, 11);
    stale.rows = rows;
    assert_eq!(stale.run(), DONE);
    assert_eq!(stale.out, [1, 1, 8, 0, 0, 0, 9, 1]);
}

#[test]
fn each_row_is_its_shot_alone() {
    for graph in [line(1, 1), line(63, 64), line(64, 65), line(130, 128)] {
        let mut numbers = Numbers(graph.detectors as u64);
        let words = graph.observables.div_ceil(64);
        let shots: Vec<Vec<u64>> = (0..40).map(|_| numbers.row(graph.detectors)).collect();
        let rows = shots.concat();
        let mut decoder = Decoder::new(&graph);
        let out = decoder.decode_batch(&graph, Packed { words: &rows, shots: 40, width: graph.detectors }).unwrap();
        for (s, shot) in shots.iter().enumerate() {
            let mut row = vec![0; words];
            let list = decoder.decode_shot(&graph, shot, graph.detectors, &mut row).unwrap().list.to_vec();
            assert_eq!(row, out[s * words..(s + 1) * words]);
            let mut marked = vec![UNTOUCHED; words];
            assert_eq!(mark(&graph, shot, graph.detectors, &list, &mut marked), Ok(Marking::Pass));
            assert_eq!(marked, row);
        }
    }
}

#[test]
fn errors_of_the_decoder() {
    let graph = islands();
    let mut decoder = Decoder::new(&graph);
    let mut refused =
        |graph: &Graph, words: &[u64], shots, width| refused_with(decoder.decode_batch(graph, Packed::new(words, shots, width)));
    assert_eq!(refused(&graph, &[END.0, STUCK], 2, 3), (Code::Stuck, Some(Item::Shot(1)), Some(1), None));
    assert_eq!(refused(&graph, &[END.0, 8], 2, 3), (Code::Padding, Some(Item::Shot(1)), None, None));
    assert_eq!(refused(&graph, &[], 2, 3), (Code::Length, None, None, None));
    assert_eq!(refused(&graph, &[END.0], 1, 4), (Code::Width, None, None, None));
    assert_eq!(refused(&graph, &[], MAX_SHOTS + 1, 3), (Code::Limit, None, None, None));
    assert_eq!(refused(&graph, &[], usize::MAX, usize::MAX), (Code::Limit, None, None, None));
    assert_eq!(refused(&Graph { observables: usize::MAX, ..graph.clone() }, &[0], 1, 3), (Code::Limit, None, None, None));
    assert_eq!(refused(&Graph { edge_u: vec![0, 3], ..graph.clone() }, &[0], 1, 3), (Code::Index, Some(Item::Edge(1)), None, None));
}
