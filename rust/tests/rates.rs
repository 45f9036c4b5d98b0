//! The rate: its value, every refusal in its order, and the rows that are left.

mod common;

use common::*;
use pavrenni::raw::{self, Scratch};
use pavrenni::{sys, Code, Decoder, Graph, Item, Packed, MAX_SHOTS};

/// A call with all its memory.
#[derive(Clone)]
struct Call {
    graph: Graph,
    edges: usize,
    rows: Vec<u64>,
    shots: usize,
    width: usize,
    truth: Vec<u64>,
    true_shots: usize,
    true_width: usize,
    out: Vec<u64>,
    list: Vec<u32>,
    scratch: Scratch,
}

/// The rows of the four shots, and words past them.
const ROWS: [u64; 11] = [1, 1, 8, 0, 0, 0, 9, 1, UNTOUCHED, UNTOUCHED, UNTOUCHED];
const STUCK: u64 = 0b100;

impl Call {
    /// Four shots of `islands`, the second of which differs in two observables.
    fn example() -> Call {
        let graph = islands();
        let scratch = scratch_for(&graph);
        Call {
            graph,
            edges: 2,
            rows: vec![0b001, 0b110, 0b000, 0b111],
            shots: 4,
            width: 3,
            truth: vec![1, 1, 3, 0, 0, 0, 9, 1],
            true_shots: 4,
            true_width: 65,
            out: vec![UNTOUCHED; 11],
            list: vec![0; 3],
            scratch,
        }
    }

    fn run(&mut self) -> sys::Rate {
        let shots = Packed { words: &self.rows, shots: self.shots, width: self.width };
        let truth = Packed { words: &self.truth, shots: self.true_shots, width: self.true_width };
        raw::rate(&self.graph, self.edges, shots, truth, &mut self.out, &mut self.list, &mut self.scratch)
    }

    #[track_caller]
    fn rated(mut self, rate: f64) -> Vec<u64> {
        let answer = self.run();
        assert_eq!((answer.code, answer.first, answer.second), (0, 0, 0));
        assert_eq!(answer.rate.to_bits(), rate.to_bits());
        self.out
    }

    /// Refused so; hands back the output.
    #[track_caller]
    fn refused_with(mut self, code: u32, first: usize, second: usize) -> Vec<u64> {
        let answer = self.run();
        assert_eq!((answer.code, answer.first, answer.second), (code, first, second));
        self.out
    }

    /// Refused so, with the output untouched.
    #[track_caller]
    fn refused(self, code: u32, first: usize) {
        assert!(self.refused_with(code, first, 0).iter().all(|word| *word == UNTOUCHED), "the output was touched");
    }
}

fn changed(change: impl Fn(&mut Call)) -> Call {
    let mut call = Call::example();
    change(&mut call);
    call
}

#[test]
fn rates() {
    assert_eq!(Call::example().rated(0.25), ROWS);
    assert_eq!(changed(|call| call.truth[2] = 8).rated(0.0), ROWS);
    assert_eq!(changed(|call| call.truth = vec![0, 1, 8, 1, 0, 0, 9, 1]).rated(0.5), ROWS);
    assert_eq!(changed(|call| call.truth = vec![0, 0, 0, 0, 1, 0, 0, 0]).rated(1.0), ROWS);
    // rounded once
    let thirds = changed(|call| {
        call.rows.pop();
        call.truth.truncate(6);
        (call.shots, call.true_shots) = (3, 3);
    });
    assert_eq!(thirds.rated(1.0 / 3.0)[6..], [UNTOUCHED; 5]);
}

#[test]
fn nothing_to_count() {
    let none = |call: &mut Call| (call.shots, call.true_shots, call.rows, call.truth) = (0, 0, vec![], vec![]);
    assert_eq!(changed(none).rated(0.0), [UNTOUCHED; 11]);
    let blind = |call: &mut Call| (call.graph.observables, call.graph.edge_obs, call.true_width, call.truth) = (0, vec![], 0, vec![]);
    assert_eq!(changed(blind).rated(0.0), [UNTOUCHED; 11]);
    // looked at last: the width, a Stuck shot and the shape come before
    changed(|call| {
        none(call);
        call.width = 4;
    })
    .refused(10, 0);
    changed(|call| {
        none(call);
        call.true_width = 64;
    })
    .refused(12, 0);
    changed(|call| {
        blind(call);
        call.rows[2] = STUCK;
    })
    .refused_with(11, 2, 1);
}

#[test]
fn short_memory() {
    changed(|call| call.out.truncate(7)).refused(2, 0);
    changed(|call| call.out.clear()).refused(2, 0);
    changed(|call| call.list.truncate(2)).refused(2, 0);
    for (name, shorten) in short_scratch() {
        println!("{name}");
        changed(|call| shorten(&mut call.scratch)).refused(2, 0);
    }
    for (name, shorten) in short_tables() {
        println!("{name}");
        changed(|call| shorten(&mut call.graph)).refused(2, 0);
    }
    // exactly long, and longer
    assert_eq!(changed(|call| call.out.truncate(8)).rated(0.25), ROWS[..8]);
    let longer = changed(|call| {
        lengthen_scratch(&mut call.scratch);
        lengthen!(call.graph; edge_u, edge_v, edge_weight, edge_obs);
        call.list.push(0);
    });
    assert_eq!(longer.rated(0.25), ROWS);
}

#[test]
fn refused_lent_graphs() {
    for (graph, code, edge) in refused_graphs() {
        changed(|call| call.graph = graph.clone()).refused(code, edge);
    }
    changed(|call| call.edges = 16385).refused(1, 0);
}

#[test]
fn refused_packings() {
    // 1, of either
    changed(|call| call.shots = MAX_SHOTS + 1).refused(1, 0);
    changed(|call| call.shots = usize::MAX).refused(1, 0);
    changed(|call| call.true_shots = MAX_SHOTS + 1).refused(1, 0);
    // 8
    changed(|call| call.rows.truncate(3)).refused(8, 0);
    changed(|call| call.rows.push(0)).refused(8, 0);
    changed(|call| call.width = usize::MAX).refused(8, 0);
    changed(|call| call.truth.truncate(7)).refused(8, 0);
    changed(|call| call.truth.push(0)).refused(8, 0);
    changed(|call| call.truth.clear()).refused(8, 0);
    changed(|call| call.true_width = usize::MAX).refused(8, 0);
    changed(|call| call.true_shots = MAX_SHOTS).refused(8, 0);
    changed(|call| (call.true_shots, call.true_width, call.truth) = (MAX_SHOTS, usize::MAX, vec![])).refused(8, 0);
    // 9, with its shot
    changed(|call| call.rows[2] = 8).refused(9, 2);
    changed(|call| call.truth[3] = 2).refused(9, 1);
    changed(|call| (call.truth[5], call.truth[7]) = (1 << 63, 2)).refused(9, 2);
    // the detectors' 8 and 9 before the observables', and both before the width
    changed(|call| (call.rows[3], call.truth[1]) = (8, 2)).refused(9, 3);
    changed(|call| {
        call.rows[3] = 8;
        call.truth.clear();
    })
    .refused(9, 3);
    changed(|call| (call.width, call.truth[1]) = (4, 2)).refused(9, 0);
    changed(|call| {
        call.width = 4;
        call.truth.clear();
    })
    .refused(8, 0);
    // 10, before decoding and before the shape
    changed(|call| call.width = 4).refused(10, 0);
    changed(|call| (call.width, call.rows[0]) = (4, STUCK)).refused(10, 0);
    changed(|call| (call.width, call.true_width) = (4, 66)).refused(10, 0);
}

#[test]
fn refused_shapes() {
    // 12: shots or width of the true observables; the rows are done
    let fewer = changed(|call| {
        call.true_shots = 3;
        call.truth.truncate(6);
    });
    assert_eq!(fewer.refused_with(12, 0, 0), ROWS);
    let more = changed(|call| {
        call.true_shots = 5;
        call.truth.extend([0, 0]);
    });
    assert_eq!(more.refused_with(12, 0, 0), ROWS);
    assert_eq!(changed(|call| call.true_width = 66).refused_with(12, 0, 0), ROWS);
    assert_eq!(changed(|call| (call.true_width, call.truth) = (64, vec![0; 4])).refused_with(12, 0, 0), ROWS);
    assert_eq!(changed(|call| (call.true_width, call.truth) = (0, vec![])).refused_with(12, 0, 0), ROWS);
}

#[test]
fn stuck_first_middle_and_last() {
    for stuck in [0, 2, 3] {
        let wrong_shape = changed(|call| {
            call.rows[stuck] = STUCK;
            call.true_width = 66;
        });
        for call in [changed(|call| call.rows[stuck] = STUCK), wrong_shape] {
            let out = call.refused_with(11, stuck, 1);
            assert_eq!(out[..2 * stuck], ROWS[..2 * stuck]);
            assert_eq!(out[2 * stuck..2 * stuck + 2], [0, 0]);
            assert!(out[2 * stuck + 2..].iter().all(|word| *word == UNTOUCHED));
        }
    }
}

#[test]
fn stale_scratch() {
    let mut stale = changed(|call| {
        fill_scratch(&mut call.scratch);
        call.list.fill(u32::STALE);
    });
    assert_eq!(stale.run().rate, 0.25);
    assert_eq!(stale.run().rate, 0.25);
    assert_eq!(stale.out, ROWS);
}

#[test]
fn rates_of_the_decoder() {
    let graph = islands();
    let mut decoder = Decoder::new(&graph);
    let shots = Packed { words: &[0b001, 0b110], shots: 2, width: 3 };
    let truth = Packed { words: &[1, 1, 0, 0], shots: 2, width: 65 };
    let answer = decoder.rate(&graph, shots, truth).unwrap();
    assert_eq!((answer.rate, answer.rows), (0.5, vec![1, 1, 8, 0]));
    assert_eq!(decoder.rate_into(&graph, shots, truth, &mut [0; 3]).unwrap_err().code, Code::Short);
    let mut rows = [UNTOUCHED; 5];
    assert_eq!(decoder.rate_into(&graph, shots, Packed { width: 66, ..truth }, &mut rows).unwrap_err().code, Code::Shape);
    assert_eq!(rows, [1, 1, 8, 0, UNTOUCHED]);
    let stuck = decoder.rate(&graph, Packed { words: &[0b001, STUCK], ..shots }, truth).unwrap_err();
    assert_eq!((stuck.code, stuck.at, stuck.detector), (Code::Stuck, Some(Item::Shot(1)), Some(1)));
    assert_eq!(decoder.rate(&graph, Packed { shots: usize::MAX, ..shots }, truth).unwrap_err().code, Code::Limit);
}
