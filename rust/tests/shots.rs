//! One shot: every refusal, every slice short, exact and longer, and what memory holds after.

mod common;

use common::*;
use pavrenni::raw::{self, Scratch};
use pavrenni::{sys, Code, Decoder, Graph, Item, BOUNDARY};

/// A call with all its memory, on shot D1 of the example model.
#[derive(Clone)]
struct Call {
    graph: Graph,
    edges: usize,
    shot: Vec<u64>,
    width: usize,
    row: Vec<u64>,
    list: Vec<u32>,
    scratch: Scratch,
}

impl Call {
    fn example() -> Call {
        let graph = example_graph();
        let scratch = scratch_for(&graph);
        Call { graph, edges: 2, shot: vec![0b10], width: 2, row: vec![UNTOUCHED], list: vec![UNTOUCHED_ENTRY; 2], scratch }
    }

    fn run(&mut self) -> sys::Shot {
        raw::decode_shot(&self.graph, self.edges, &self.shot, self.width, &mut self.row, &mut self.list, &mut self.scratch)
    }

    /// Refused so, with row and list untouched; hands back the rounds.
    #[track_caller]
    fn refused(mut self, code: u32, first: usize, second: usize) -> u32 {
        let answer = self.run();
        assert_eq!((answer.code, answer.first, answer.second, answer.length), (code, first, second, 0));
        assert!(self.row.iter().all(|word| *word == UNTOUCHED), "the row was touched");
        assert!(self.list.iter().all(|edge| *edge == UNTOUCHED_ENTRY), "the list was touched");
        answer.rounds
    }
}

fn changed(change: impl Fn(&mut Call)) -> Call {
    let mut call = Call::example();
    change(&mut call);
    call
}

const DONE: sys::Shot = sys::Shot { code: 0, first: 0, second: 0, rounds: 2, length: 2 };

#[test]
fn exact_memory() {
    let mut call = Call::example();
    assert_eq!(call.run(), DONE);
    assert_eq!((call.row, call.list), (vec![UNTOUCHED ^ 1], vec![1, 0]));
}

#[test]
fn longer_memory() {
    let mut call = Call::example();
    call.row = vec![UNTOUCHED; 4];
    call.list = vec![UNTOUCHED_ENTRY; 5];
    lengthen_scratch(&mut call.scratch);
    lengthen!(call.graph; edge_u, edge_v, edge_weight, edge_obs);
    assert_eq!(call.run(), DONE);
    assert_eq!(call.row, [UNTOUCHED ^ 1, UNTOUCHED, UNTOUCHED, UNTOUCHED]);
    assert_eq!(call.list, [1, 0, UNTOUCHED_ENTRY, UNTOUCHED_ENTRY, UNTOUCHED_ENTRY]);
}

#[test]
fn shorter_list_leaves_the_rest() {
    let mut call = changed(|call| call.shot = vec![0b01]);
    assert_eq!(call.run(), sys::Shot { rounds: 1, length: 1, ..DONE });
    assert_eq!(call.list, [0, UNTOUCHED_ENTRY]);
}

#[test]
fn short_memory() {
    changed(|call| call.row.clear()).refused(2, 0, 0);
    changed(|call| call.list.truncate(1)).refused(2, 0, 0);
    changed(|call| call.list.clear()).refused(2, 0, 0);
    for (name, shorten) in short_scratch() {
        println!("{name}");
        changed(|call| shorten(&mut call.scratch)).refused(2, 0, 0);
    }
    changed(|call| call.scratch = Scratch::default()).refused(2, 0, 0);
    for (name, shorten) in short_tables() {
        println!("{name}");
        changed(|call| shorten(&mut call.graph)).refused(2, 0, 0);
    }
    changed(|call| call.graph = Graph { detectors: 2, observables: 1, ..Graph::default() }).refused(2, 0, 0);
}

#[test]
fn refused_lent_graphs() {
    for (graph, code, edge) in refused_graphs() {
        changed(|call| call.graph = graph.clone()).refused(code, edge, 0);
    }
    changed(|call| call.edges = 16385).refused(1, 0, 0);
    changed(|call| call.edges = usize::MAX).refused(1, 0, 0);
    changed(|call| call.edges = 3).refused(2, 0, 0);
}

#[test]
fn accepted_weights() {
    for weight in [0.0, -0.0, 5e-324, 1024.0, f64::INFINITY] {
        let mut call = changed(|call| call.graph.edge_weight = vec![weight; 2]);
        assert_eq!(call.run().code, 0, "weight {weight}");
    }
}

#[test]
fn refused_shots() {
    // 8: data shorter and longer than the width needs
    changed(|call| call.shot.clear()).refused(8, 0, 0);
    changed(|call| call.shot.push(0)).refused(8, 0, 0);
    changed(|call| call.width = 65).refused(8, 0, 0);
    changed(|call| call.width = 0).refused(8, 0, 0);
    changed(|call| call.width = usize::MAX).refused(8, 0, 0);
    changed(|call| (call.width, call.shot) = (usize::MAX, vec![])).refused(8, 0, 0);
    // 9: a bit past the width, whatever the width
    changed(|call| call.shot = vec![4]).refused(9, 0, 0);
    changed(|call| call.shot = vec![1 << 63]).refused(9, 0, 0);
    changed(|call| call.width = 1).refused(9, 0, 0);
    // 10: data that fits another width
    changed(|call| call.width = 3).refused(10, 0, 0);
    changed(|call| call.width = 64).refused(10, 0, 0);
    changed(|call| (call.width, call.shot) = (0, vec![])).refused(10, 0, 0);
    changed(|call| (call.width, call.shot) = (1, vec![1])).refused(10, 0, 0);
    // the graph comes before the shot, 2 before the graph
    changed(|call| (call.graph.edge_weight[1], call.width) = (-1.0, usize::MAX)).refused(4, 1, 0);
    changed(|call| {
        call.graph.edge_weight[1] = -1.0;
        call.row.clear();
    })
    .refused(2, 0, 0);
}

#[test]
fn stuck() {
    let pair = |call: &mut Call| {
        call.graph = pair_graph();
        call.edges = 1;
    };
    assert_eq!(changed(pair).refused(11, 0, 0), 1);
    // before any round: detector 1 has no edge
    let alone = changed(|call| {
        pair(call);
        call.graph = Graph { edge_v: vec![BOUNDARY], ..pair_graph() };
    })
    .refused(11, 0, 1);
    assert_eq!(alone, 0);
}

#[test]
fn stale_scratch() {
    let mut numbers = Numbers(11);
    let graphs = [example_graph(), pair_graph(), islands(), line(70, 65), line(64, 128)];
    let (mut fresh, mut stale) = (scratch_for(&line(70, 65)), scratch_for(&line(70, 65)));
    fill_scratch(&mut stale);
    for turn in 0..200 {
        let graph = &graphs[turn % graphs.len()];
        let shot = numbers.row(graph.detectors);
        let decode = |scratch: &mut Scratch| {
            let (mut row, mut list) = ([UNTOUCHED; 3], [UNTOUCHED_ENTRY; 80]);
            let answer = raw::decode_shot(graph, graph.edges(), &shot, graph.detectors, &mut row, &mut list, scratch);
            (answer, row, list)
        };
        let first = decode(&mut stale);
        assert_eq!(first, decode(&mut stale), "the same call again");
        assert_eq!(first, decode(&mut fresh), "scratch that was never filled");
        if turn % 3 == 0 {
            fill_scratch(&mut stale);
        }
    }
}

#[test]
fn lengths_over_the_limits() {
    for (detectors, edges) in [(4097, 1), (1, 16385), (usize::MAX, usize::MAX)] {
        assert_eq!(Scratch::with_lengths(&raw::lengths(detectors, edges)), Scratch::default());
    }
}

#[test]
fn errors_of_the_decoder() {
    let graph = example_graph();
    let mut decoder = Decoder::new(&graph);
    let refused = |decoder: &mut Decoder, graph: &Graph, shot: &[u64], width, row: &mut [u64]| {
        refused_with(decoder.decode_shot(graph, shot, width, row))
    };
    assert_eq!(refused(&mut decoder, &graph, &[2], 2, &mut []), (Code::Short, None, None, None));
    assert_eq!(refused(&mut decoder, &graph, &[], 2, &mut [0]), (Code::Length, None, None, None));
    assert_eq!(refused(&mut decoder, &graph, &[4], 2, &mut [0]), (Code::Padding, Some(Item::Shot(0)), None, None));
    assert_eq!(refused(&mut decoder, &graph, &[2], 3, &mut [0]), (Code::Width, None, None, None));
    assert_eq!(refused(&mut decoder, &pair_graph(), &[2], 2, &mut [0]), (Code::Stuck, Some(Item::Shot(0)), Some(0), Some(1)));
    // a decoder that was made for a smaller graph
    assert_eq!(refused(&mut decoder, &line(3, 1), &[2], 3, &mut [0]), (Code::Short, None, None, None));
    // an entry missing in a table of a graph is no edge fewer
    for (_, shorten) in short_tables() {
        let mut short = graph.clone();
        shorten(&mut short);
        assert_eq!(refused(&mut decoder, &short, &[2], 2, &mut [0]), (Code::Short, None, None, None));
    }
    for (graph, code, edge) in refused_graphs() {
        let at = if code == 4 || code == 5 { Some(Item::Edge(edge)) } else { None };
        let mut decoder = Decoder::new(&graph);
        assert_eq!(refused(&mut decoder, &graph, &[2], 2, &mut [0]), (Code::of(code), at, None, None));
    }
}

#[test]
fn texts() {
    let graph = pair_graph();
    let mut decoder = Decoder::new(&graph);
    let text = |result: Result<pavrenni::Shot, pavrenni::Error>| result.unwrap_err().to_string();
    assert_eq!(
        text(decoder.decode_shot(&graph, &[2], 2, &mut [0])),
        "code 11, shot 0: no set of edges explains it; the cluster of detector 0 is stuck, rounds finished: 1"
    );
    assert_eq!(text(decoder.decode_shot(&graph, &[2], 3, &mut [0])), "code 10: the width differs from the number of detectors");
}
