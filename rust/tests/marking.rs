//! The marker: Pass, Differs, every refusal, and the row that it leaves.

mod common;

use common::*;
use pavrenni::raw::{self, MarkScratch};
use pavrenni::{mark, sys, Code, Graph, Item, Marking};

/// A call with all its memory.
#[derive(Clone)]
struct Call {
    graph: Graph,
    edges: usize,
    shot: Vec<u64>,
    width: usize,
    list: Vec<u32>,
    row: Vec<u64>,
    scratch: MarkScratch,
}

impl Call {
    /// Shot D0 of `islands` with the list that explains it.
    fn example() -> Call {
        let graph = islands();
        let scratch = MarkScratch::with_lengths(&raw::mark_lengths(3, 2));
        Call { graph, edges: 2, shot: vec![0b001], width: 3, list: vec![0], row: vec![UNTOUCHED; 2], scratch }
    }

    fn run(&mut self) -> sys::Mark {
        raw::mark(&self.graph, self.edges, &self.shot, self.width, &self.list, &mut self.row, &mut self.scratch)
    }

    #[track_caller]
    fn passes(mut self, row: &[u64]) {
        assert_eq!(self.run(), sys::Mark { code: 0, first: 0, second: 0, passed: 1, detector: 0 });
        assert_eq!(self.row, row);
    }

    #[track_caller]
    fn differs(mut self, detector: u32) {
        assert_eq!(self.run(), sys::Mark { code: 0, first: 0, second: 0, passed: 0, detector });
        assert!(self.row.iter().all(|word| *word == UNTOUCHED), "the row was touched");
    }

    #[track_caller]
    fn refused(mut self, code: u32, first: usize) {
        assert_eq!(self.run(), sys::Mark { code, first, second: 0, passed: 0, detector: 0 });
        assert!(self.row.iter().all(|word| *word == UNTOUCHED), "the row was touched");
    }
}

fn changed(change: impl Fn(&mut Call)) -> Call {
    let mut call = Call::example();
    change(&mut call);
    call
}

fn on(shot: u64, list: &[u32]) -> Call {
    changed(|call| (call.shot, call.list) = (vec![shot], list.to_vec()))
}

#[test]
fn passes() {
    Call::example().passes(&[1, 1]);
    on(0b000, &[]).passes(&[0, 0]);
    on(0b110, &[1]).passes(&[8, 0]);
    on(0b111, &[0, 1]).passes(&[9, 1]);
    on(0b111, &[1, 0]).passes(&[9, 1]);
}

#[test]
fn differs_at_the_lowest() {
    on(0b001, &[]).differs(0);
    on(0b000, &[0]).differs(0);
    on(0b000, &[0, 1]).differs(0);
    on(0b000, &[1]).differs(1);
    on(0b100, &[1]).differs(1);
    on(0b010, &[1]).differs(2);
    on(0b100, &[]).differs(2);
    on(0b111, &[0]).differs(1);
}

#[test]
fn refused_lists() {
    // unknown
    on(0b001, &[2]).refused(13, 0);
    on(0b001, &[0, 2]).refused(13, 0);
    on(0b001, &[u32::MAX]).refused(13, 0);
    // repeated, though it cancels
    on(0b000, &[0, 0]).refused(13, 0);
    on(0b001, &[0, 1, 1]).refused(13, 0);
    on(0b001, &[0; 100]).refused(13, 0);
    on(0b001, &(0..1000).collect::<Vec<_>>()).refused(13, 0);
}

#[test]
fn exact_short_and_longer_memory() {
    changed(|call| call.row.truncate(1)).refused(2, 0);
    changed(|call| call.row.clear()).refused(2, 0);
    for (name, shorten) in one_short!(MarkScratch: marks, wrong) {
        println!("{name}");
        changed(|call| shorten(&mut call.scratch)).refused(2, 0);
    }
    for (name, shorten) in short_tables() {
        println!("{name}");
        changed(|call| shorten(&mut call.graph)).refused(2, 0);
    }
    let longer = changed(|call| {
        call.row = vec![UNTOUCHED; 5];
        lengthen!(call.scratch; marks, wrong);
        lengthen!(call.graph; edge_u, edge_v, edge_weight, edge_obs);
    });
    longer.passes(&[1, 1, UNTOUCHED, UNTOUCHED, UNTOUCHED]);
}

#[test]
fn refused_lent_graphs() {
    for (graph, code, edge) in refused_graphs() {
        changed(|call| (call.graph, call.width) = (graph.clone(), 2)).refused(code, edge);
    }
    changed(|call| call.edges = 16385).refused(1, 0);
    changed(|call| call.edges = 3).refused(2, 0);
}

#[test]
fn refused_shots() {
    changed(|call| call.shot.clear()).refused(8, 0);
    changed(|call| call.shot.push(0)).refused(8, 0);
    changed(|call| call.width = usize::MAX).refused(8, 0);
    changed(|call| call.width = 0).refused(8, 0);
    changed(|call| call.shot = vec![8]).refused(9, 0);
    changed(|call| call.width = 4).refused(10, 0);
    changed(|call| (call.width, call.shot) = (0, vec![])).refused(10, 0);
    // before the list is looked at
    changed(|call| (call.width, call.list) = (4, vec![7])).refused(10, 0);
    changed(|call| (call.shot, call.list) = (vec![8], vec![7])).refused(9, 0);
}

#[test]
fn stale_scratch() {
    let mut stale = changed(|call| {
        fill_stale!(call.scratch; marks, wrong);
    });
    let answer = stale.run();
    assert_eq!((answer.code, answer.passed), (0, 1));
    assert_eq!(stale.run(), answer);
    assert_eq!(stale.row, [1, 1]);
    stale.list = vec![1, 1];
    assert_eq!(stale.run().code, 13);
    stale.list = vec![1];
    assert_eq!(stale.run().detector, 0);
}

#[test]
fn results() {
    let graph = islands();
    let mut row = [0; 2];
    assert_eq!(mark(&graph, &[0b110], 3, &[1], &mut row), Ok(Marking::Pass));
    assert_eq!(row, [8, 0]);
    assert_eq!((Marking::Pass.passed(), Marking::Pass.detector()), (true, None));
    let differs = mark(&graph, &[0b010], 3, &[1], &mut row).unwrap();
    assert!(matches!(differs, Marking::Differs { detector: 2, .. }));
    assert_eq!((differs.passed(), differs.detector()), (false, Some(2)));
    let mut refused = |graph: &Graph, shot, list: &[u32], words| refused_with(mark(graph, &[shot], 3, list, &mut row[..words]));
    assert_eq!(refused(&graph, 0b010, &[1, 1], 2), (Code::Edge, None, None, None));
    assert_eq!(refused(&graph, 8, &[1], 2), (Code::Padding, Some(Item::Shot(0)), None, None));
    assert_eq!(refused(&graph, 0, &[], 0), (Code::Short, None, None, None));
    assert_eq!(refused(&Graph { edge_u: vec![0, 2], ..graph }, 0, &[], 2), (Code::Index, Some(Item::Edge(1)), None, None));
    assert_eq!(row, [8, 0]);
}
