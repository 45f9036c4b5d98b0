//! Small cases with a name: the example's, and one for each slip and each reading of it. docs/DECISIONS.md has the readings.

use crate::case::{Case, Input};
use crate::model::{words, Graph, Mechanism, Model, Packed};

fn m(probability: f64, detectors: &[usize], observables: &[usize]) -> Mechanism {
    Mechanism { probability, detectors: detectors.to_vec(), observables: observables.to_vec(), components: vec![] }
}

fn suggested(probability: f64, detectors: &[usize], components: &[&[usize]]) -> Mechanism {
    Mechanism { components: components.iter().map(|c| (c.to_vec(), vec![])).collect(), ..m(probability, detectors, &[]) }
}

/// A model with rows of up to 64 detectors, its true observables all zero.
fn model(detectors: usize, observables: usize, mechanisms: Vec<Mechanism>, shots: &[u64]) -> Case {
    with_rows(Input::Model(Model { detectors, observables, mechanisms }), detectors, observables, shots)
}

/// A lent graph of pair edges, the second end missing for the boundary.
fn graph(detectors: usize, edges: &[(usize, Option<usize>, f64)], shots: &[u64]) -> Case {
    let mut graph = Graph { detectors, ..Graph::default() };
    edges.iter().for_each(|&(u, v, weight)| graph.push(u, v, weight, &[]));
    with_rows(Input::Graph(graph), detectors, 0, shots)
}

fn with_rows(input: Input, detectors: usize, observables: usize, shots: &[u64]) -> Case {
    let rows = Packed { data: shots.to_vec(), shots: shots.len(), width: detectors };
    let truth = Packed { data: vec![0; shots.len() * words(observables)], shots: shots.len(), width: observables };
    Case { input, rows, truth }
}

/// The case with its rows or true observables of another width.
fn reshaped(case: Case, width: usize, true_width: usize) -> Case {
    let rows = Packed { width, ..case.rows };
    let truth = Packed { width: true_width, data: vec![0; case.truth.shots * words(true_width)], ..case.truth };
    Case { rows, truth, ..case }
}

pub fn cases() -> Vec<(&'static str, Case)> {
    let two = || vec![m(0.25, &[0], &[0]), m(0.25, &[0, 1], &[])];
    let pair = || vec![m(0.25, &[0, 1], &[])];
    let triple = |p: f64| m(p, &[0, 1, 2], &[]);
    vec![
        ("the example's model", model(2, 1, two(), &[0, 1, 2, 3])),
        ("the pair edge alone, both lit", model(2, 1, pair(), &[3])),
        ("the pair edge alone, one lit", model(2, 1, pair(), &[3, 2, 3])),
        ("equal probabilities keep the first observables", model(1, 2, vec![m(0.25, &[0], &[0]), m(0.25, &[0], &[1])], &[1])),
        ("a greater probability replaces them", model(1, 2, vec![m(0.25, &[0], &[0]), m(0.3, &[0], &[1])], &[1])),
        ("p = 0.5 weighs 0", model(2, 1, vec![m(0.5, &[0], &[0]), m(0.5, &[0, 1], &[])], &[1, 2, 3])),
        ("minus zero skipped", model(1, 1, vec![m(-0.0, &[0], &[0])], &[0])),
        (
            "0.25 added to 0.25",
            model(3, 1, vec![m(0.25, &[0], &[]), m(0.25, &[1, 2], &[]), suggested(0.25, &[0, 1, 2], &[&[0], &[1, 2]])], &[7]),
        ),
        // Slips.
        ("both ends in one cluster", graph(3, &[(0, Some(1), 0.0), (1, Some(2), 0.0), (0, Some(2), 1.0), (0, None, 0.75)], &[7])),
        (
            "the last duplicate",
            model(3, 0, vec![m(0.1, &[0], &[]), m(0.2, &[0], &[]), suggested(0.25, &[0, 1, 2], &[&[0], &[1, 2]])], &[1]),
        ),
        ("a triple of probability zero", model(3, 0, vec![m(0.1, &[0], &[]), triple(0.0)], &[1])),
        ("no cover by appended mechanisms", model(3, 0, vec![suggested(0.25, &[0, 1, 2], &[&[0], &[1, 2]]), triple(0.25)], &[1])),
        ("two shots, the same edges", graph(3, &[(0, Some(1), 2.0), (1, None, 1.0), (0, None, 3.0), (1, Some(2), 2.0)], &[1, 4, 1, 5])),
        // Readings.
        ("1: places of the round's begin", graph(5, &[(1, Some(4), 0.0), (0, Some(3), 0.0), (0, Some(2), 0.0)], &[15])),
        ("2: not by first lit detector", graph(5, &[(2, Some(4), 1.0), (0, Some(3), 1.0), (0, Some(1), 0.0)], &[15])),
        ("2: not by lowest detector", graph(4, &[(1, Some(3), 0.0), (0, Some(2), 0.0)], &[6])),
        ("3: unwound by marks", graph(3, &[(0, Some(1), 1.0), (0, Some(2), 1.0)], &[6])),
        ("3: walked by a stack", graph(3, &[(0, Some(2), 0.0), (0, Some(1), 0.0), (1, Some(2), 0.0)], &[3])),
        ("4: no shots, wrong width", reshaped(model(2, 1, two(), &[]), 3, 1)),
        ("4: no shots, wrong shape", reshaped(model(2, 1, two(), &[]), 2, 5)),
        ("4: no observables, a Stuck shot", model(2, 0, pair(), &[2])),
        ("5: minus zero with zero added", model(3, 0, vec![m(-0.0, &[0], &[]), m(0.25, &[1, 2], &[]), triple(0.0)], &[1])),
        ("5: a weight that a fused product changes", model(2, 0, vec![m(0.08739216171723763, &[0, 1], &[])], &[3])),
        ("6: parallel edges", graph(2, &[(0, Some(1), 3.0), (0, Some(1), 1.0), (0, None, 2.0)], &[2, 3])),
        ("7: Stuck in order", graph(3, &[(0, Some(2), 1.0)], &[3])),
    ]
}

#[cfg(test)]
mod tests {
    use super::*;
    use crate::calls::Calls;
    use crate::compare::{check, Seen};
    use crate::{original, Compared};
    use published::qec::decoder::probe;

    fn case(name: &str) -> Case {
        cases().into_iter().find(|(n, _)| *n == name).unwrap().1
    }

    /// Stuck's detector, rounds and list of the last shot, by the original and by what is compared.
    fn decoded(name: &str) -> (Option<u32>, u64, Vec<u32>) {
        let case = case(name);
        let Input::Graph(graph) = case.input else { panic!("a graph") };
        let shot = &case.rows.data[case.rows.data.len() - 1..];
        let captured = probe::Capture::new(&original::decoder(&graph)).shot_list(shot);
        let (mut row, mut list) = (vec![], vec![0; graph.detectors]);
        let answer = Compared::default().decode_shot(&graph, shot, graph.detectors, &mut row, &mut list);
        list.truncate(answer.length);
        let ours = (answer.refusal.map(|r| r.second as u32), answer.rounds, list);
        assert_eq!((captured.stuck, captured.rounds, captured.list), ours);
        ours
    }

    #[test]
    fn original_and_compared_agree() {
        for (name, case) in cases() {
            check(&case, &mut Compared::default(), &mut Seen::default()).unwrap_or_else(|e| panic!("{name}: {e}"));
        }
    }

    #[test]
    fn readings_have_their_answers() {
        assert_eq!(decoded("1: places of the round's begin"), (Some(0), 1, vec![]));
        assert_eq!(decoded("2: not by first lit detector"), (Some(2), 2, vec![]));
        assert_eq!(decoded("2: not by lowest detector"), (Some(1), 1, vec![]));
        assert_eq!(decoded("3: unwound by marks"), (None, 1, vec![1, 0]));
        assert_eq!(decoded("3: walked by a stack"), (None, 1, vec![1]));
        assert_eq!(decoded("7: Stuck in order"), (Some(1), 0, vec![]));
    }

    #[test]
    fn probabilities_added() {
        let Input::Model(model) = case("0.25 added to 0.25").input else { panic!("a model") };
        assert_eq!(original::decompose(&model).unwrap().mechanisms[0].probability, 0.375);
        let Input::Model(model) = case("5: minus zero with zero added").input else { panic!("a model") };
        assert_eq!(original::decompose(&model).unwrap().mechanisms[0].probability.to_bits(), 0);
    }
}
