//! The example `edges`, run on files.

mod common;

use common::programs::{fails, run, text, writes, NO_COVER, RECORDED};
use pavrenni::frames;
use std::process::Output;

fn edges(model: &str) -> Output {
    run("edges", &["model"], &[("model", model)], "")
}

fn csv(model: &str) -> Output {
    run("edges", &["--csv", "model"], &[("model", model)], "")
}

/// D0 with observables 1 and 64; D0 with D10, unlikely beyond all weight; D2, D3 and D4 together, with D2 alone and D3
/// with D4 as components; D10 with observable 5, as likely as not. 65 observables.
const WIDE: &str = "01000b0041
023fd00000000000000102000000010040
02000000000000000102000000000a
023fd00000000000000300000200030004
0301000002
03020000030004
023fe00000000000000101000a0005
04
";

#[test]
fn aligned() {
    let expected = "\
edge  u         v              weight  observables
   0  0  boundary  1.0986122886681096  0
   1  0         1  1.0986122886681096
";
    // with shots behind the model or without, and by standard input
    writes(&edges(RECORDED), expected);
    let model = RECORDED.split_inclusive('\n').take(4).collect::<String>();
    writes(&edges(&model), expected);
    writes(&edges(model.trim_end()), expected);
    writes(&run("edges", &["-"], &[], &model), expected);
    // shots are not looked at
    writes(&edges(&format!("{model}05\nx")), expected);
    writes(
        &edges(WIDE),
        "\
edge   u         v              weight  observables
   0   0  boundary  1.0986122886681096  1 64
   1   0        10                 inf
   2  10  boundary                   0  5
   3   2  boundary  1.0986122886681096
   4   3         4  1.0986122886681096
",
    );
    writes(&edges("0100000000\n04\n"), "edge  u  v  weight  observables\n");
}

#[test]
fn comma_separated() {
    let expected = "edge,u,v,weight,observables\n0,0,boundary,1.0986122886681096,0\n1,0,1,1.0986122886681096,\n";
    writes(&csv(RECORDED), expected);
    writes(&run("edges", &["-", "--csv"], &[], RECORDED), expected);
    let output = csv(WIDE);
    assert!(text(&output.stdout)
        .starts_with("edge,u,v,weight,observables\n0,0,boundary,1.0986122886681096,1 64\n1,0,10,inf,\n2,10,boundary,0,5\n"));
    writes(&csv("0100000000\n04\n"), "edge,u,v,weight,observables\n");
}

#[test]
fn a_memory_experiment() {
    // every edge reads back, the weight to the bit
    let memory = include_str!("../../examples/memory_d5.in");
    let graph = frames::read(memory.as_bytes()).unwrap().model.decompose().unwrap().compile().unwrap();
    let output = csv(memory);
    let mut lines = text(&output.stdout).lines().skip(1);
    for edge in 0..graph.edges() {
        let cells: Vec<&str> = lines.next().unwrap().split(',').collect();
        let observables = cells[4].split_terminator(' ').fold(0, |row, observable| row | 1 << observable.parse::<u32>().unwrap());
        let end = if cells[2] == "boundary" { pavrenni::BOUNDARY } else { cells[2].parse().unwrap() };
        assert_eq!((cells[0].parse(), cells[1].parse(), end), (Ok(edge), Ok(graph.edge_u[edge]), graph.edge_v[edge]));
        assert_eq!(cells[3].parse::<f64>().unwrap().to_bits(), graph.edge_weight[edge].to_bits());
        assert_eq!(observables, graph.edge_obs[edge]);
    }
    assert_eq!((lines.next(), output.status.code()), (None, Some(0)));
}

#[test]
fn refusals() {
    let frame = "frame digits, kind, length or order are wrong";
    let digit = RECORDED.replacen("023fd000000000000002", "023fD000000000000002", 1);
    fails(&edges(&digit), &format!("edges: model: code 3, line 3: {frame}: a digit is not lower-case hexadecimal"));
    fails(&csv("0100020001\n"), &format!("edges: model: code 3: {frame}: the input ends before frame 04"));
    fails(&edges(NO_COVER), "edges: model: code 6, mechanism 1: no choice of smaller mechanisms covers it");
    fails(&edges("0110010000\n04\n"), "edges: model: code 1: a count is over its limit, or the decomposed model finds no place");
}

#[test]
fn wrong_commands() {
    for arguments in [&[][..], &["--csv"][..], &["model", "more"][..], &["--csv", "--csv", "model"][..]] {
        let output = run("edges", arguments, &[], "");
        fails(&output, "edges: give one file: a model in frames (- is standard input), and --csv for commas");
    }
    let output = run("edges", &["absent"], &[], "");
    assert!(text(&output.stderr).starts_with("edges: absent: "));
    assert_eq!((text(&output.stdout), output.status.code()), ("", Some(1)));
}
