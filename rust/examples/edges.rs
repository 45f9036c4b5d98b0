//! Lists the edges of a model's graph: the numbers in which a group hands in its corrections.
//!
//!     cargo run --example edges -- [--csv] MODEL
//!
//! MODEL has frames 01 to 04 of docs/RULES.md, "Frames"; `-` is standard input. Shots may follow and are not looked at.
//! The model is decomposed and compiled, and each edge of the graph gets a line: its number, its ends (the second is
//! `boundary` for a boundary edge), its weight, and the observables that it flips. The weight is the shortest decimal
//! that reads back to the same double, or `inf`. The columns are aligned, or separated by commas with `--csv`; a line
//! with their names comes first. The exit status is 0, or 1 where the model is refused.

mod common;

use common::{bytes, graph_of, in_file, program, unwritten, Out, Wrong};
use pavrenni::{frames, Graph, BOUNDARY};
use std::io::{self, Write};
use std::process::ExitCode;

/// The cells of a line.
type Line = [String; 5];

const NAMES: [&str; 5] = ["edge", "u", "v", "weight", "observables"];

fn main() -> ExitCode {
    program("edges", run)
}

fn run(arguments: &[String], out: &mut Out) -> Result<(), Wrong> {
    let (flags, names): (Vec<&str>, Vec<&str>) = arguments.iter().map(String::as_str).partition(|argument| *argument == "--csv");
    let ([name], [] | ["--csv"]) = (names.as_slice(), flags.as_slice()) else {
        return Err("give one file: a model in frames (- is standard input), and --csv for commas".into());
    };
    let text = bytes(name)?;
    let (model, _) = frames::read_model(&text).map_err(in_file(name))?;
    let graph = graph_of(&model).map_err(in_file(name))?;
    let lines: Vec<Line> = [NAMES.map(String::from)].into_iter().chain((0..graph.edges()).map(|edge| line(&graph, edge))).collect();
    let written = if flags.is_empty() { write_aligned(&lines, out) } else { write_csv(&lines, out) };
    written.map_err(unwritten)
}

fn line(graph: &Graph, edge: usize) -> Line {
    let end = graph.edge_v[edge];
    let words = graph.observables.div_ceil(64);
    let row = &graph.edge_obs[edge * words..(edge + 1) * words];
    let flipped = (0..graph.observables).filter(|observable| row[observable / 64] >> (observable % 64) & 1 == 1);
    [
        edge.to_string(),
        graph.edge_u[edge].to_string(),
        if end == BOUNDARY { "boundary".into() } else { end.to_string() },
        graph.edge_weight[edge].to_string(),
        flipped.map(|observable| observable.to_string()).collect::<Vec<_>>().join(" "),
    ]
}

fn write_csv(lines: &[Line], out: &mut impl Write) -> io::Result<()> {
    lines.iter().try_for_each(|line| writeln!(out, "{}", line.join(",")))
}

/// Numbers to the right, observables to the left; two spaces between columns and none at the end.
fn write_aligned(lines: &[Line], out: &mut impl Write) -> io::Result<()> {
    let width = |column: usize| lines.iter().map(|line| line[column].len()).max().unwrap_or(0);
    let [edge, u, v, weight] = [0, 1, 2, 3].map(width);
    for line in lines {
        let text = format!("{:>edge$}  {:>u$}  {:>v$}  {:>weight$}  {}", line[0], line[1], line[2], line[3], line[4]);
        writeln!(out, "{}", text.trim_end())?;
    }
    Ok(())
}
