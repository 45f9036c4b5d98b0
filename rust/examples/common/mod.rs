//! What the examples share: arguments, files, the graph of a model, and how a program ends.

use pavrenni::{Error, Graph, Model};
use std::fmt::Display;
use std::io::{self, BufWriter, Read, StdoutLock, Write};
use std::process::ExitCode;
use std::{env, fs};

/// What is wrong with the command or with a file, in words for who runs the program.
pub type Wrong = String;

/// Standard output, of which all is written before the program ends, also where it ends in a refusal.
pub type Out = BufWriter<StdoutLock<'static>>;

/// Runs a program: exit status 0, or 1 with what is wrong on standard error.
pub fn program(name: &str, run: fn(&[String], &mut Out) -> Result<(), Wrong>) -> ExitCode {
    let arguments: Vec<String> = env::args().skip(1).collect();
    let mut out = BufWriter::new(io::stdout().lock());
    let ran = run(&arguments, &mut out);
    let written = out.flush().map_err(unwritten);
    match ran.and(written) {
        Ok(()) => ExitCode::SUCCESS,
        Err(wrong) => {
            eprintln!("{name}: {wrong}");
            ExitCode::FAILURE
        }
    }
}

pub fn unwritten(why: io::Error) -> Wrong {
    format!("writing failed: {why}")
}

/// What a file holds; `-` is standard input.
pub fn bytes(name: &str) -> Result<Vec<u8>, Wrong> {
    if name == "-" {
        let mut bytes = Vec::new();
        io::stdin().lock().read_to_end(&mut bytes).map_err(in_file(name))?;
        return Ok(bytes);
    }
    fs::read(name).map_err(in_file(name))
}

/// What is wrong, with the name of the file before it.
pub fn in_file<E: Display>(name: &str) -> impl Fn(E) -> Wrong + '_ {
    move |why| format!("{}: {why}", if name == "-" { "standard input" } else { name })
}

/// The graph that corrections are made of: the model decomposed, then compiled.
pub fn graph_of(model: &Model) -> Result<Graph, Error> {
    model.decompose()?.compile()
}
