//! differential quick [SEED] | full [SEED] | one KIND SEED NUMBER [SHOTS]
//!
//! Prints what was compared, and for a failure the seed and the number of the case and the smallest case that it can be reduced to.

use differential::case::{case, Case, Kind, KINDS, LIMITS, SURFACES};
use differential::compare::{check, Seen};
use differential::pinned;
use differential::reduce::reduce;
use differential::{Compared, COMPARED};
use std::sync::atomic::{AtomicU64, Ordering};
use std::sync::Mutex;
use std::time::{Duration, Instant};

/// Failures of a kind that are reduced and printed.
const PRINTED: usize = 3;

struct Part {
    name: &'static str,
    kind: Kind,
    cases: u64,
    shots: usize,
}

/// The parts of a run. The stand-in scans, so its large graphs get fewer shots.
fn parts(full: bool) -> Vec<Part> {
    let stand_in = cfg!(not(feature = "library"));
    let number = |kind| match (kind, full) {
        (Kind::Pinned, _) => pinned::cases().len() as u64,
        (Kind::Small, false) => 60_000,
        (Kind::Small, true) => 1_000_000,
        (Kind::Tables, false) => 15_000,
        (Kind::Tables, true) => 100_000,
        (Kind::Damaged, false) => 30_000,
        (Kind::Damaged, true) => 300_000,
        (Kind::Packing, false) => 10_000,
        (Kind::Packing, true) => 100_000,
        (Kind::Surface, _) => SURFACES,
        (Kind::Limits, false) => 10,
        (Kind::Limits, true) => LIMITS,
    };
    let shots = match (stand_in, full) {
        (true, false) => 1,
        (true, true) => 4,
        (false, false) => 50,
        (false, true) => 2_000,
    };
    KINDS.iter().map(|&(name, kind)| Part { name, kind, cases: number(kind), shots }).collect()
}

fn failure(part: &Part, seed: u64, number: u64, case: Case, problem: &str) -> String {
    let mut told = problem.to_string();
    let mut fails = |smaller: &Case| match check(smaller, &mut Compared::default(), &mut Seen::default()) {
        Ok(()) => false,
        Err(problem) => {
            told = problem;
            true
        }
    };
    let smallest = reduce(case, Duration::from_secs(20), &mut fails);
    format!(
        "DISAGREEMENT in {}: {problem}\n  again: differential/run one {} {seed} {number} {}\n  smallest case found: {told}\n{smallest}",
        part.name, part.name, part.shots
    )
}

/// All cases of a part on two threads; the number of failures.
fn run(part: &Part, seed: u64) -> u64 {
    let start = Instant::now();
    let next = AtomicU64::new(0);
    let total = Mutex::new((Seen::default(), Vec::<String>::new(), 0u64));
    std::thread::scope(|scope| {
        for _ in 0..2 {
            scope.spawn(|| {
                let (mut calls, mut seen) = (Compared::default(), Seen::default());
                loop {
                    let number = next.fetch_add(1, Ordering::Relaxed);
                    if number >= part.cases {
                        break;
                    }
                    let case = case(part.kind, seed, number, part.shots);
                    if let Err(problem) = check(&case, &mut calls, &mut seen) {
                        let mut total = total.lock().unwrap();
                        total.2 += 1;
                        if total.1.len() < PRINTED {
                            let text = failure(part, seed, number, case, &problem);
                            total.1.push(text);
                        }
                    }
                }
                total.lock().unwrap().0.add(&seen);
            });
        }
    });
    let (seen, failures, bad) = total.into_inner().unwrap();
    failures.iter().for_each(|text| println!("{text}"));
    println!("{}: {bad} disagreements in {seen}; {:.1} s", part.name, start.elapsed().as_secs_f64());
    bad
}

/// One case again; the number of failures.
fn again(name: &str, seed: u64, number: u64, shots: usize) -> u64 {
    let Some(&(name, kind)) = KINDS.iter().find(|(n, _)| *n == name) else { usage() };
    let part = Part { name, kind, cases: 1, shots };
    let case = case(kind, seed, number, shots);
    match check(&case, &mut Compared::default(), &mut Seen::default()) {
        Ok(()) => 0,
        Err(problem) => {
            println!("{}", failure(&part, seed, number, case, &problem));
            1
        }
    }
}

fn usage() -> ! {
    eprintln!("differential quick [SEED] | full [SEED] | one KIND SEED NUMBER [SHOTS]");
    std::process::exit(2)
}

fn main() {
    let args: Vec<String> = std::env::args().skip(1).collect();
    let number = |at: usize| -> Option<u64> { args.get(at).map(|x| x.parse().unwrap_or_else(|_| usage())) };
    println!("original against {COMPARED}");
    let bad: u64 = match args.first().map(String::as_str) {
        Some(size @ ("quick" | "full")) => {
            let seed = number(1).unwrap_or(1);
            println!("seed {seed}");
            parts(size == "full").iter().map(|part| run(part, seed)).sum()
        }
        Some("one") => match (args.get(1), number(2), number(3)) {
            (Some(kind), Some(seed), Some(at)) => again(kind, seed, at, number(4).unwrap_or(60) as usize),
            _ => usage(),
        },
        _ => usage(),
    };
    println!("{}", if bad == 0 { "differential: no disagreement" } else { "differential: FAILED" });
    std::process::exit(i32::from(bad != 0));
}
