//! mutations [CASES] [SEED]
//!
//! Puts each slip that a rewrite invites, and each misreading of it, into the second implementation, and shows that the comparison tells it
//! from the original by what the C boundary tells: how many cases do, and the smallest that one of them reduces to.

use differential::case::{case, Case, Kind};
use differential::compare::{check, Seen};
use differential::pinned;
use differential::reduce::reduce;
use differential::stand_in::StandIn;
use differential::stated::{Adding, Cover, Places, Reading, StuckName, Walk};
use std::sync::atomic::{AtomicUsize, Ordering};
use std::time::Duration;

struct Mutation {
    name: &'static str,
    reading: Reading,
    /// False where no accepted graph is known to show it.
    shows: bool,
}

fn mutations() -> Vec<Mutation> {
    let d = Reading::default();
    let slip = |name, reading| Mutation { name, reading, shows: true };
    vec![
        slip("slip: growing by clusters instead of endpoints", Reading { count_by_cluster: true, ..d }),
        slip("slip: a suggestion matched to the first duplicate", Reading { first_duplicate: true, ..d }),
        slip("slip: a zero-probability triple refused when compiling", Reading { refuse_zero_triple: true, ..d }),
        slip("slip: covering with appended mechanisms", Reading { cover: Cover::WithAppended, ..d }),
        slip("slip: one shot's growth left for the next", Reading { growth_left: true, ..d }),
        slip("reading 1: places merged edge by edge", Reading { places: Places::EachMerge, ..d }),
        slip("reading 2: places by first lit detector", Reading { places: Places::FirstLit, ..d }),
        slip("reading 2: places by lowest detector", Reading { places: Places::LowestDetector, ..d }),
        slip("reading 3: a recursive walk", Reading { walk: Walk::Recursive, ..d }),
        slip("reading 3: unwound in the reverse of taking", Reading { walk: Walk::UnwoundAsTaken, ..d }),
        slip("reading 3: a walk breadth first", Reading { walk: Walk::Breadth, ..d }),
        slip("reading 3: edges tried in descending number", Reading { walk: Walk::DescendingEdges, ..d }),
        slip("reading 4: the rate's 0.0 looked at first", Reading { rate_zero_first: true, ..d }),
        slip("reading 5: minus zero stays when zero is added", Reading { adding: Adding::ZeroSkipped, ..d }),
        slip("reading 5: adding with a fused product", Reading { adding: Adding::Fused, ..d }),
        slip("reading 5: the weight with fused products", Reading { fused_weight: true, ..d }),
        slip("reading 6: parallel edges taken for one", Reading { parallel_merged: true, ..d }),
        slip("reading 7: Stuck names the lowest unexplained component", Reading { stuck: StuckName::LowestComponent, ..d }),
        slip("Stuck names the lowest lit detector", Reading { stuck: StuckName::LowestLit, ..d }),
        Mutation { name: "reading 8: without the added clause", reading: Reading { added_clause: false, ..d }, shows: false },
        slip("reading 9: the last cover", Reading { cover: Cover::Last, ..d }),
        slip("mechanisms of probability zero cover nothing", Reading { cover: Cover::WithoutZero, ..d }),
        slip("components compared with the whole", Reading { components_must_add_up: true, ..d }),
        slip("an equal probability replaces", Reading { equal_replaces: true, ..d }),
        slip("no tolerance", Reading { tolerance: 0.0, ..d }),
        slip("twice the tolerance", Reading { tolerance: 2e-9, ..d }),
        slip("one edge a round", Reading { one_edge_per_round: true, ..d }),
        slip("all counted edges saturated at once", Reading { all_at_once: true, ..d }),
        slip("the exit at a lit detector only", Reading { exit_at_lit: true, ..d }),
        slip("the round that ends in Stuck is counted", Reading { stuck_round_counted: true, ..d }),
        slip("the row overwritten", Reading { row_overwritten: true, ..d }),
    ]
}

/// The pinned cases, then the other kinds in turn; large ones are left to the other runs.
fn nth(seed: u64, number: u64) -> Case {
    if number < pinned::cases().len() as u64 {
        return case(Kind::Pinned, seed, number, 0);
    }
    let turn = number / 5;
    let (kind, number) = match number % 5 {
        0 => (Kind::Small, 2 * turn),
        1 => (Kind::Small, 2 * turn + 1),
        2 => (Kind::Tables, turn),
        3 => (Kind::Damaged, turn),
        _ => (Kind::Packing, turn),
    };
    case(kind, seed, number, 0)
}

fn fails(case: &Case, reading: Reading) -> Option<String> {
    check(case, &mut StandIn::of(reading), &mut Seen::default()).err()
}

fn size(case: &Case) -> usize {
    case.to_string().len()
}

/// What is printed of a mutation, and whether it fared as it should.
fn run(mutation: &Mutation, cases: u64, seed: u64) -> (String, bool) {
    let mut found: Vec<Case> = Vec::new();
    for number in 0..cases {
        let case = nth(seed, number);
        if fails(&case, mutation.reading).is_some() {
            found.push(case);
        }
    }
    let mut text = format!("{}: told apart by {} of {cases} cases\n", mutation.name, found.len());
    found.sort_by_key(size);
    let mut smallest: Option<Case> = None;
    for case in found.iter().take(3).cloned() {
        let reduced = reduce(case, Duration::from_secs(2), &mut |c| fails(c, mutation.reading).is_some());
        if smallest.as_ref().map_or(true, |s| size(&reduced) < size(s)) {
            smallest = Some(reduced);
        }
    }
    if let Some(case) = smallest {
        text += &format!("  {}\n{case}", fails(&case, mutation.reading).unwrap());
    }
    (text, found.is_empty() != mutation.shows)
}

fn main() {
    let args: Vec<u64> = std::env::args().skip(1).map(|x| x.parse().expect("mutations [CASES] [SEED]")).collect();
    let (cases, seed) = (args.first().copied().unwrap_or(20_000), args.get(1).copied().unwrap_or(1));
    println!("seed {seed}");
    let unchanged = Mutation { name: "unchanged", reading: Reading::default(), shows: false };
    let all: Vec<Mutation> = std::iter::once(unchanged).chain(mutations()).collect();
    let (next, bad) = (AtomicUsize::new(0), AtomicUsize::new(0));
    std::thread::scope(|scope| {
        for _ in 0..2 {
            scope.spawn(|| {
                while let Some(mutation) = all.get(next.fetch_add(1, Ordering::Relaxed)) {
                    let (text, right) = run(mutation, cases, seed);
                    print!("{text}");
                    bad.fetch_add(usize::from(!right), Ordering::Relaxed);
                }
            });
        }
    });
    let (bad, shown) = (bad.into_inner(), all.iter().filter(|m| m.shows).count());
    println!("{shown} mutations to be told apart, and {} rows where nothing may be: {bad} fared otherwise", all.len() - shown);
    std::process::exit(i32::from(bad != 0));
}
