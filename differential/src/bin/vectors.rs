//! vectors replay FILE [COUNT] [SEED] | pairs DIR [COUNT] [SEED] | gate FILE [COUNT] [SEED] | memory FILE [SHOTS] [SEED]
//!
//! Inputs of program `bench` with the outputs that it must write, the answers coming from the original. `replay` writes one text: for each case
//! a line `= NUMBER NAME`, its input, a line `-` (`-.` if the input's last line has no line feed), its output; a last line `=`. `pairs`
//! writes DIR/NUMBER.in and DIR/NUMBER.out. `gate` writes the list that program `replay` runs: the same inputs, the example with each
//! byte changed and cut at each length, and the memory experiment of examples/; for each case the lengths of its input and of its output, eight hexadecimal digits each, and a line feed,
//! then both. `memory` writes FILE.in and FILE.out: a memory experiment of a rotated surface code with d = 5.

use differential::frames;
use differential::inputs::*;
use differential::model::{Mechanism, Model};
use differential::rng::{case_seed, Rng};
use std::fmt::Write;

struct Vector {
    name: String,
    input: String,
}

fn vector(name: &str, input: impl Into<String>) -> Vector {
    Vector { name: name.into(), input: input.into() }
}

fn m(probability: f64, detectors: &[usize], observables: &[usize]) -> Mechanism {
    Mechanism { probability, detectors: detectors.to_vec(), observables: observables.to_vec(), components: vec![] }
}

fn model(detectors: usize, observables: usize, mechanisms: Vec<Mechanism>) -> Model {
    Model { detectors, observables, mechanisms }
}

/// A model with these shots of at most 64 detectors, the true observables given beside them.
fn shots(model: &Model, shots: &[(u64, u64)]) -> String {
    let row = |bits: usize, word: u64| if bits == 0 { vec![] } else { vec![word] };
    let rows: Vec<Vec<u64>> = shots.iter().map(|s| row(model.detectors, s.0)).collect();
    let truth: Vec<Vec<u64>> = shots.iter().map(|s| row(model.observables, s.1)).collect();
    frames::write(model, &rows, &truth)
}

fn example() -> Model {
    model(2, 1, vec![m(0.25, &[0], &[0]), m(0.25, &[0, 1], &[])])
}

/// The example's cases.
fn worked() -> Vec<Vector> {
    let pair = model(2, 1, vec![m(0.25, &[0, 1], &[])]);
    let triple = |p: f64| model(3, 1, vec![m(0.25, &[0], &[0]), m(0.25, &[1, 2], &[]), m(p, &[0, 1, 2], &[0])]);
    vec![
        vector("the example", shots(&example(), &[(2, 1)])),
        vector("all shots of the example", shots(&example(), &[(0, 0), (1, 1), (2, 1), (3, 0)])),
        vector("no shots", shots(&example(), &[])),
        vector("the pair edge alone, both lit", shots(&pair, &[(3, 0)])),
        vector("the pair edge alone, one lit", shots(&pair, &[(3, 1), (2, 0), (3, 0)])),
        vector("equal probabilities", shots(&model(1, 2, vec![m(0.25, &[0], &[0]), m(0.25, &[0], &[1])]), &[(1, 1)])),
        vector("a greater probability", shots(&model(1, 2, vec![m(0.25, &[0], &[0]), m(0.3, &[0], &[1])]), &[(1, 1)])),
        vector("weight zero", shots(&model(2, 1, vec![m(0.5, &[0], &[0]), m(0.5, &[0, 1], &[])]), &[(2, 1), (3, 0)])),
        vector("minus zero skipped", shots(&model(1, 1, vec![m(-0.0, &[0], &[0])]), &[(0, 0), (1, 0)])),
        vector("a covered triple", shots(&triple(0.25), &[(7, 1), (1, 0)])),
        vector("no detectors", shots(&model(0, 1, vec![m(0.25, &[], &[0])]), &[(0, 0), (0, 1)])),
        vector("no observables", shots(&model(1, 0, vec![m(0.25, &[0], &[])]), &[(0, 0), (1, 0)])),
        vector("nothing at all", shots(&model(0, 0, vec![]), &[(0, 0)])),
    ]
}

fn pair() -> Mechanism {
    m(0.25, &[0, 1], &[])
}

/// Probabilities that the check at 04 refuses.
fn probabilities() -> Vec<Vector> {
    let mut out = Vec::new();
    let mut add = |name: &str, model: Model| out.push(vector(name, shots(&model, &[])));
    for (name, p) in [
        ("probability 1", 1.0),
        ("probability below 0", -5e-324),
        ("probability NaN", f64::NAN),
        ("probability infinite", f64::INFINITY),
        ("probability past 1", 1.5),
    ] {
        add(name, model(2, 1, vec![pair(), m(p, &[0], &[])]));
        add(&format!("{name}, no detectors"), model(2, 1, vec![m(p, &[], &[0]), pair()]));
    }
    add("the greatest probability", model(2, 1, vec![m(1.0 - f64::EPSILON / 2.0, &[0], &[])]));
    out
}

/// Lists that the check at 04 refuses, or just does not.
fn lists() -> Vec<Vector> {
    let mut out = Vec::new();
    let mut add = |name: &str, model: Model| out.push(vector(name, shots(&model, &[])));
    for (name, detectors, observables) in [
        ("detectors descending", vec![1, 0], vec![]),
        ("a detector twice", vec![1, 1], vec![]),
        ("a detector not below D", vec![20], vec![]),
        ("observables descending", vec![0], vec![1, 0]),
        ("an observable not below O", vec![0], vec![20]),
        ("the greatest index", vec![65535], vec![]),
        ("seventeen detectors", (0..17).collect(), vec![]),
        ("seventeen observables", vec![0], (0..17).collect()),
        ("255 detectors", vec![0; 255], vec![0; 255]),
    ] {
        add(name, model(20, 20, vec![pair(), m(0.25, &detectors, &observables)]));
        let bad = Mechanism { components: vec![(vec![0], vec![]), (detectors.clone(), observables.clone())], ..pair() };
        add(&format!("{name} in a component"), model(20, 20, vec![bad]));
    }
    let all: Vec<usize> = (0..16).collect();
    let singles = || all.iter().map(|&x| m(0.25, &[x], &[x])).collect::<Vec<_>>();
    add("sixteen entries", model(20, 20, [singles(), vec![m(0.25, &all, &all)]].concat()));
    for n in [16, 17, 255, 256, 300] {
        let components = (0..n).map(|i| (vec![i % 20], vec![])).collect();
        add(&format!("{n} components"), model(20, 20, vec![Mechanism { components, ..m(0.25, &[0, 1, 2], &[]) }]));
    }
    out
}

/// The order of the check at 04, and mechanisms without a cover.
fn covers() -> Vec<Vector> {
    let mut out = Vec::new();
    let mut add = |name: &str, model: Model| out.push(vector(name, shots(&model, &[])));
    add("lists before probability", model(2, 1, vec![m(2.0, &[1, 0], &[])]));
    add("the first mechanism first", model(2, 1, vec![m(2.0, &[0], &[]), m(0.25, &[1, 0], &[])]));
    add("check before cover", model(3, 1, vec![m(0.25, &[0, 1, 2], &[]), m(2.0, &[0], &[])]));
    add("no cover", model(3, 1, vec![m(0.25, &[0, 1], &[]), m(0.25, &[0, 1, 2], &[])]));
    add("no cover for the observables", model(3, 1, vec![m(0.25, &[0, 1], &[]), m(0.25, &[2], &[]), m(0.25, &[0, 1, 2], &[0])]));
    add("no cover at probability zero", model(3, 1, vec![m(0.0, &[0, 1, 2], &[])]));
    out
}

/// Counts at and past what the program holds.
fn held() -> Vec<Vector> {
    let mut out = Vec::new();
    let mut add = |name: &str, input: String| out.push(vector(name, input));
    for (d, o) in [(256, 128), (257, 1), (2, 129), (65535, 65535), (256, 129)] {
        add(&format!("{d} detectors, {o} observables"), format!("01{d:04x}{o:04x}\n04\n"));
    }
    let line = "023fb99999999999990000\n";
    for n in [1024, 1025] {
        add(&format!("{n} mechanisms"), format!("0100020001\n{}04\n", line.repeat(n)));
        let sixteen = format!("{line}{}", "030000\n".repeat(16));
        add(&format!("{n} components"), format!("0100020001\n{}{}04\n", sixteen.repeat(64), "030000\n".repeat(n - 1024)));
    }
    add("the line past the places is wrong", format!("0100020001\n{}023fb9999999999999000\n04\n", line.repeat(1024)));
    let sixteen: String = (0..16).map(|x| format!("{x:04x}")).collect();
    let full = format!("023fb99999999999991010{sixteen}{sixteen}\n");
    let single = |x: usize| format!("023fb99999999999990101{x:04x}{x:04x}\n");
    let singles: String = (0..16).map(single).collect();
    add("8,192 entries", format!("0100100010\n{singles}{}04\n", full.repeat(255)));
    add("8,193 entries", format!("0100100010\n{singles}{}023fb999999999999901000000\n04\n", full.repeat(255)));
    let kept = "023fb999999999999901000000\n";
    let split = |name: &str| format!("{name}\n0301000003\n0301000004\n");
    let triple = "023fb99999999999990300000300040005";
    add("places taken by decomposition", format!("0100060001\n{}{}04\n", kept.repeat(1022), split(triple)));
    add("a place too many after decomposition", format!("0100060001\n{}{}04\n", kept.repeat(1023), split(triple)));
    let bare = "023fb99999999999990300000100020003\n";
    add("no cover before no place", format!("0100060001\n{}{bare}{}04\n", kept.repeat(1022), split(triple)));
    out
}

/// Lines that are wrong by themselves or by their order.
fn lines() -> Vec<Vector> {
    let good = shots(&example(), &[(2, 1), (1, 0)]);
    let all: Vec<&str> = good.lines().collect();
    let mut out = vec![
        vector("empty input", ""),
        vector("one line feed", "\n"),
        vector("no last line feed", good.trim_end()),
        vector("a blank line at the end", format!("{good}\n")),
        vector("input ends after a 05", all[..5].join("\n") + "\n"),
        vector("input ends before 04", all[..3].join("\n") + "\n"),
        vector("input ends after 04, no line feed", all[..4].join("\n")),
    ];
    for (i, line) in all.iter().enumerate() {
        let with = |changed: String| {
            let mut lines: Vec<String> = all.iter().map(|l| l.to_string()).collect();
            lines[i] = changed;
            lines.retain(|l| l != "(none)");
            lines.join("\n") + "\n"
        };
        let number = i + 1;
        let mut add = |what: &str, changed: String| out.push(vector(&format!("line {number} {what}"), with(changed)));
        add("left out", "(none)".into());
        add("twice", format!("{line}\n{line}"));
        add("a digit short", line[..line.len() - 1].into());
        add("a byte short", line[..line.len() - 2].into());
        add("a byte long", format!("{line}00"));
        add("with a space", format!("{line} "));
        add("with a letter", format!("{}g", &line[..line.len() - 1]));
        add("of an unknown kind", format!("07{}", &line[2..]));
        if i < 4 {
            add("after a blank line", format!("\n{line}"));
            add("of kind 85", format!("85{}", &line[2..]));
        }
    }
    out.push(vector("upper case", good.replace("3fd", "3FD")));
    out.push(vector("a component first", "0100020001\n0301000000\n04\n"));
    out.push(vector("a component after 04", format!("{}0301000000\n", shots(&example(), &[]))));
    out
}

/// Bits past the width, in a row or in true observables.
fn paddings() -> Vec<Vector> {
    let mut out = Vec::new();
    for (name, at) in
        [("past the row", (4, 0)), ("past the true observables", (0, 2)), ("past both", (4, 2)), ("the highest", (1 << 63, 0))]
    {
        out.push(vector(&format!("a bit {name}"), shots(&example(), &[at])));
        out.push(vector(&format!("a bit {name}, second shot"), shots(&example(), &[(2, 1), at, (0, 0)])));
    }
    let pair = model(2, 1, vec![m(0.25, &[0, 1], &[])]);
    out.push(vector("a bit past the true observables of a Stuck shot", shots(&pair, &[(2, 2)])));
    out.push(vector("Stuck before a bit past the row", shots(&pair, &[(2, 0), (4, 0)])));
    for d in [63, 64, 65] {
        let whole = model(d, 1, vec![m(0.25, &[d - 1], &[0])]);
        let mut row = vec![0u64; d.div_ceil(64)];
        row[(d - 1) / 64] |= 1 << ((d - 1) % 64);
        out.push(vector(&format!("the last of {d} detectors"), frames::write(&whole, &[row.clone()], &[vec![1]])));
        if d % 64 != 0 {
            row[d / 64] |= 1 << (d % 64);
            out.push(vector(&format!("a bit past {d} detectors"), frames::write(&whole, &[row], &[vec![1]])));
        }
    }
    out
}

/// A model of one of the generators, with shots sampled or drawn.
fn drawn(rng: &mut Rng, number: usize) -> Vector {
    let hyper = rng.of(&HYPERS);
    let p = rng.of(&[0.003, 0.02]);
    let (name, model, count) = match number % 12 {
        0 if number % 48 == 0 => (format!("surface code 5 {hyper:?}"), surface(5, p, hyper), 12),
        0 | 1 => (format!("surface code 3 {hyper:?}"), surface(3, p, hyper), 16),
        2..=5 => ("islands".into(), islands(rng), 3),
        6..=8 => ("coverable".into(), coverable(rng, 7), 6),
        _ => ("small".into(), small(rng, 24, 30), 6),
    };
    let (rows, truth) = if number % 12 < 2 || rng.chance(0.5) {
        sample(&model, count, rng)
    } else {
        let density = rng.of(&[0.1, 0.5, 0.9]);
        let rows = (0..count).map(|_| random_row(rng, model.detectors, density)).collect();
        (rows, (0..count).map(|_| random_row(rng, model.observables, 0.3)).collect())
    };
    vector(&name, frames::write(&model, &rows, &truth))
}

/// A copy with one byte of a line changed to another digit, or two lines exchanged.
fn damaged(rng: &mut Rng, number: usize) -> Vector {
    let source = drawn(rng, 3 + number % 9);
    let mut lines: Vec<Vec<u8>> = source.input.lines().map(|l| l.as_bytes().to_vec()).collect();
    if rng.chance(0.3) {
        let (a, b) = (rng.below(lines.len()), rng.below(lines.len()));
        lines.swap(a, b);
    } else {
        let line = rng.below(lines.len());
        let at = rng.below(lines[line].len());
        lines[line][at] = rng.of(b"0123456789abcdefABCDEF");
    }
    let text: Vec<String> = lines.into_iter().map(|l| String::from_utf8(l).unwrap()).collect();
    vector(&format!("damaged {}", source.name), text.join("\n") + "\n")
}

fn vectors(count: usize, seed: u64) -> Vec<Vector> {
    let mut out: Vec<Vector> = [worked(), probabilities(), lists(), covers(), held(), lines(), paddings()].into_iter().flatten().collect();
    let fixed = out.len();
    for number in 0..count.saturating_sub(fixed) {
        let rng = &mut Rng(case_seed(seed, number as u64));
        out.push(if number % 3 == 2 { damaged(rng, number / 3) } else { drawn(rng, number) });
    }
    out
}

/// The example with each byte changed, and cut at each length.
fn broken() -> Vec<Vector> {
    let good = shots(&example(), &[(2, 1)]);
    let changed = (0..good.len()).map(|at| {
        let mut bytes = good.clone().into_bytes();
        bytes[at] ^= 1;
        vector(&format!("byte {at} changed"), String::from_utf8(bytes).unwrap())
    });
    let cut = (0..good.len()).map(|length| vector(&format!("cut at {length}"), &good[..length]));
    changed.chain(cut).collect()
}

/// Shots of a surface code's memory experiment.
fn memory(count: usize, seed: u64) -> Vector {
    let rng = &mut Rng(case_seed(seed, 0));
    let model = surface(5, 0.01, HYPERS[0]);
    let (rows, truth) = sample(&model, count, rng);
    vector("memory", frames::write(&model, &rows, &truth))
}

/// The code that ends an output, 0 for a rate.
fn last_code(output: &str) -> usize {
    match output.lines().last().and_then(|l| l.strip_prefix("ff")) {
        Some(code) => usize::from_str_radix(code, 16).unwrap(),
        None => 0,
    }
}

fn replay(all: &[(Vector, String)]) -> String {
    let mut text = String::new();
    for (number, (vector, output)) in all.iter().enumerate() {
        let (feed, end) = if vector.input.ends_with('\n') || vector.input.is_empty() { ("", "-") } else { ("\n", "-.") };
        write!(text, "= {number:04} {}\n{}{feed}{end}\n{output}", vector.name, vector.input).unwrap();
    }
    text + "=\n"
}

fn gate(all: &[(Vector, String)]) -> String {
    let mut text = String::new();
    for (vector, output) in all {
        write!(text, "{:08x}{:08x}\n{}{output}", vector.input.len(), output.len(), vector.input).unwrap();
    }
    text
}

fn main() {
    let args: Vec<String> = std::env::args().skip(1).collect();
    let usage = "vectors replay FILE [COUNT] [SEED] | pairs DIR [COUNT] [SEED] | gate FILE [COUNT] [SEED] | memory FILE [SHOTS] [SEED]";
    let (form, path) = (args.first().expect(usage), args.get(1).expect(usage));
    let number = |at: usize, default: u64| args.get(at).map_or(default, |x| x.parse().expect(usage));
    if form == "memory" {
        let made = memory(number(2, 300) as usize, number(3, 1));
        std::fs::write(format!("{path}.out"), frames::answer(made.input.as_bytes())).unwrap();
        std::fs::write(format!("{path}.in"), made.input).unwrap();
        return;
    }
    let more = if form == "gate" { broken().into_iter().chain([memory(300, 1)]).collect() } else { vec![] };
    let all: Vec<(Vector, String)> = vectors(number(2, 500) as usize, number(3, 1))
        .into_iter()
        .chain(more)
        .map(|v| {
            let output = frames::answer(v.input.as_bytes());
            (v, output)
        })
        .collect();
    match form.as_str() {
        "replay" => std::fs::write(path, replay(&all)).unwrap(),
        "pairs" => {
            std::fs::create_dir_all(path).unwrap();
            for (number, (vector, output)) in all.iter().enumerate() {
                std::fs::write(format!("{path}/{number:04}.in"), &vector.input).unwrap();
                std::fs::write(format!("{path}/{number:04}.out"), output).unwrap();
            }
        }
        "gate" => std::fs::write(path, gate(&all)).unwrap(),
        _ => panic!("{usage}"),
    }
    let mut codes = [0; 14];
    all.iter().for_each(|(_, output)| codes[last_code(output)] += 1);
    println!("{} inputs: {} end in a rate, refusals by code {:?}", all.len(), codes[0], &codes[1..]);
    for code in [1, 3, 4, 5, 6, 9, 11] {
        assert!(codes[code] > 0, "no input ends in code {code}");
    }
}
