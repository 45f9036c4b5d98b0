//! `sys` and `include/pavrenni.h` declare the same structs and the same calls, and ask the same of a caller; the header
//! has the version and the sentences of this crate.

use pavrenni::{sys, Code};
use std::fmt::Write;
use std::mem::{offset_of, size_of};

/// What C says of its structs: tests/c/run.sh holds the header to the same file.
const LAYOUT: &str = include_str!("../../tests/c/layout.txt");
const HEADER: &str = include_str!("../../include/pavrenni.h");
const DECLARED: &str = include_str!("../src/sys.rs");

fn size_of_field<T, F>(_: fn(&T) -> &F) -> usize {
    size_of::<F>()
}

macro_rules! layout {
    ($text:ident: $name:literal $kind:ident { $($field:ident),* $(,)? }) => {
        writeln!($text, "{} size {}", $name, size_of::<sys::$kind>()).unwrap();
        $(
            let (at, size) = (offset_of!(sys::$kind, $field), size_of_field(|x: &sys::$kind| &x.$field));
            writeln!($text, "{}.{} at {at} size {size}", $name, stringify!($field)).unwrap();
        )*
    };
}

#[test]
fn structs() {
    let mut text = String::new();
    layout!(text: "pavrenni_model" Model { code, first, second, mechanisms, components, entries });
    layout!(text: "pavrenni_graph" Graph { code, first, second, edges });
    layout!(text: "pavrenni_shot" Shot { code, first, second, rounds, length });
    layout!(text: "pavrenni_batch" Batch { code, first, second });
    layout!(text: "pavrenni_mark" Mark { code, first, second, passed, detector });
    layout!(text: "pavrenni_rate" Rate { code, first, second, rate });
    layout!(text: "pavrenni_size" Size { detectors, observables, edges });
    layout!(text: "pavrenni_lengths" Lengths { adj_offsets, adj, tree, flags, stacks, links, growth, sat });
    layout!(text: "pavrenni_decompose_lengths" DecomposeLengths {
        starts, before, last_of, first_of, next_of, numbers, masks, words0, words1, earlier,
    });
    layout!(text: "pavrenni_compile_lengths" CompileLengths { edge_p, first, next });
    layout!(text: "pavrenni_mark_lengths" MarkLengths { marks, wrong });
    assert_eq!(text, LAYOUT);
}

/// A name and a type.
type Parameter = (String, String);

/// The text between two marks, the first time that they stand.
fn between<'a>(text: &'a str, from: &str, to: &str) -> &'a str {
    let rest = &text[text.find(from).unwrap_or_else(|| panic!("no {from:?}")) + from.len()..];
    &rest[..rest.find(to).unwrap_or_else(|| panic!("no {to:?} after {from:?}"))]
}

/// The parameters in a text; those that are macros are replaced by what `group` says of them.
fn parameters(text: &str, one: fn(&str) -> Parameter, group: &dyn Fn(&str) -> Option<Vec<Parameter>>) -> Vec<Parameter> {
    let parts = text.split(',').map(str::trim).filter(|part| !part.is_empty());
    parts.flat_map(|part| group(part).unwrap_or_else(|| vec![one(part)])).collect()
}

/// `const double *edge_p` as `edge_p`, `*const f64`; `uint32_t (*adj)[2]` as `adj`, `*mut [u32; 2]`.
fn parameter_in_c(text: &str) -> Parameter {
    if let Some((entry, rest)) = text.split_once(" (*") {
        let (name, columns) = rest.split_once(")[").unwrap();
        let (_, entry) = parameter_in_c(&format!("{entry} {name}"));
        return (name.to_string(), format!("*mut [{entry}; {}]", columns.strip_suffix(']').unwrap()));
    }
    let (kind, name) = text.split_at(text.rfind([' ', '*']).unwrap() + 1);
    let plain = match kind.replace("const ", "").trim_end_matches('*').trim() {
        "size_t" => "usize",
        "double" => "f64",
        "uint8_t" => "u8",
        "uint16_t" => "u16",
        "uint32_t" => "u32",
        "uint64_t" => "u64",
        "bool" => "bool",
        "struct pavrenni_size" => "Size",
        other => panic!("{other} is not a type of the header"),
    };
    let pointer = match (kind.contains('*'), kind.contains("const ")) {
        (true, true) => "*const ",
        (true, false) => "*mut ",
        _ => "",
    };
    (name.to_string(), format!("{pointer}{plain}"))
}

fn parameter_in_rust(text: &str) -> Parameter {
    let (name, kind) = text.split_once(": ").unwrap();
    (name.to_string(), kind.to_string())
}

/// The parameters that the header gives a call.
fn in_header(call: &str) -> Vec<Parameter> {
    let header = HEADER.replace("\\\n", "");
    let group = |part: &str| {
        let name = part.strip_prefix("PAVRENNI_")?;
        let listed = between(&header, &format!("#define PAVRENNI_{name} "), "\n");
        Some(parameters(listed, parameter_in_c, &|_| None))
    };
    parameters(between(&header, &format!(" {call}("), ");"), parameter_in_c, &group)
}

/// The parameters that `sys` gives a call: those of its macro, then its own; a call that decodes has what it writes,
/// its macro's, then what it reads.
fn in_sys(call: &str) -> Vec<Parameter> {
    let read = |text: &str| parameters(text, parameter_in_rust, &|_| None);
    if let Some(at) = DECLARED.find(&format!("pub fn {call}(")) {
        return read(between(&DECLARED[at..], "(", ")"));
    }
    let (before, rest) = DECLARED.split_once(&format!("\n    {call}(")).unwrap_or_else(|| panic!("no {call}"));
    let own = &rest[..rest.find(") ->").unwrap()];
    let name = before[..before.rfind("! {").unwrap()].rsplit('\n').next().unwrap();
    let shared = |from: &str| read(between(between(DECLARED, &format!("macro_rules! {name} {{"), "-> $answer;"), from, "$("));
    match own.split_once(';') {
        Some((written, given)) => [read(written), shared("$($own: $kind,)*"), read(given)].concat(),
        None => [shared("pub fn $name("), read(own)].concat(),
    }
}

#[test]
fn calls() {
    let calls = [
        ("pavrenni_lengths_for", 2),
        ("pavrenni_decompose_lengths_for", 2),
        ("pavrenni_compile_lengths_for", 2),
        ("pavrenni_mark_lengths_for", 2),
        ("pavrenni_decompose", 3 + 2 * 7 + 2 * 7 + 2 * 10),
        ("pavrenni_compile", 3 + 2 * 7 + 2 * 4 + 2 * 3),
        ("pavrenni_decode_shot", 1 + 2 * 4 + 7 + 2 * 8),
        ("pavrenni_decode_batch", 1 + 2 * 4 + 8 + 2 * 8),
        ("pavrenni_mark", 1 + 2 * 4 + 7 + 2 * 2),
        ("pavrenni_rate", 1 + 2 * 4 + 12 + 2 * 8),
    ];
    for (call, count) in calls {
        assert_eq!(in_sys(call), in_header(call), "{call}");
        assert_eq!(in_header(call).len(), count, "{call}");
    }
}

/// The paragraph "Safety" of a file: its words, without the marks that begin the lines of a comment.
fn safety(text: &str) -> String {
    let lines = text.lines().map(|line| line.trim_start().trim_start_matches("//!").trim_start_matches('*'));
    let words = lines.flat_map(str::split_whitespace).collect::<Vec<_>>().join(" ");
    between(&words, "Safety. ", " at the same time.").to_string()
}

#[test]
fn what_a_call_asks() {
    assert_eq!(safety(HEADER), safety(DECLARED));
    let asked = safety(DECLARED);
    assert!(
        asked.starts_with("A call asks this of its caller and nothing else.") && asked.ends_with("calls on memory of their own may run")
    );
}

#[test]
fn version() {
    assert_eq!(between(HEADER, "#define PAVRENNI_VERSION \"", "\"\n"), env!("CARGO_PKG_VERSION"));
}

/// `NoCover` as `NO_COVER`.
fn name_in_c(name: &str) -> String {
    let letter = |(at, letter): (usize, char)| {
        let gap = if at > 0 && letter.is_uppercase() { "_" } else { "" };
        format!("{gap}{}", letter.to_ascii_uppercase())
    };
    name.char_indices().map(letter).collect()
}

#[test]
fn codes() {
    let texts = between(HEADER, "pavrenni_code_text(uint32_t code)", "\n}");
    for code in Code::ALL {
        let name = format!("PAVRENNI_{}", name_in_c(code.name()));
        let (_, number) = HEADER.split_once(&format!(" {name} = ")).unwrap_or_else(|| panic!("no {name}"));
        assert_eq!(number.split(|c: char| !c.is_ascii_digit()).next(), Some(&*code.number().to_string()), "{name}");
        // a sentence may be in several literals, one after another
        let literals = between(texts, &format!("case {name}:"), ";");
        let sentence: String = literals.split('"').skip(1).step_by(2).collect();
        assert_eq!(sentence, code.to_string(), "{name}");
    }
}
