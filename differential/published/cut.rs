// Cuts the published Rust. Every cut is by an anchor that must occur once, of files whose SHA-256 is pinned; anything else ends the build.

use std::fs;
use std::path::Path;

/// The files that are cut, with their digests at commit bb77d8f888.
pub const SOURCES: [(&str, &str); 4] = [
    ("src/qec/decoder.rs", "17baea480193874de55aa0aca6a793b16237fce636e9008b3060b5da15e88d8a"),
    ("src/qec/dem.rs", "512463d481db2ed367cb08e6cda820833fe25e0122b5eedabc799733838aab7d"),
    ("src/sim/compiled/mod.rs", "840885a652259802f9373098da825224f53a73591ba185acbb21b1bc84d54751"),
    ("src/error.rs", "5cba08367b3bb9dd068d1ac0156bb60b56671f288c0493d7e56ff5b099bdd7a9"),
];

/// The one line that the rules replace: the library's logarithm by the stated one.
const LOGARITHM: &str = "((1.0 - p) / p).ln().max(0.0)";
const STATED: &str = "crate::weight::stated((1.0 - p) / p)";

fn load(dir: &Path, path: &str) -> Result<String, String> {
    let (_, pinned) = SOURCES.iter().find(|(name, _)| *name == path).ok_or(format!("{path} is not pinned"))?;
    let bytes = fs::read(dir.join(path)).map_err(|e| format!("{}: {e}", dir.join(path).display()))?;
    let found = crate::sha256::sha256(&bytes);
    if found != *pinned {
        return Err(format!("{path} has SHA-256 {found}, not {pinned}"));
    }
    String::from_utf8(bytes).map_err(|e| format!("{path}: {e}"))
}

fn indent_of(line: &str) -> usize {
    line.len() - line.trim_start().len()
}

/// The index of the one line in `lo..hi` that passes.
fn only(lines: &[&str], lo: usize, hi: usize, anchor: &str, test: impl Fn(&str) -> bool) -> Result<usize, String> {
    let hits: Vec<usize> = (lo..hi).filter(|&i| test(lines[i])).collect();
    match hits[..] {
        [at] => Ok(at),
        _ => Err(format!("anchor `{anchor}` occurs {} times", hits.len())),
    }
}

/// The lines of the item whose head starts with `anchor` at this indent, with its comments and attributes.
fn item_in(lines: &[&str], lo: usize, hi: usize, indent: usize, anchor: &str) -> Result<(usize, usize), String> {
    let head = only(lines, lo, hi, anchor, |l| indent_of(l) == indent && l.trim_start().starts_with(anchor))?;
    let mut begin = head;
    while begin > lo {
        let above = lines[begin - 1].trim_start();
        if indent_of(lines[begin - 1]) != indent || !(above.starts_with("///") || above.starts_with("#[")) {
            break;
        }
        begin -= 1;
    }
    let one_line = lines[head].ends_with(';') || (lines[head].ends_with('}') && lines[head].contains('{'));
    if one_line {
        return Ok((begin, head + 1));
    }
    let close = format!("{}}}", " ".repeat(indent));
    let end = (head..hi).find(|&i| lines[i] == close).ok_or(format!("no end of `{anchor}`"))?;
    Ok((begin, end + 1))
}

fn item(lines: &[&str], anchor: &str) -> Result<String, String> {
    let (begin, end) = item_in(lines, 0, lines.len(), 0, anchor)?;
    Ok(lines[begin..end].join("\n") + "\n\n")
}

/// The impl block of this header, with these of its methods alone.
fn methods(lines: &[&str], header: &str, names: &[&str]) -> Result<String, String> {
    let (begin, end) = item_in(lines, 0, lines.len(), 0, header)?;
    let mut out = format!("{header} {{\n");
    for name in names {
        let (b, e) = item_in(lines, begin, end, 4, name)?;
        out += &(lines[b..e].join("\n") + "\n\n");
    }
    Ok(out + "}\n\n")
}

/// From the one line equal to `first` up to, not including, the next line equal to `stop`.
fn span(lines: &[&str], first: &str, stop: &str) -> Result<String, String> {
    let begin = only(lines, 0, lines.len(), first, |l| l == first)?;
    let end = (begin..lines.len()).find(|&i| lines[i] == stop).ok_or(format!("no end of `{first}`"))?;
    Ok(lines[begin..end].join("\n") + "\n")
}

/// decoder.rs whole, its logarithm replaced, and two spans of it once more as functions of their own for the probe.
fn decoder(text: &str) -> Result<String, String> {
    if text.matches(LOGARITHM).count() != 1 {
        return Err(format!("`{LOGARITHM}` must occur once"));
    }
    let lines: Vec<&str> = text.lines().collect();
    // `include!` allows no inner comments.
    let plain: Vec<String> = lines.iter().map(|l| if l.starts_with("//!") { l.replacen("//!", "//", 1) } else { l.to_string() }).collect();
    let mut out = plain.join("\n").replacen(LOGARITHM, STATED, 1);
    out += "\n\nfn adjacency_span(num_detectors: usize, edge_u: &[u32], edge_v: &[u32]) -> (Vec<u32>, Vec<u32>) {\n";
    out += &span(&lines, "        let mut adj_offsets = vec![0u32; num_detectors + 1];", "        Ok(Self {")?;
    out += "        (adj_offsets, adj_edge)\n}\n";
    out += "\nfn list_lit_span(row: &[u64], s: &mut DecodeScratch) {\n";
    out += &span(&lines, "        s.defects.clear();", "        if s.defects.is_empty() {")?;
    Ok(out + "}\n")
}

/// dem.rs without what derives models from programs and reads texts, which needs files that are not published.
fn dem(text: &str) -> Result<String, String> {
    let lines: Vec<&str> = text.lines().collect();
    let mut out = String::from("use std::collections::HashMap;\nuse std::fmt::Write;\nuse crate::error::{PrismError, Result};\n\n");
    for anchor in ["pub struct ErrorMechanism", "impl ErrorMechanism", "pub struct DetectorErrorModel"] {
        out += &item(&lines, anchor)?;
    }
    out += &methods(
        &lines,
        "impl DetectorErrorModel",
        &[
            "pub(super) fn from_parts(",
            "pub fn mechanisms(",
            "pub fn num_mechanisms(",
            "pub fn num_detectors(",
            "pub fn num_observables(",
            "pub fn detector_coords(",
            "pub fn decompose_graphlike(",
            "pub fn to_text(",
        ],
    )?;
    for anchor in [
        "fn write_symptom(",
        "pub(super) type Symptom",
        "struct CoverIndex",
        "impl CoverIndex",
        "fn partition_cover(",
        "fn is_subset(",
        "fn symmetric_difference(",
        "pub(super) fn symptom_label(",
    ] {
        out += &item(&lines, anchor)?;
    }
    Ok(out)
}

/// sim/compiled/mod.rs: packing alone.
fn packing(text: &str) -> Result<String, String> {
    let lines: Vec<&str> = text.lines().collect();
    let mut out = String::from("use crate::error::{PrismError, Result};\nuse super::accumulator::transpose_64x64_dispatch;\n\n");
    for anchor in [
        "pub enum ShotLayout",
        "const SPARSE_TRANSPOSE_BITS",
        "fn transpose_meas_major_blocks<",
        "pub(crate) fn measurement_tail_mask(",
        "pub(crate) fn shot_tail_mask(",
        "fn checked_packed_len(",
        "fn validate_packed_len(",
        "fn validate_shot_major_padding(",
        "fn first_shot_major_padding_violation(",
        "fn validate_meas_major_padding(",
        "pub struct PackedShots",
    ] {
        out += &item(&lines, anchor)?;
    }
    let names = [
        "pub fn num_shots(",
        "pub fn num_measurements(",
        "pub fn layout(",
        "pub fn get_bit(",
        "pub fn s_words(",
        "pub fn m_words(",
        "pub fn shot_words(",
        "pub fn meas_words(",
        "pub fn try_from_shot_major(",
        "pub fn from_shot_major(",
        "pub fn try_from_meas_major(",
        "pub fn from_meas_major(",
        "pub fn raw_data(",
        "pub fn into_data(",
        "pub(crate) fn into_shot_major_data(",
        "fn meas_major_to_shot_major_words(",
        "fn transpose_into_shot_major(",
        "pub fn to_shot_major(",
        "pub fn to_meas_major(",
        "pub(crate) fn into_meas_major_data(",
    ];
    Ok(out + &methods(&lines, "impl PackedShots", &names)?)
}

/// error.rs: the one variant that matters and the alias.
fn error(text: &str) -> Result<String, String> {
    let lines: Vec<&str> = text.lines().collect();
    let (begin, end) = item_in(&lines, 0, lines.len(), 0, "pub enum PrismError")?;
    let variant = "InvalidParameter { message: String },";
    let at = only(&lines, begin, end, variant, |l| l.trim() == variant)?;
    let head = "#[derive(Debug, Clone, PartialEq)]\n#[non_exhaustive]\npub enum PrismError {\n";
    Ok(format!("{head}{}\n}}\n\n{}", lines[at], item(&lines, "pub type Result<T>")?))
}

/// Writes decoder.rs, dem.rs, compiled.rs and error.rs into `out`.
pub fn cut(source: &Path, out: &Path) -> Result<(), String> {
    let cuts: [(&str, &str, fn(&str) -> Result<String, String>); 4] = [
        ("src/qec/decoder.rs", "decoder.rs", decoder),
        ("src/qec/dem.rs", "dem.rs", dem),
        ("src/sim/compiled/mod.rs", "compiled.rs", packing),
        ("src/error.rs", "error.rs", error),
    ];
    for (path, to, cut) in cuts {
        let text = cut(&load(source, path)?).map_err(|e| format!("{path}: {e}"))?;
        fs::write(out.join(to), text).map_err(|e| e.to_string())?;
    }
    Ok(())
}
