//! How many choices the search for a first cover makes before it finds that there is none, as it is and with a table of
//! what has failed.
//!
//!     covers DETECTORS VARIANTS few|many [MOST]
//!
//! A mechanism of DETECTORS detectors is to be covered by pairs, each pair in VARIANTS mechanisms that differ in their
//! observables alone, and it flips an observable that no pair has. `few`: the variants of each pair are the same sets of
//! observables, so that many choices XOR to the same; `many`: they are drawn, so that hardly two do. The search stops
//! after MOST choices (default 100,000,000). docs/DECISIONS.md, "Models", has what it showed.

use differential::rng::Rng;
use std::env;
use std::process::ExitCode;

/// A pair of detectors as a set of bits, and its observables.
#[derive(Clone, Copy)]
struct Piece {
    detectors: u16,
    observables: u64,
}

/// The table remembers, at a place given by what is left, from which piece on nothing covers it.
struct Search {
    pieces: Vec<Piece>,
    failed: Vec<Option<(u16, u64, usize)>>,
    choices: u64,
    most: u64,
}

impl Search {
    fn place(&self, left: u16, owed: u64) -> usize {
        // splitmix64's own mixing spreads what is left and what is owed over the places
        let mixed = Rng(owed ^ Rng(u64::from(left)).next()).next();
        (mixed % self.failed.len() as u64) as usize
    }

    fn has_failed(&self, left: u16, owed: u64, start: usize) -> bool {
        !self.failed.is_empty() && matches!(self.failed[self.place(left, owed)], Some((l, o, s)) if l == left && o == owed && s <= start)
    }

    /// Whether the pieces from `start` on cover what is left; `None` once the search has made all choices that it may.
    fn covers(&mut self, left: u16, owed: u64, start: usize) -> Option<bool> {
        self.choices += 1;
        if self.choices > self.most {
            return None;
        }
        if left == 0 || self.has_failed(left, owed, start) {
            return Some(left == 0 && owed == 0);
        }
        for at in start..self.pieces.len() {
            let piece = self.pieces[at];
            if left & piece.detectors == piece.detectors && self.covers(left ^ piece.detectors, owed ^ piece.observables, at + 1)? {
                return Some(true);
            }
        }
        if !self.failed.is_empty() {
            let place = self.place(left, owed);
            self.failed[place] = Some((left, owed, start));
        }
        Some(false)
    }
}

fn pieces(detectors: u32, variants: u64, few: bool) -> Vec<Piece> {
    let mut rng = Rng(1);
    let mut pieces = Vec::new();
    for low in 0..detectors {
        for high in low + 1..detectors {
            for variant in 0..variants {
                let observables = if few { variant } else { rng.next() >> 1 };
                pieces.push(Piece { detectors: 1 << low | 1 << high, observables });
            }
        }
    }
    pieces
}

fn run() -> Option<()> {
    let words: Vec<String> = env::args().skip(1).collect();
    let detectors: u32 = words.first()?.parse().ok().filter(|n| (1..=16).contains(n))?;
    let variants: u64 = words.get(1)?.parse().ok()?;
    let few = match words.get(2)?.as_str() {
        "few" => true,
        "many" => false,
        _ => return None,
    };
    let most = words.get(3).map_or(Some(100_000_000), |word| word.parse().ok())?;
    let pieces = pieces(detectors, variants, few);
    // as long as scratch may be: 64·(D + M + 1)
    let longest = 64 * (detectors as usize + pieces.len() + 2);
    for (name, length) in [("as it is", 0), ("with a table of what has failed", longest)] {
        let mut search = Search { pieces: pieces.clone(), failed: vec![None; length], choices: 0, most };
        let all = u16::MAX >> (16 - detectors);
        let told = if search.covers(all, 1 << 63, 0).is_none() { "not ended after" } else { "ended after" };
        println!("{detectors} detectors, {variants} variants, {name}: {told} {} choices", search.choices.min(most));
    }
    Some(())
}

fn main() -> ExitCode {
    if run().is_none() {
        eprintln!("covers DETECTORS VARIANTS few|many [MOST]");
        return ExitCode::FAILURE;
    }
    ExitCode::SUCCESS
}
