//! Refusals: docs/RULES.md, "Refusals".

use std::fmt;

/// The codes, each said once: number, name, sentence.
macro_rules! codes {
    ($($number:literal $name:ident $sentence:literal),* $(,)?) => {
        /// Why a call was refused: a row of the table in docs/RULES.md, "Refusals".
        ///
        /// Displayed, it is a sentence; [`name`](Code::name) and [`number`](Code::number) are for a program.
        ///
        /// ```
        /// use pavrenni::Code;
        ///
        /// assert_eq!(Code::of(11), Code::Stuck);
        /// assert_eq!((Code::Stuck.number(), Code::Stuck.name()), (11, "Stuck"));
        /// assert_eq!(Code::Stuck.to_string(), "no set of edges explains it");
        /// for code in Code::ALL {
        ///     println!("{:2} {:12} {code}", code.number(), code.name());
        /// }
        /// ```
        #[derive(Clone, Copy, Debug, PartialEq, Eq, Hash)]
        #[non_exhaustive]
        pub enum Code {
            $(#[doc = concat!($number, ": ", $sentence, ".")] $name,)*
            /// A number that this crate does not know.
            Other(u32),
        }

        impl Code {
            /// The codes that this crate knows, by ascending number.
            pub const ALL: &'static [Code] = &[$(Code::$name),*];

            /// The code with this number.
            #[must_use]
            pub const fn of(number: u32) -> Code {
                match number {
                    $($number => Code::$name,)*
                    _ => Code::Other(number),
                }
            }

            /// Its number.
            #[must_use]
            pub const fn number(self) -> u32 {
                match self {
                    $(Code::$name => $number,)*
                    Code::Other(number) => number,
                }
            }

            /// Its name, which stays the same from version to version; `Other` where this crate does not know it.
            #[must_use]
            pub const fn name(self) -> &'static str {
                match self {
                    $(Code::$name => stringify!($name),)*
                    Code::Other(_) => "Other",
                }
            }

            const fn sentence(self) -> &'static str {
                match self {
                    $(Code::$name => $sentence,)*
                    Code::Other(_) => "a refusal that this client does not know",
                }
            }
        }
    };
}

codes! {
    1 Limit "a count is over its limit, or the decomposed model finds no place",
    2 Short "a table, list, output or scratch slice is too short",
    3 Frame "frame digits, kind, length or order are wrong",
    4 Probability "the probability is not in [0, 1), or the weight is neither from 0 to 1,024 nor infinity",
    5 Index "a list is not strictly ascending, out of range or too long, or an edge's ends or observables are out of range",
    6 NoCover "no choice of smaller mechanisms covers it",
    7 NotGraphlike "it has over two detectors",
    8 Length "the row data has the wrong length",
    9 Padding "a bit past the width is set",
    10 Width "the width differs from the number of detectors",
    11 Stuck "no set of edges explains it",
    12 Shape "the true observables have the wrong shape",
    13 Edge "an edge of the list is unknown or repeated",
}

/// What a refusal names: codes 4 to 7 a mechanism or an edge, 9 and 11 a shot; the frame reader a line.
#[derive(Clone, Copy, Debug, PartialEq, Eq, Hash)]
#[non_exhaustive]
pub enum Item {
    /// A mechanism of the model that was handed over, from 0.
    Mechanism(usize),
    /// An edge of the lent graph, from 0.
    Edge(usize),
    /// A shot, from 0; a shot that is decoded or marked alone is shot 0.
    Shot(usize),
    /// A line of the text, from 1.
    Line(usize),
}

/// A refusal, with the values that its code names.
#[derive(Clone, Copy, Debug, PartialEq, Eq, Hash)]
#[non_exhaustive]
pub struct Error {
    /// Why.
    pub code: Code,
    /// The mechanism, edge, shot or line, where the code names one.
    pub at: Option<Item>,
    /// The detector that Stuck names: the lowest of its cluster.
    pub detector: Option<usize>,
    /// The rounds finished before Stuck, where a single shot was decoded.
    pub rounds: Option<u32>,
    /// More than the code says: what is wrong with a line of frames.
    pub reason: Option<&'static str>,
}

impl Error {
    /// `Ok` for code 0, else the refusal with its values; `item` makes of a number what codes 4 to 7 name in this call.
    pub(crate) fn check(code: u32, first: usize, second: usize, item: fn(usize) -> Item) -> Result<(), Error> {
        if code == 0 {
            return Ok(());
        }
        let code = Code::of(code);
        let at = match code {
            Code::Probability | Code::Index | Code::NoCover | Code::NotGraphlike => Some(item(first)),
            Code::Padding | Code::Stuck => Some(Item::Shot(first)),
            _ => None,
        };
        let detector = if code == Code::Stuck { Some(second) } else { None };
        Err(Error { code, at, detector, rounds: None, reason: None })
    }

    /// A refusal by the reader or the writer of frames.
    pub(crate) fn frame(line: Option<usize>, reason: &'static str) -> Error {
        Error { code: Code::Frame, at: line.map(Item::Line), detector: None, rounds: None, reason: Some(reason) }
    }
}

impl fmt::Display for Code {
    fn fmt(&self, f: &mut fmt::Formatter<'_>) -> fmt::Result {
        f.write_str(self.sentence())
    }
}

impl fmt::Display for Item {
    fn fmt(&self, f: &mut fmt::Formatter<'_>) -> fmt::Result {
        match self {
            Item::Mechanism(number) => write!(f, "mechanism {number}"),
            Item::Edge(number) => write!(f, "edge {number}"),
            Item::Shot(number) => write!(f, "shot {number}"),
            Item::Line(number) => write!(f, "line {number}"),
        }
    }
}

impl fmt::Display for Error {
    fn fmt(&self, f: &mut fmt::Formatter<'_>) -> fmt::Result {
        write!(f, "code {}", self.code.number())?;
        if let Some(at) = self.at {
            write!(f, ", {at}")?;
        }
        write!(f, ": {}", self.code)?;
        if let Some(reason) = self.reason {
            write!(f, ": {reason}")?;
        }
        if let Some(detector) = self.detector {
            write!(f, "; the cluster of detector {detector} is stuck")?;
        }
        if let Some(rounds) = self.rounds {
            write!(f, ", rounds finished: {rounds}")?;
        }
        Ok(())
    }
}

impl std::error::Error for Error {}
