//! Frames: docs/RULES.md, "Frames". One a line, lower-case hexadecimal, big-endian.
//!
//! Frames say how things are written, not whether they are right: a model or a shot that is read here is checked by the
//! calls that take it. What no frame can say is refused with code 3, by the reader with its line.
//!
//! ```
//! use pavrenni::frames;
//!
//! let text = "0100020001\n\
//!     023fd0000000000000010100000000\n\
//!     023fd0000000000000020000000001\n\
//!     04\n\
//!     050000000000000002\n\
//!     060000000000000001\n";
//! let recording = frames::read(text.as_bytes())?;
//! assert_eq!(recording.model.mechanisms[1].detectors, [0, 1]);
//! assert_eq!(recording.shot(0), Some(&[2][..]));
//! assert_eq!(frames::write(&recording)?, text);
//!
//! assert_eq!(frames::read_lists(b"86000200010000\n")?, [[1, 0]]);
//! assert_eq!(frames::write_list(&[1, 0])?, "86000200010000\n");
//!
//! let wrong = frames::read(b"0100020001\n05").unwrap_err();
//! assert_eq!(wrong.at, Some(pavrenni::Item::Line(2)));
//! assert_eq!(wrong.reason, Some("frame 05 does not stand before frame 04"));
//! # Ok::<(), pavrenni::Error>(())
//! ```

use crate::{Component, Error, Mechanism, Model, Packed};
use std::fmt::Write;
use std::iter::FusedIterator;

/// A model with shots and their true observables.
#[derive(Clone, Debug, Default, PartialEq)]
pub struct Recording {
    /// The model.
    pub model: Model,
    /// How many shots there are.
    pub shots: usize,
    /// A row of detectors a shot.
    pub rows: Vec<u64>,
    /// A row of true observables a shot.
    pub truth: Vec<u64>,
}

impl Recording {
    /// All shots.
    #[must_use]
    pub fn packed(&self) -> Packed<'_> {
        Packed::new(&self.rows, self.shots, self.model.detectors)
    }

    /// The true observables of all shots.
    #[must_use]
    pub fn packed_truth(&self) -> Packed<'_> {
        Packed::new(&self.truth, self.shots, self.model.observables)
    }

    /// The row of one shot; `None` where there is no such shot.
    #[must_use]
    pub fn shot(&self, shot: usize) -> Option<&[u64]> {
        row_of(self.packed(), shot)
    }

    /// The true observables of one shot; `None` where there is no such shot.
    #[must_use]
    pub fn true_observables(&self, shot: usize) -> Option<&[u64]> {
        row_of(self.packed_truth(), shot)
    }
}

fn row_of(rows: Packed<'_>, shot: usize) -> Option<&[u64]> {
    let words = rows.width.div_ceil(64);
    let start = shot.checked_mul(words).filter(|_| shot < rows.shots)?;
    rows.words.get(start..start.checked_add(words)?)
}

// ---- reading

/// What is left of a frame.
struct Frame {
    line: usize,
    bytes: Vec<u8>,
    at: usize,
}

impl Frame {
    fn of(line: usize, digits: &[u8]) -> Result<Frame, Error> {
        if digits.ends_with(b"\r") {
            return Err(Error::frame(Some(line), "the line ends in a carriage return, and a line feed alone ends a line"));
        }
        if digits.is_empty() {
            return Err(Error::frame(Some(line), "the line is empty"));
        }
        let pairs = digits.chunks_exact(2);
        if !pairs.remainder().is_empty() {
            return Err(Error::frame(Some(line), "the number of digits is odd"));
        }
        let mut bytes = Vec::with_capacity(pairs.len());
        for pair in pairs {
            match (digit(pair[0]), digit(pair[1])) {
                (Some(high), Some(low)) => bytes.push(16 * high + low),
                _ => return Err(Error::frame(Some(line), "a digit is not lower-case hexadecimal")),
            }
        }
        Ok(Frame { line, bytes, at: 0 })
    }

    fn refuse(&self, reason: &'static str) -> Error {
        Error::frame(Some(self.line), reason)
    }

    /// The next `size` bytes as a number.
    fn number(&mut self, size: usize) -> Result<u64, Error> {
        let end = self.at + size;
        let bytes = self.bytes.get(self.at..end).ok_or_else(|| self.refuse("the frame is too short"))?;
        let number = bytes.iter().fold(0, |number, byte| number << 8 | u64::from(*byte));
        self.at = end;
        Ok(number)
    }

    /// Indices of two bytes.
    fn list(&mut self, count: u64) -> Result<Vec<u32>, Error> {
        (0..count).map(|_| Ok(self.number(2)? as u32)).collect()
    }

    /// Counts of detectors and of observables, then both lists.
    fn lists(&mut self) -> Result<Component, Error> {
        let detectors = self.number(1)?;
        let observables = self.number(1)?;
        Ok(Component { detectors: self.list(detectors)?, observables: self.list(observables)? })
    }

    /// A frame that holds a row of `width` bits, and no more.
    fn row(&mut self, width: usize) -> Result<Vec<u64>, Error> {
        let row = (0..width.div_ceil(64)).map(|_| self.number(8)).collect::<Result<_, _>>()?;
        self.end()?;
        Ok(row)
    }

    /// The kind of the frame, which has to be this one.
    fn kind(&mut self, part: Part, wanted: u64) -> Result<(), Error> {
        match self.number(1)? {
            kind if kind == wanted => Ok(()),
            kind => Err(self.refuse(out_of_place(part, kind))),
        }
    }

    fn end(&self) -> Result<(), Error> {
        if self.at < self.bytes.len() {
            return Err(self.refuse("the frame is too long"));
        }
        Ok(())
    }
}

fn digit(byte: u8) -> Option<u8> {
    match byte {
        b'0'..=b'9' => Some(byte - b'0'),
        b'a'..=b'f' => Some(byte - b'a' + 10),
        _ => None,
    }
}

/// The frames of a text, one a line. The line feed of the last line may be missing.
#[derive(Clone, Debug)]
struct Frames<'a> {
    rest: &'a [u8],
    line: usize,
}

impl<'a> Frames<'a> {
    fn of(text: &'a [u8]) -> Frames<'a> {
        Frames { rest: text, line: 0 }
    }
}

impl Iterator for Frames<'_> {
    type Item = Result<Frame, Error>;

    fn next(&mut self) -> Option<Self::Item> {
        if self.rest.is_empty() {
            return None;
        }
        let end = self.rest.iter().position(|byte| *byte == b'\n').unwrap_or(self.rest.len());
        let digits = &self.rest[..end];
        self.rest = self.rest.get(end + 1..).unwrap_or_default();
        self.line += 1;
        Some(Frame::of(self.line, digits))
    }
}

/// Which frames may come next.
#[derive(Clone, Copy, PartialEq)]
enum Part {
    Head,
    Model,
    Shot,
    Truth,
}

/// Reads a model and its shots: frames 01 to 04, then 05 and 06 in turn.
///
/// # Errors
///
/// 3 with the line and the reason, without a line where the text ends too early. Nothing is handed back:
/// [`read_model`] hands out what stands before the line.
pub fn read(text: &[u8]) -> Result<Recording, Error> {
    let (model, shots) = read_model(text)?;
    let mut recording = Recording { model, ..Recording::default() };
    for shot in shots {
        let RecordedShot { row, truth } = shot?;
        recording.shots += 1;
        recording.rows.extend(row);
        recording.truth.extend(truth);
    }
    Ok(recording)
}

/// Reads a model, frames 01 to 04, and hands out the shots behind it, of which none is read yet.
///
/// ```
/// use pavrenni::frames;
///
/// let text = b"0100020001\n04\n050000000000000002\n060000000000000001\n05\n";
/// let (model, mut shots) = frames::read_model(text)?;
/// assert_eq!(model.detectors, 2);
/// assert_eq!(shots.next().unwrap()?.row, [2]);
/// assert_eq!(shots.next().unwrap().unwrap_err().reason, Some("the frame is too short"));
/// assert!(shots.next().is_none());
/// # Ok::<(), pavrenni::Error>(())
/// ```
///
/// # Errors
///
/// 3 with the line and the reason, without a line where the text ends before frame 04.
pub fn read_model(text: &[u8]) -> Result<(Model, Shots<'_>), Error> {
    let mut frames = Frames::of(text);
    let mut next = || frames.next().unwrap_or(Err(Error::frame(None, "the input ends before frame 04")));
    let mut head = next()?;
    head.kind(Part::Head, 1)?;
    let mut model = Model::new(head.number(2)? as usize, head.number(2)? as usize);
    head.end()?;
    while model.take(&mut next()?)? {}
    let (detectors, observables) = (model.detectors, model.observables);
    Ok((model, Shots { frames, detectors, observables }))
}

impl Model {
    /// Takes a frame behind 01; `false` for 04, which is the last.
    fn take(&mut self, frame: &mut Frame) -> Result<bool, Error> {
        let kind = frame.number(1)?;
        match kind {
            2 => {
                let probability = f64::from_bits(frame.number(8)?);
                let lists = frame.lists()?;
                self.mechanisms.push(Mechanism::new(probability, lists.detectors, lists.observables));
            }
            3 => {
                let component = frame.lists()?;
                let mechanism = self.mechanisms.last_mut();
                mechanism.ok_or_else(|| frame.refuse("frame 03 has no frame 02 above it"))?.components.push(component);
            }
            4 => (),
            kind => return Err(frame.refuse(out_of_place(Part::Model, kind))),
        }
        frame.end()?;
        Ok(kind != 4)
    }
}

/// A shot with its true observables.
#[must_use]
#[derive(Clone, Debug, Default, PartialEq, Eq)]
#[non_exhaustive]
pub struct RecordedShot {
    /// The row of detectors, frame 05.
    pub row: Vec<u64>,
    /// The row of true observables, frame 06.
    pub truth: Vec<u64>,
}

/// The shots behind a model, each read when it is asked for. A refusal has code 3, the line and the reason (no line
/// where the text ends after a frame 05), and is the last.
#[must_use]
#[derive(Clone, Debug)]
pub struct Shots<'a> {
    frames: Frames<'a>,
    detectors: usize,
    observables: usize,
}

impl Shots<'_> {
    /// The shot that begins with this frame.
    fn shot(&mut self, mut first: Frame) -> Result<RecordedShot, Error> {
        first.kind(Part::Shot, 5)?;
        let row = first.row(self.detectors)?;
        let ends = Error::frame(None, "the input ends after a frame 05, before its frame 06");
        let mut second = self.frames.next().unwrap_or(Err(ends))?;
        second.kind(Part::Truth, 6)?;
        Ok(RecordedShot { row, truth: second.row(self.observables)? })
    }
}

impl Iterator for Shots<'_> {
    type Item = Result<RecordedShot, Error>;

    fn next(&mut self) -> Option<Self::Item> {
        let shot = self.frames.next()?.and_then(|frame| self.shot(frame));
        if shot.is_err() {
            self.frames.rest = &[];
        }
        Some(shot)
    }
}

impl FusedIterator for Shots<'_> {}

/// Why a frame of this kind does not stand here.
fn out_of_place(part: Part, kind: u64) -> &'static str {
    match (part, kind) {
        (Part::Head, _) => "a model begins with frame 01",
        (_, 1) => "frame 01 stands at the beginning alone",
        (Part::Model, 5) => "frame 05 does not stand before frame 04",
        (Part::Model, 6) => "frame 06 does not stand before frame 04",
        (Part::Truth, 5) => "a frame 05 follows another, and its frame 06 is missing",
        (Part::Shot, 6) => "frame 06 has no frame 05 above it",
        (Part::Shot | Part::Truth, 2..=4) => "the model has ended with frame 04",
        _ => "no frame of this input has this kind",
    }
}

/// Reads correction lists, an 86 a line.
///
/// # Errors
///
/// 3 with the line and the reason. Nothing is handed back.
pub fn read_lists(text: &[u8]) -> Result<Vec<Vec<u32>>, Error> {
    Frames::of(text)
        .map(|frame| {
            let mut frame = frame?;
            if frame.number(1)? != 0x86 {
                return Err(frame.refuse("a correction list is frame 86"));
            }
            let count = frame.number(2)?;
            let list = frame.list(count)?;
            frame.end()?;
            Ok(list)
        })
        .collect()
}

// ---- writing

fn push_digits(text: &mut String, number: u64, digits: usize) {
    write!(text, "{number:0digits$x}").expect("a string takes what is written");
}

/// `number` in `digits` hexadecimal digits, where it fits.
fn push_number(text: &mut String, number: u64, digits: usize, reason: &'static str) -> Result<(), Error> {
    if number >> (4 * digits) != 0 {
        return Err(Error::frame(None, reason));
    }
    push_digits(text, number, digits);
    Ok(())
}

fn push_indices(text: &mut String, list: &[u32]) -> Result<(), Error> {
    list.iter().try_for_each(|index| push_number(text, u64::from(*index), 4, "an index has over two bytes"))
}

fn push_lists(text: &mut String, detectors: &[u32], observables: &[u32]) -> Result<(), Error> {
    push_number(text, detectors.len() as u64, 2, "a list has over 255 entries")?;
    push_number(text, observables.len() as u64, 2, "a list has over 255 entries")?;
    push_indices(text, detectors)?;
    push_indices(text, observables)?;
    text.push('\n');
    Ok(())
}

fn push_row(text: &mut String, kind: &str, row: &[u64]) {
    text.push_str(kind);
    row.iter().for_each(|word| push_digits(text, *word, 16));
    text.push('\n');
}

/// Writes a model and its shots, each line ended by a line feed.
///
/// # Errors
///
/// 3 with the reason, where a number has no place in its frame or the rows are not as long as the shots need. Nothing
/// is handed back.
pub fn write(recording: &Recording) -> Result<String, Error> {
    let Recording { model, shots, rows, truth } = recording;
    let mut text = String::from("01");
    push_number(&mut text, model.detectors as u64, 4, "the number of detectors has over two bytes")?;
    push_number(&mut text, model.observables as u64, 4, "the number of observables has over two bytes")?;
    text.push('\n');
    for mechanism in &model.mechanisms {
        text.push_str("02");
        push_digits(&mut text, mechanism.probability.to_bits(), 16);
        push_lists(&mut text, &mechanism.detectors, &mechanism.observables)?;
        for component in &mechanism.components {
            text.push_str("03");
            push_lists(&mut text, &component.detectors, &component.observables)?;
        }
    }
    text.push_str("04\n");
    let (row, true_row) = (model.detectors.div_ceil(64), model.observables.div_ceil(64));
    if shots.checked_mul(row) != Some(rows.len()) || shots.checked_mul(true_row) != Some(truth.len()) {
        return Err(Error::frame(None, "the rows are not as many words as the shots need"));
    }
    for shot in 0..*shots {
        push_row(&mut text, "05", &rows[shot * row..(shot + 1) * row]);
        push_row(&mut text, "06", &truth[shot * true_row..(shot + 1) * true_row]);
    }
    Ok(text)
}

/// Writes a correction list as an 86, ended by a line feed.
///
/// # Errors
///
/// 3 with the reason, where the list has over 65,535 edges or an edge over two bytes. Nothing is handed back.
pub fn write_list(list: &[u32]) -> Result<String, Error> {
    let mut text = String::from("86");
    push_number(&mut text, list.len() as u64, 4, "a list has over 65,535 edges")?;
    push_indices(&mut text, list)?;
    text.push('\n');
    Ok(text)
}

/// Writes a row of predicted observables as an 85, ended by a line feed.
///
/// ```
/// assert_eq!(pavrenni::frames::write_row(&[1]), "850000000000000001\n");
/// ```
#[must_use]
pub fn write_row(row: &[u64]) -> String {
    let mut text = String::new();
    push_row(&mut text, "85", row);
    text
}

/// Writes what ends an output as an 8f, ended by a line feed: the shots, the failures among them and the rate.
///
/// ```
/// assert_eq!(pavrenni::frames::write_rate(4, 1, 0.25), "8f00000004000000013fd0000000000000\n");
/// ```
#[must_use]
pub fn write_rate(shots: u32, failures: u32, rate: f64) -> String {
    format!("8f{shots:08x}{failures:08x}{:016x}\n", rate.to_bits())
}
