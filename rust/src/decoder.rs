//! The decoder, the batch, the rate and the marker: calls on a lent graph.

use crate::raw::{self, MarkScratch, Scratch};
use crate::{row_words, Error, Graph, Item, MAX_DETECTORS, MAX_SHOTS};

/// Packed shots, or packed observables: bit b of shot s is bit b mod 64 of word s·w + b div 64, w being the words that
/// `width` needs. Any can be written down; the calls check it.
#[derive(Clone, Copy, Debug, PartialEq, Eq)]
pub struct Packed<'a> {
    /// The rows, one after another.
    pub words: &'a [u64],
    /// How many rows there are.
    pub shots: usize,
    /// The bits of a row.
    pub width: usize,
}

impl<'a> Packed<'a> {
    /// So many shots of so many bits, in these words.
    #[must_use]
    pub const fn new(words: &'a [u64], shots: usize, width: usize) -> Packed<'a> {
        Packed { words, shots, width }
    }
}

/// A shot that was decoded.
#[must_use]
#[derive(Clone, Copy, Debug, PartialEq, Eq)]
#[non_exhaustive]
pub struct Shot<'a> {
    /// The rounds of growth.
    pub rounds: u32,
    /// The correction: the edges that were peeled, in order.
    pub list: &'a [u32],
}

/// The rate of a batch and the observables that were predicted.
#[must_use]
#[derive(Clone, Debug, PartialEq)]
#[non_exhaustive]
pub struct Rate {
    /// Shots with any differing observable, divided by shots.
    pub rate: f64,
    /// A row a shot.
    pub rows: Vec<u64>,
}

/// A decoder: scratch memory for graphs of one size, kept from call to call. It holds nothing that reaches an answer.
///
/// The graph is lent to each call, so that it may change between two; where it does not, a
/// [`BoundDecoder`](crate::BoundDecoder) needs no telling.
#[derive(Clone, Debug)]
pub struct Decoder {
    scratch: Scratch,
    list: Vec<u32>,
}

impl Decoder {
    /// Memory for this graph, and for any with no more detectors and no more edges. For counts over the limits there is
    /// none, and calls are refused with code 1.
    #[must_use]
    pub fn new(graph: &Graph) -> Decoder {
        let list = if graph.detectors <= MAX_DETECTORS { graph.detectors } else { 0 };
        Decoder { scratch: Scratch::with_lengths(&raw::lengths(graph.detectors, graph.edges())), list: vec![0; list] }
    }

    /// Decodes one shot: XORs the observables of its correction into the row, and hands back the rounds and the list.
    ///
    /// ```
    /// use pavrenni::{Code, Decoder, Mechanism, Model};
    ///
    /// let mechanisms = [Mechanism::new(0.25, [0], [0]), Mechanism::new(0.25, [0, 1], [])];
    /// let mut model = Model::new(2, 1).with_mechanisms(mechanisms);
    /// let graph = model.compile()?;
    /// let mut decoder = Decoder::new(&graph);
    /// let mut row = [0];
    /// let shot = decoder.decode_shot(&graph, &[0b10], 2, &mut row)?;
    /// assert_eq!(shot.list, [1, 0]);
    /// assert_eq!(shot.rounds, 2);
    /// assert_eq!(row, [1]);
    ///
    /// // with the pair edge alone nothing explains detector 1
    /// model.mechanisms.remove(0);
    /// let stuck = decoder.decode_shot(&model.compile()?, &[0b10], 2, &mut row).unwrap_err();
    /// assert_eq!(stuck.code, Code::Stuck);
    /// assert_eq!(stuck.detector, Some(0));
    /// assert_eq!(stuck.rounds, Some(1));
    /// # Ok::<(), pavrenni::Error>(())
    /// ```
    ///
    /// # Errors
    ///
    /// In this order, and the row is untouched by each:
    /// 1 where the graph is over a limit;
    /// 2 where one of its tables is short, the row is, or the decoder was made for a smaller graph;
    /// by edge 5 and then 4;
    /// 8, 9 and 10 for the length, the padding and the width of the shot;
    /// 11 with the detector and the rounds finished, where no set of edges explains it.
    pub fn decode_shot(&mut self, graph: &Graph, shot: &[u64], width: usize, row: &mut [u64]) -> Result<Shot<'_>, Error> {
        let answer = raw::decode_shot(graph, graph.edges(), shot, width, row, &mut self.list, &mut self.scratch);
        Error::check(answer.code, answer.first, answer.second, Item::Edge)
            .map_err(|refusal| Error { rounds: refusal.detector.map(|_| answer.rounds), ..refusal })?;
        Ok(Shot { rounds: answer.rounds, list: &self.list[..answer.length] })
    }

    /// Decodes a batch: a row of predicted observables a shot.
    ///
    /// ```
    /// use pavrenni::{Decoder, Graph, Packed, BOUNDARY};
    ///
    /// let graph = Graph {
    ///     detectors: 2,
    ///     observables: 1,
    ///     edge_u: vec![0, 0],
    ///     edge_v: vec![BOUNDARY, 1],
    ///     edge_weight: vec![1.0, 1.0],
    ///     edge_obs: vec![1, 0],
    /// };
    /// let shots = Packed::new(&[0b00, 0b01, 0b10, 0b11], 4, 2);
    /// assert_eq!(Decoder::new(&graph).decode_batch(&graph, shots)?, [0, 1, 1, 0]);
    /// # Ok::<(), pavrenni::Error>(())
    /// ```
    ///
    /// # Errors
    ///
    /// As of [`decode_shot`](Decoder::decode_shot), in its order; 1 for too many shots too; 9 and 11 with the lowest
    /// such shot, 11 without rounds. No rows are handed back: [`decode_batch_into`](Decoder::decode_batch_into) leaves
    /// those before a Stuck shot.
    pub fn decode_batch(&mut self, graph: &Graph, shots: Packed<'_>) -> Result<Vec<u64>, Error> {
        let mut rows = rows_for(graph, shots.shots);
        self.decode_batch_into(graph, shots, &mut rows)?;
        Ok(rows)
    }

    /// The same into memory of the caller. Words past the last row are untouched.
    ///
    /// # Errors
    ///
    /// As of [`decode_batch`](Decoder::decode_batch), and 2 for rows that are short. By 11 the earlier rows are done,
    /// the shot's own is zero and later ones are untouched; by any other code all are untouched.
    pub fn decode_batch_into(&mut self, graph: &Graph, shots: Packed<'_>, rows: &mut [u64]) -> Result<(), Error> {
        let answer = raw::decode_batch(graph, graph.edges(), shots, rows, &mut self.list, &mut self.scratch);
        Error::check(answer.code, answer.first, answer.second, Item::Edge)
    }

    /// The logical error rate: the shots of which any predicted observable differs from the true ones, divided by the
    /// shots; and the rows predicted. It is 0 where there are no shots or no observables.
    ///
    /// ```
    /// use pavrenni::{Decoder, Graph, Packed, BOUNDARY};
    ///
    /// let graph = Graph {
    ///     detectors: 2,
    ///     observables: 1,
    ///     edge_u: vec![0, 0],
    ///     edge_v: vec![BOUNDARY, 1],
    ///     edge_weight: vec![1.0, 1.0],
    ///     edge_obs: vec![1, 0],
    /// };
    /// let shots = Packed::new(&[0b00, 0b01, 0b10, 0b11], 4, 2);
    /// let truth = Packed::new(&[0, 1, 0, 0], 4, 1);
    /// let answer = Decoder::new(&graph).rate(&graph, shots, truth)?;
    /// assert_eq!(answer.rate, 0.25);
    /// assert_eq!(answer.rows, [0, 1, 1, 0]);
    /// # Ok::<(), pavrenni::Error>(())
    /// ```
    ///
    /// # Errors
    ///
    /// As of [`decode_batch`](Decoder::decode_batch), in its order. 8 and 9 of the true observables come after those of
    /// the shots and before 10. Last is 12, where the true observables are not a row of O bits for each shot. No rows
    /// are handed back.
    pub fn rate(&mut self, graph: &Graph, shots: Packed<'_>, truth: Packed<'_>) -> Result<Rate, Error> {
        let mut rows = rows_for(graph, shots.shots);
        let rate = self.rate_into(graph, shots, truth, &mut rows)?;
        Ok(Rate { rate, rows })
    }

    /// The same with the rows predicted left in memory of the caller.
    ///
    /// # Errors
    ///
    /// As of [`rate`](Decoder::rate), and 2 for rows that are short. By 12 all rows are done; by the other codes they
    /// are left as [`decode_batch_into`](Decoder::decode_batch_into) leaves them.
    pub fn rate_into(&mut self, graph: &Graph, shots: Packed<'_>, truth: Packed<'_>, rows: &mut [u64]) -> Result<f64, Error> {
        let answer = raw::rate(graph, graph.edges(), shots, truth, rows, &mut self.list, &mut self.scratch);
        Error::check(answer.code, answer.first, answer.second, Item::Edge)?;
        Ok(answer.rate)
    }
}

/// A zero row a shot; none for counts over the limits, which are refused before any slice is looked at.
fn rows_for(graph: &Graph, shots: usize) -> Vec<u64> {
    let shots = if shots <= MAX_SHOTS { shots } else { 0 };
    vec![0; shots * row_words(graph.observables)]
}

/// What the marker says of a list.
#[must_use]
#[derive(Clone, Copy, Debug, PartialEq, Eq)]
#[non_exhaustive]
pub enum Marking {
    /// It flips exactly the lit detectors.
    Pass,
    /// It does not.
    #[non_exhaustive]
    Differs {
        /// The lowest wrong detector.
        detector: u32,
    },
}

impl Marking {
    /// Whether it is [`Marking::Pass`].
    #[must_use]
    pub const fn passed(self) -> bool {
        matches!(self, Marking::Pass)
    }

    /// The lowest wrong detector, where there is one.
    #[must_use]
    pub const fn detector(self) -> Option<u32> {
        match self {
            Marking::Pass => None,
            Marking::Differs { detector } => Some(detector),
        }
    }
}

/// Marks a list of edge numbers against a shot. Where it passes, its observables are written to the row; where it
/// differs, the row is untouched.
///
/// ```
/// use pavrenni::{mark, Code, Graph, Marking, BOUNDARY};
///
/// let graph = Graph {
///     detectors: 2,
///     observables: 1,
///     edge_u: vec![0, 0],
///     edge_v: vec![BOUNDARY, 1],
///     edge_weight: vec![1.0, 1.0],
///     edge_obs: vec![1, 0],
/// };
/// let mut row = [0];
/// assert_eq!(mark(&graph, &[0b10], 2, &[1], &mut row)?.detector(), Some(0));
/// assert_eq!(mark(&graph, &[0b10], 2, &[0, 1], &mut row)?, Marking::Pass);
/// assert_eq!(row, [1]);
/// assert_eq!(mark(&graph, &[0b10], 2, &[0, 2], &mut row).unwrap_err().code, Code::Edge);
/// # Ok::<(), pavrenni::Error>(())
/// ```
///
/// # Errors
///
/// In this order, and the row is untouched by each:
/// 1 where the graph is over a limit;
/// 2 where one of its tables is short, or the row is;
/// by edge 5 and then 4;
/// 8, 9 and 10 for the length, the padding and the width of the shot;
/// 13 where an edge of the list is unknown or repeated.
pub fn mark(graph: &Graph, shot: &[u64], width: usize, list: &[u32], row: &mut [u64]) -> Result<Marking, Error> {
    let mut scratch = MarkScratch::with_lengths(&raw::mark_lengths(graph.detectors, graph.edges()));
    let answer = raw::mark(graph, graph.edges(), shot, width, list, row, &mut scratch);
    Error::check(answer.code, answer.first, answer.second, Item::Edge)?;
    Ok(if answer.passed == 1 { Marking::Pass } else { Marking::Differs { detector: answer.detector } })
}
