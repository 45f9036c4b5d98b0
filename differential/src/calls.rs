//! The calls that are compared: the static library answers them (`library`), and so does the second implementation (`stand_in`).

use crate::model::{Graph, ModelSize, ModelTables, Packed, Refusal};

/// What a shot is answered with. A Stuck shot is refusal 11 and tells its finished rounds too.
#[derive(Debug, Clone, PartialEq)]
pub struct ShotAnswer {
    pub refusal: Option<Refusal>,
    pub rounds: u64,
    pub length: usize,
}

#[derive(Debug, Clone, Copy, PartialEq)]
pub enum Mark {
    Pass,
    Differs(u32),
}

/// Every slice that a call fills is the caller's, so that what it leaves there can be looked at.
pub trait Calls {
    fn decompose(&mut self, model: &ModelTables, out: &mut ModelTables) -> Result<ModelSize, Refusal>;

    /// The number of edges; the graph's tables take an entry a mechanism.
    fn compile(&mut self, model: &ModelTables, out: &mut Graph) -> Result<usize, Refusal>;

    fn decode_shot(&mut self, graph: &Graph, shot: &[u64], width: usize, row: &mut [u64], list: &mut [u32]) -> ShotAnswer;

    fn decode_batch(&mut self, graph: &Graph, rows: &Packed, out: &mut [u64]) -> Result<(), Refusal>;

    fn mark(&mut self, graph: &Graph, shot: &[u64], width: usize, list: &[u32], row: &mut [u64]) -> Result<Mark, Refusal>;

    fn rate(&mut self, graph: &Graph, rows: &Packed, truth: &Packed, out: &mut [u64]) -> Result<f64, Refusal>;

    /// The saturated edges of the last shot, where they are told: the C boundary does not tell them.
    fn saturated(&self) -> Option<&[u32]> {
        None
    }
}
