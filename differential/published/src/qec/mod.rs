pub mod decoder;
pub mod dem;
pub use dem::{DetectorErrorModel, ErrorMechanism};

/// Shim: `from_parts` and `ErrorMechanism::new` are `pub(super)`.
pub fn model(
    mechanisms: Vec<(f64, Vec<usize>, Vec<usize>, Vec<(Vec<usize>, Vec<usize>)>)>,
    num_detectors: usize,
    num_observables: usize,
) -> DetectorErrorModel {
    let mechanisms = mechanisms.into_iter().map(|(p, d, o, c)| ErrorMechanism::new(p, d, o, c)).collect();
    DetectorErrorModel::from_parts(mechanisms, vec![Vec::new(); num_detectors], num_detectors, num_observables)
}
