// Shim: `thiserror` is not at hand, so Display is written out.
include!(concat!(env!("OUT_DIR"), "/error.rs"));

impl std::fmt::Display for PrismError {
    fn fmt(&self, f: &mut std::fmt::Formatter<'_>) -> std::fmt::Result {
        match self {
            PrismError::InvalidParameter { message } => write!(f, "invalid parameter: {message}"),
        }
    }
}
