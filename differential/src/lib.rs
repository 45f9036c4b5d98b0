//! The comparison of this library with the original, call by call and bit for bit.
pub mod calls;
pub mod case;
pub mod compare;
pub mod frames;
pub mod inputs;
#[cfg(feature = "library")]
pub mod library;
pub mod model;
pub mod original;
pub mod pinned;
pub mod reduce;
pub mod rng;
pub mod rules;
pub mod stand_in;
pub mod stated;

/// What is compared with the original.
#[cfg(feature = "library")]
pub type Compared = library::Library;
#[cfg(not(feature = "library"))]
pub type Compared = stand_in::StandIn;

/// Its name in what is printed.
pub const COMPARED: &str = if cfg!(not(feature = "library")) { "the second implementation (stand-in)" } else { "the static library" };
