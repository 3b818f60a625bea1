//! What `compare` sets against the oracle: the static library with the feature `library`, and without it the oracle itself,
//! so that the calls, the counting and the report can be tried on their own.

#[cfg(feature = "library")]
pub use crate::linked::run;
#[cfg(not(feature = "library"))]
pub use crate::run::run_into as run;

/// What is compared, for the report's heading.
pub const NAME: &str = if cfg!(feature = "library") { "the static library" } else { "the oracle itself (no library)" };
