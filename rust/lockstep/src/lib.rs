//! Tests from outside for the sync server library: an independent model, the library's
//! C interface, and generators of cases for both.

pub mod call;
pub mod case;
pub mod cluster;
pub mod hostile;
pub mod library;
pub mod make;
pub mod model;
pub mod random;
pub mod reasons;
pub mod tally;

// The package's own way to the archive. By path, since the package cannot be built without one.
#[cfg(ssaldorip_real)]
#[path = "../../src/ffi.rs"]
mod ffi;
#[cfg(ssaldorip_real)]
#[path = "../../src/sys.rs"]
mod sys;
