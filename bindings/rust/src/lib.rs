//! Instruments that threads share: a [`Lab`] says who holds which, and no two hold one at once. Who waits and who is let in is decided by
//! the proved library for C; this crate, which calls it, is tested. [`script`] has benches whose sessions are settled beforehand.
//!
//! ```
//! let lab = labrun::Lab::new(["scope", "supply"])?;
//! let held = lab.hold(&["scope", "supply"]).begin()?; // blocks until it holds both
//! assert_eq!(held.instruments(), ["scope", "supply"]); // the real work
//! drop(held); // it lets go
//! # Ok::<(), labrun::Error>(())
//! ```
#![deny(missing_docs)]
#![cfg_attr(not(test), deny(unsafe_code))]

mod error;
#[allow(unsafe_code)]
mod ffi;
mod keeper;
mod kept;
mod lab;
pub mod script;
#[cfg(test)]
mod tests;

pub use error::Error;
pub use keeper::Keeper;
pub use kept::SyncTo;
pub use lab::{Held, Hold, Lab, LabOptions, Station, Who};
