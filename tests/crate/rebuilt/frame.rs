//! Rebuilt, not the crate's. lib.rs declares the module, and nothing in the text uses it. Here the programs find the name of a rebuilt module's
//! fault, since lib.rs hands on the errors alone.

pub use crate::error::Fault;
