//! A twin of the lease broker: document 01's rules as ordinary Rust, with
//! growable vectors and a store changed in place. It is written from the document
//! alone and shares no text with the proved broker, so that a rule misread in one
//! of them shows as a difference between the two.
//!
//! It proves nothing. It covers what a trace can reach from an empty store, so
//! there is no test for a damaged table (9) and no domain.

pub mod broker;
pub mod command;
pub mod refusal;
pub mod run;
pub mod table;
pub mod text;
