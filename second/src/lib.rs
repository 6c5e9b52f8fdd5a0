//! A second implementation of the page lock, in ordinary Rust.
//!
//! It was written from the rules and from the source model
//! `examples/scache/rwlock.rs` (MIT) alone, and uses the source's names, and the
//! rules' own for the steps that the source does not have. Its purpose is
//! comparison: two programs made apart from each other should give the same
//! answers, byte for byte. `ops` makes streams of operations, and
//! `drill` does them; whatever stream goes in, both drills must write the same.

pub mod drill;
pub mod engine;
pub mod image;
pub mod kinds;
pub mod ops;
pub mod pieces;
pub mod raw;
pub mod readers;
pub mod record;
pub mod run;
pub mod steps;
pub mod table;
pub mod wire;
pub mod words;
