//! The names of the crate aho-corasick, over the proved library of Chromesquid. A tree whose crates
//! depend on `aho-corasick = "1.1"` uses it with these lines in its Cargo.toml:
//!
//! ```toml
//! [patch.crates-io]
//! aho-corasick = { path = "../chromesquid/bindings/rust/patch" }
//! ```
#![forbid(unsafe_code)]
pub use chromesquid::*;
