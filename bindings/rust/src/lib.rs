//! Searches bytes for many patterns at once with the proved C library of Chromesquid, under the
//! names of the crate `aho-corasick` 1.1.
//!
//! ```
//! use chromesquid::{AhoCorasick, MatchKind, PatternID};
//!
//! let searcher = AhoCorasick::builder().match_kind(MatchKind::LeftmostFirst).build(["samwise", "sam", "frodo"]).unwrap();
//! let found = searcher.find("frodo and samwise").unwrap();
//! assert_eq!((found.pattern(), found.range()), (PatternID::must(2), 0..5));
//! assert_eq!(searcher.replace_all("frodo and samwise", &["S", "s", "F"]), "F and S");
//! ```
//!
//! Patterns are numbered in the order in which they are given, from 0. Offsets count bytes, even
//! in a `str`, and ranges are half open.
//!
//! The answers of the library are proved; this crate, which only calls it, is tested. If a call
//! panics because the searcher does not support the search, the call of the same name with `try_`
//! returns an error instead. A wrong number of replacements panics in both. The file
//! crates/chromesquid/README.md of the repository lists where answers differ from those of
//! `aho-corasick`.
//!
//! `kind`, `dense_depth` and `byte_classes` are hints, on which no answer depends.
//! `AhoCorasick::streams` searches streams with the leftmost kinds too, which `aho-corasick`
//! refuses. The module `packed` has the types of that crate's module, over the same searcher.
//!
//! The automata of `nfa` and `dfa` search with the library as well, and the states that the trait
//! `Automaton` walks are the library's.
//!
//! During a build, the environment variable CHROMESQUID_LIBRARY names the folder of
//! `libchromesquid.a`. At run time each call borrows a handle of the searcher and gives it back:
//! a searcher has as many handles as calls and iterators have run at the same time.
#![deny(unsafe_code)]
#![warn(missing_docs)]

pub mod automaton;
pub mod dfa;
mod error;
mod forms;
mod inner;
mod kinds;
#[allow(unsafe_code)]
mod library;
pub mod nfa;
mod overlapping;
pub mod packed;
mod primitives;
mod redactor;
mod search;
mod searcher;
mod shares;
mod stream;
mod walk;

pub use error::{BuildError, MatchError, MatchErrorKind};
pub use forms::{secret_forms, Form, FormError};
pub use kinds::AhoCorasickKind;
pub use overlapping::FindOverlappingIter;
pub use primitives::{PatternID, PatternIDError};
pub use redactor::Redactor;
pub use search::{Anchored, Input, Match, MatchKind, Span, StartKind};
pub use searcher::{AhoCorasick, AhoCorasickBuilder, FindIter};
pub use stream::{StreamFindIter, Streams};

/// Returns the version of the library: 102 is 0.1.2.
pub fn version() -> u32 {
    library::version()
}
