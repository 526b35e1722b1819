//! The kinds of automata. A kind is a hint, on which no answer depends.
use crate::search::StartKind;

/// An automaton, by its name in the Rust crate. The library has two: one that is built fast, and
/// rows, which search fastest.
#[derive(Clone, Copy, Debug, PartialEq, Eq)]
#[non_exhaustive]
pub enum AhoCorasickKind {
    /// The automaton that is built fastest.
    NoncontiguousNFA,
    /// Rows, if the searches are unanchored and the rows fit; otherwise the other automaton.
    ContiguousNFA,
    /// The same as `ContiguousNFA`.
    DFA,
}

impl AhoCorasickKind {
    /// Returns the kind that `AhoCorasick::kind` reports: the requested one, or else the one that
    /// the library chooses.
    pub(crate) fn told(asked: Option<AhoCorasickKind>, start_kind: StartKind) -> AhoCorasickKind {
        match (asked, start_kind) {
            (Some(kind), _) => kind,
            (None, StartKind::Unanchored) => AhoCorasickKind::ContiguousNFA,
            (None, _) => AhoCorasickKind::NoncontiguousNFA,
        }
    }
}
