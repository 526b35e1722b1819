//! The automata that the Rust crate calls NFAs. Both support anchored and unanchored searches.

/// The automaton that is built fastest.
pub mod noncontiguous {
    crate::inner::automaton!(NFA, "noncontiguous::NFA", NoncontiguousNFA, Both);
    crate::inner::hint!(dense_depth, usize, "Accepts the setting of the Rust crate, and ignores it: no answer depends on it.");
}

/// The automaton under the Rust crate's name for the one that is smaller.
pub mod contiguous {
    crate::inner::automaton!(NFA, "contiguous::NFA", ContiguousNFA, Both);
    crate::inner::hint!(dense_depth, usize, "Accepts the setting of the Rust crate, and ignores it: no answer depends on it.");
    crate::inner::hint!(byte_classes, bool, "Accepts the setting of the Rust crate, and ignores it: no answer depends on it.");
    crate::inner::from_noncontiguous!(NFA);
}
