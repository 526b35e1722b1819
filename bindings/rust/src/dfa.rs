//! The automaton that the Rust crate calls a DFA: the rows of the library, if the searches are
//! unanchored and the rows fit.
crate::inner::automaton!(DFA, "dfa::DFA", DFA, Unanchored);
crate::inner::hint!(byte_classes, bool, "Accepts the setting of the Rust crate, and ignores it: no answer depends on it.");
crate::inner::from_noncontiguous!(DFA);

impl Builder {
    /// Sets which searches the automaton supports. The default is unanchored searches.
    pub fn start_kind(&mut self, kind: StartKind) -> &mut Builder {
        self.0.start_kind = kind;
        self
    }
}
