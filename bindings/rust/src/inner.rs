//! The common parts of the automata of `nfa` and `dfa`, and their builders.
use crate::error::BuildError;
use crate::kinds::AhoCorasickKind;
use crate::library::Pieces;
use crate::search::{MatchKind, StartKind};
use crate::searcher::{AhoCorasick, AhoCorasickBuilder};
use crate::walk::Walk;
use std::{fmt, sync::Arc};

/// A searcher of the library, and the states of its automaton for walks.
#[derive(Clone)]
pub struct Inner {
    pub(crate) searcher: AhoCorasick,
    pub(crate) walk: Arc<Walk>,
}

/// An automaton. Only the types of this crate implement the trait.
pub trait Sealed {
    #[doc(hidden)]
    fn inner(&self) -> &Inner;
}

impl<A: Sealed + ?Sized> Sealed for &A {
    fn inner(&self) -> &Inner {
        (**self).inner()
    }
}

impl Inner {
    /// Returns the same automaton under the name of another kind.
    pub(crate) fn of_kind(&self, kind: AhoCorasickKind, start_kind: StartKind) -> Inner {
        Inner { searcher: self.searcher.of_kind(kind, start_kind), walk: self.walk.clone() }
    }

    pub(crate) fn print(&self, name: &str, to: &mut fmt::Formatter<'_>) -> fmt::Result {
        self.searcher.print(name, self.searcher.memory_usage() + self.walk.memory_usage(), to)
    }
}

/// The settings of a builder.
#[derive(Clone, Debug)]
pub(crate) struct Wishes {
    pub(crate) kind: AhoCorasickKind,
    pub(crate) match_kind: MatchKind,
    pub(crate) start_kind: StartKind,
    pub(crate) ignore_case: bool,
    pub(crate) prefilter: bool,
}

impl Wishes {
    pub(crate) fn new(kind: AhoCorasickKind, start_kind: StartKind) -> Wishes {
        Wishes { kind, match_kind: MatchKind::Standard, start_kind, ignore_case: false, prefilter: true }
    }

    pub(crate) fn build<I, P>(&self, patterns: I) -> Result<Inner, BuildError>
    where
        I: IntoIterator<Item = P>,
        P: AsRef<[u8]>,
    {
        let patterns: Vec<P> = patterns.into_iter().collect();
        let patterns = Pieces::of(&patterns);
        let searcher = AhoCorasickBuilder::new()
            .match_kind(self.match_kind)
            .start_kind(self.start_kind)
            .ascii_case_insensitive(self.ignore_case)
            .prefilter(self.prefilter)
            .kind(Some(self.kind))
            .build_of(&patterns)?;
        let states = searcher.states().ok_or_else(BuildError::out_of_memory)?;
        let walk = Walk::new(states, &patterns);
        Ok(Inner { searcher, walk: Arc::new(walk) })
    }
}

/// An automaton and its builder.
macro_rules! automaton {
    ($name:ident, $printed:literal, $kind:ident, $start_kind:ident) => {
        use crate::automaton::Automaton;
        use crate::error::BuildError;
        use crate::inner::{Inner, Sealed, Wishes};
        use crate::kinds::AhoCorasickKind;
        use crate::search::{MatchKind, StartKind};
        use std::fmt;

        /// An automaton. Its searches and its states are the library's. A clone shares them.
        #[derive(Clone)]
        pub struct $name(Inner);

        impl $name {
            /// Builds the automaton with the standard kind.
            ///
            /// Fails if the patterns are too many or too long, or memory runs out.
            pub fn new<I, P>(patterns: I) -> Result<$name, BuildError>
            where
                I: IntoIterator<Item = P>,
                P: AsRef<[u8]>,
            {
                Builder::new().build(patterns)
            }

            /// Returns a builder with the default settings.
            pub fn builder() -> Builder {
                Builder::new()
            }
        }

        impl Sealed for $name {
            fn inner(&self) -> &Inner {
                &self.0
            }
        }

        impl Automaton for $name {}

        impl fmt::Debug for $name {
            fn fmt(&self, to: &mut fmt::Formatter<'_>) -> fmt::Result {
                self.0.print($printed, to)
            }
        }

        /// Builds automata.
        #[derive(Clone, Debug)]
        pub struct Builder(Wishes);

        impl Default for Builder {
            fn default() -> Builder {
                Builder::new()
            }
        }

        impl Builder {
            /// Returns a builder of the standard kind, case-sensitive, and with a prefilter.
            pub fn new() -> Builder {
                Builder(Wishes::new(AhoCorasickKind::$kind, StartKind::$start_kind))
            }

            /// Builds an automaton for the patterns.
            ///
            /// Fails if they are too many or too long, or memory runs out.
            pub fn build<I, P>(&self, patterns: I) -> Result<$name, BuildError>
            where
                I: IntoIterator<Item = P>,
                P: AsRef<[u8]>,
            {
                self.0.build(patterns).map($name)
            }

            /// Sets which of several possible matches is found.
            pub fn match_kind(&mut self, kind: MatchKind) -> &mut Builder {
                self.0.match_kind = kind;
                self
            }

            /// Sets whether ASCII letters match in either case.
            pub fn ascii_case_insensitive(&mut self, yes: bool) -> &mut Builder {
                self.0.ignore_case = yes;
                self
            }

            /// Sets whether searches may use a prefilter, on which no answer depends.
            pub fn prefilter(&mut self, yes: bool) -> &mut Builder {
                self.0.prefilter = yes;
                self
            }
        }
    };
}
pub(crate) use automaton;

/// A setting of the Rust crate that the library chooses by itself.
macro_rules! hint {
    ($name:ident, $type:ty, $text:literal) => {
        impl Builder {
            #[doc = $text]
            pub fn $name(&mut self, _hint: $type) -> &mut Builder {
                self
            }
        }
    };
}
pub(crate) use hint;

/// A builder's call that takes an automaton of `nfa::noncontiguous`.
macro_rules! from_noncontiguous {
    ($name:ident) => {
        impl Builder {
            /// Returns an automaton with the patterns, the match kind and the case rule of
            /// another one. The match kind and the case rule of this builder are ignored.
            pub fn build_from_noncontiguous(&self, nnfa: &crate::nfa::noncontiguous::NFA) -> Result<$name, BuildError> {
                Ok($name(nnfa.inner().of_kind(self.0.kind, self.0.start_kind)))
            }
        }
    };
}
pub(crate) use from_noncontiguous;
