//! The trait of the automata of `nfa` and `dfa`, for code that is generic over them or walks their
//! states itself.
//!
//! ```
//! use chromesquid::{automaton::Automaton, nfa::noncontiguous::NFA, Anchored, Match, MatchError};
//!
//! /// Returns the first match of an automaton of the standard kind.
//! fn first<A: Automaton>(automaton: A, haystack: &[u8]) -> Result<Option<Match>, MatchError> {
//!     let mut state = automaton.start_state(Anchored::No)?;
//!     for at in 0..=haystack.len() {
//!         if automaton.is_match(state) {
//!             let pattern = automaton.match_pattern(state, 0);
//!             return Ok(Some(Match::new(pattern, at - automaton.pattern_len(pattern)..at)));
//!         }
//!         match haystack.get(at) {
//!             Some(&byte) => state = automaton.next_state(Anchored::No, state, byte),
//!             None => break,
//!         }
//!     }
//!     Ok(None)
//! }
//!
//! let automaton = NFA::new(["wise", "sam"]).unwrap();
//! assert_eq!(first(&automaton, b"samwise"), Ok(Some(Match::must(1, 0..3))));
//! ```
//!
//! Searches and states are the library's. A step of a walk locks the states, which all clones
//! share: if many threads use one automaton, searches are faster than walks.
use crate::error::MatchError;
use crate::inner::Sealed;
use crate::primitives::PatternID;
use crate::search::{Anchored, Input, Match, MatchKind, Span};
use crate::{overlapping, searcher, stream};
use std::{
    convert::Infallible,
    fmt,
    io::{self, Read, Write},
    iter::FusedIterator,
    marker::PhantomData,
};

pub use crate::overlapping::OverlappingState;
pub use crate::primitives::{StateID, StateIDError};

/// An automaton of `nfa` or `dfa`, or a reference to one.
///
/// A walk begins with a start state and goes on byte by byte. After each byte, its state lists
/// patterns that end there. With the standard kind, those are all patterns that occur. With the
/// leftmost kinds, they are candidates: the match is the first pattern of the last state before the
/// dead one that lists any. In an anchored walk, a pattern starts where the walk does only if it is
/// as long as the bytes read.
///
/// A call panics if its state was not returned by `start_state` or `next_state` of this automaton.
pub trait Automaton: Sealed {
    /// Returns the state with which a search begins, or an error if the automaton does not support
    /// such searches.
    fn start_state(&self, anchored: Anchored) -> Result<StateID, MatchError> {
        self.inner().searcher.allows(anchored)?;
        Ok(self.inner().walk.start(anchored))
    }

    /// Returns the state after a byte. All steps of a walk have the same `anchored`.
    fn next_state(&self, anchored: Anchored, sid: StateID, byte: u8) -> StateID {
        self.inner().walk.next(anchored, sid, byte)
    }

    /// Returns whether a walk must look at a state: it is dead, it lists patterns, or it may be a
    /// start.
    fn is_special(&self, sid: StateID) -> bool {
        self.inner().walk.told(sid).is_special
    }

    /// Returns whether a state is dead: no match can follow.
    fn is_dead(&self, sid: StateID) -> bool {
        self.inner().walk.told(sid).is_dead
    }

    /// Returns whether a state lists patterns.
    fn is_match(&self, sid: StateID) -> bool {
        self.inner().walk.told(sid).is_match
    }

    /// Returns whether searches begin with a state.
    fn is_start(&self, sid: StateID) -> bool {
        self.inner().walk.told(sid).is_start
    }

    /// Returns which of several possible matches is found.
    fn match_kind(&self) -> MatchKind {
        self.inner().searcher.match_kind()
    }

    /// Returns the number of patterns that a state lists.
    fn match_len(&self, sid: StateID) -> usize {
        self.inner().walk.told(sid).patterns
    }

    /// Returns the pattern at an index of a state's list. The best pattern is first; with the
    /// standard kind, the list is sorted by length, longest first, then by number.
    ///
    /// Panics if the list is not that long.
    fn match_pattern(&self, sid: StateID, index: usize) -> PatternID {
        self.inner().walk.match_pattern(sid, index)
    }

    /// Returns the number of patterns.
    fn patterns_len(&self) -> usize {
        self.inner().searcher.patterns_len()
    }

    /// Returns the length of a pattern in bytes. Panics if there is no such pattern.
    fn pattern_len(&self, pid: PatternID) -> usize {
        self.inner().walk.pattern_len(pid)
    }

    /// Returns the length of the shortest pattern in bytes, or `usize::MAX` without patterns.
    fn min_pattern_len(&self) -> usize {
        self.inner().searcher.min_pattern_len()
    }

    /// Returns the length of the longest pattern in bytes, or 0 without patterns.
    fn max_pattern_len(&self) -> usize {
        self.inner().searcher.max_pattern_len()
    }

    /// Returns the memory of the automaton in bytes: the searcher, and what walks need.
    fn memory_usage(&self) -> usize {
        self.inner().searcher.memory_usage() + self.inner().walk.memory_usage()
    }

    /// Returns `None`: a walk has no prefilter. Searches use the prefilter of the library.
    fn prefilter(&self) -> Option<&Prefilter> {
        None
    }

    /// Returns the first match, or an error if the automaton does not support such searches. An
    /// input that is done has no match, and is never an error.
    fn try_find(&self, input: &Input<'_>) -> Result<Option<Match>, MatchError> {
        if input.is_done() {
            return Ok(None);
        }
        self.inner().searcher.try_find(input.clone())
    }

    /// Puts the next overlapping match into the state, as `AhoCorasick::try_find_overlapping` does.
    /// An input that is done has no match, and is never an error.
    fn try_find_overlapping(&self, input: &Input<'_>, state: &mut OverlappingState) -> Result<(), MatchError> {
        self.inner().searcher.next_unless_done(input, state)
    }

    /// Returns an iterator over the matches. Each search begins where the previous match ended.
    fn try_find_iter<'a, 'h>(&'a self, input: Input<'h>) -> Result<FindIter<'a, 'h, Self>, MatchError>
    where
        Self: Sized,
    {
        Ok(FindIter { of: PhantomData, found: self.inner().searcher.try_find_iter(input)? })
    }

    /// Returns an iterator over all matches, including overlapping ones, sorted by end, then start,
    /// then number.
    fn try_find_overlapping_iter<'a, 'h>(&'a self, input: Input<'h>) -> Result<FindOverlappingIter<'a, 'h, Self>, MatchError>
    where
        Self: Sized,
    {
        Ok(FindOverlappingIter { of: PhantomData, found: self.inner().searcher.overlapping_iter(input)? })
    }

    /// Does what `AhoCorasick::try_replace_all` does.
    fn try_replace_all<B>(&self, haystack: &str, replace_with: &[B]) -> Result<String, MatchError>
    where
        Self: Sized,
        B: AsRef<str>,
    {
        self.inner().searcher.want_one_each(replace_with.len());
        self.inner().searcher.try_replace_all(haystack, replace_with)
    }

    /// Does what `AhoCorasick::try_replace_all_bytes` does.
    fn try_replace_all_bytes<B>(&self, haystack: &[u8], replace_with: &[B]) -> Result<Vec<u8>, MatchError>
    where
        Self: Sized,
        B: AsRef<[u8]>,
    {
        self.inner().searcher.want_one_each(replace_with.len());
        self.inner().searcher.try_replace_all_bytes(haystack, replace_with)
    }

    /// Does what `AhoCorasick::try_replace_all_with` does.
    fn try_replace_all_with<F>(&self, haystack: &str, dst: &mut String, replace_with: F) -> Result<(), MatchError>
    where
        Self: Sized,
        F: FnMut(&Match, &str, &mut String) -> bool,
    {
        self.inner().searcher.try_replace_all_with(haystack, dst, replace_with)
    }

    /// Does what `AhoCorasick::try_replace_all_with_bytes` does.
    fn try_replace_all_with_bytes<F>(&self, haystack: &[u8], dst: &mut Vec<u8>, replace_with: F) -> Result<(), MatchError>
    where
        Self: Sized,
        F: FnMut(&Match, &[u8], &mut Vec<u8>) -> bool,
    {
        self.inner().searcher.try_replace_all_with_bytes(haystack, dst, replace_with)
    }

    /// Does what `AhoCorasick::try_stream_find_iter` does.
    fn try_stream_find_iter<'a, R: Read>(&'a self, rdr: R) -> Result<StreamFindIter<'a, Self, R>, MatchError>
    where
        Self: Sized,
    {
        Ok(StreamFindIter { of: PhantomData, found: self.inner().searcher.standard_streams()?.find_iter(rdr) })
    }

    /// Does what `AhoCorasick::try_stream_replace_all` does.
    fn try_stream_replace_all<R, W, B>(&self, rdr: R, wtr: W, replace_with: &[B]) -> io::Result<()>
    where
        Self: Sized,
        R: Read,
        W: Write,
        B: AsRef<[u8]>,
    {
        self.inner().searcher.want_one_each(replace_with.len());
        self.inner().searcher.standard_streams().map_err(stream::refused)?.replace_all(rdr, wtr, replace_with)
    }

    /// Does what `AhoCorasick::try_stream_replace_all_with`.
    fn try_stream_replace_all_with<R, W, F>(&self, rdr: R, wtr: W, replace_with: F) -> io::Result<()>
    where
        Self: Sized,
        R: Read,
        W: Write,
        F: FnMut(&Match, &[u8], &mut W) -> io::Result<()>,
    {
        self.inner().searcher.standard_streams().map_err(stream::refused)?.replace_all_with(rdr, wtr, replace_with)
    }
}

impl<A: Automaton + ?Sized> Automaton for &A {}

/// A prefilter, which a walk could ask for the next candidate. No value of this type exists:
/// `Automaton::prefilter` returns `None`.
#[derive(Clone, Debug)]
pub struct Prefilter(Infallible);

impl Prefilter {
    /// Returns the next candidate in a span.
    pub fn find_in(&self, _haystack: &[u8], _span: Span) -> Candidate {
        match self.0 {}
    }
}

/// The answer of a prefilter.
#[derive(Clone, Debug)]
pub enum Candidate {
    /// There is no match.
    None,
    /// There is a match.
    Match(Match),
    /// No match starts before this offset.
    PossibleStartOfMatch(usize),
}

impl Candidate {
    /// Returns the offset where a match starts or may start.
    pub fn into_option(self) -> Option<usize> {
        match self {
            Candidate::None => None,
            Candidate::Match(found) => Some(found.start()),
            Candidate::PossibleStartOfMatch(start) => Some(start),
        }
    }
}

/// An iterator over the matches of an automaton. Each match is searched for by the call that
/// returns it.
pub struct FindIter<'a, 'h, A> {
    of: PhantomData<&'a A>,
    found: searcher::FindIter<'a, 'h>,
}

/// An iterator over all matches of an automaton, including overlapping ones.
pub struct FindOverlappingIter<'a, 'h, A> {
    of: PhantomData<&'a A>,
    found: overlapping::FindOverlappingIter<'a, 'h>,
}

/// An iterator over the matches of an automaton in the bytes of a reader.
pub struct StreamFindIter<'a, A, R> {
    of: PhantomData<&'a A>,
    found: stream::StreamFindIter<'a, R>,
}

impl<A: Automaton> Iterator for FindIter<'_, '_, A> {
    type Item = Match;

    fn next(&mut self) -> Option<Match> {
        self.found.next()
    }
}

impl<A: Automaton> Iterator for FindOverlappingIter<'_, '_, A> {
    type Item = Match;

    fn next(&mut self) -> Option<Match> {
        self.found.next()
    }
}

impl<A: Automaton> FusedIterator for FindOverlappingIter<'_, '_, A> {}

impl<A: Automaton, R: Read> Iterator for StreamFindIter<'_, A, R> {
    type Item = Result<Match, io::Error>;

    fn next(&mut self) -> Option<Result<Match, io::Error>> {
        self.found.next()
    }
}

impl<A> fmt::Debug for FindIter<'_, '_, A> {
    fn fmt(&self, to: &mut fmt::Formatter<'_>) -> fmt::Result {
        self.found.fmt(to)
    }
}

impl<A> fmt::Debug for FindOverlappingIter<'_, '_, A> {
    fn fmt(&self, to: &mut fmt::Formatter<'_>) -> fmt::Result {
        self.found.fmt(to)
    }
}

impl<A, R> fmt::Debug for StreamFindIter<'_, A, R> {
    fn fmt(&self, to: &mut fmt::Formatter<'_>) -> fmt::Result {
        self.found.fmt(to)
    }
}
