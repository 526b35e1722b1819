//! Overlapping searches. They search one part of the haystack after another.
use crate::error::MatchError;
use crate::search::{Anchored, Input, Match, MatchKind};
use crate::searcher::{or_panic, AhoCorasick};
use std::iter::FusedIterator;

/// The length of the first part in bytes, and of the longest part.
const LEAST: usize = 256;
const MOST: usize = 1 << 20;
/// The number of matches for which a part is meant: if it has more, the next part is shorter.
const WANTED: usize = 2048;

/// The progress of an overlapping search. All calls with one state must have the same input.
#[derive(Clone, Debug)]
pub struct OverlappingState {
    found: Option<Match>,
    /// The matches that come next, in reverse order.
    ready: Vec<Match>,
    /// The end of the last part: all matches that end at or before it were returned or are ready.
    searched_to: Option<usize>,
    /// The end of an anchored search, once it has begun.
    anchored_end: Option<usize>,
    part: usize,
}

impl OverlappingState {
    /// Returns the state of a search that has not begun.
    pub fn start() -> OverlappingState {
        OverlappingState {
            found: None,
            ready: Vec::new(),
            searched_to: None,
            anchored_end: None,
            part: LEAST,
        }
    }

    /// Returns the match that the last call found.
    pub fn get_match(&self) -> Option<Match> {
        self.found
    }
}

impl AhoCorasick {
    /// Puts the next match into the state, or `None` after the last one. Matches may overlap, and
    /// come sorted by end, then start, then number. An anchored search lists the matches that end
    /// while the bytes read so far are the prefix of a pattern, even those that start later.
    ///
    /// Panics if the match kind is not standard, or the searcher does not support such searches.
    pub fn find_overlapping<'h, I: Into<Input<'h>>>(&self, input: I, state: &mut OverlappingState) {
        or_panic(self.try_find_overlapping(input, state))
    }

    /// Does what `find_overlapping` does, but returns an error instead of a panic, and leaves the
    /// state unchanged then.
    pub fn try_find_overlapping<'h, I: Into<Input<'h>>>(&self, input: I, state: &mut OverlappingState) -> Result<(), MatchError> {
        let input = input.into();
        self.refusal(&input)?;
        self.next_unless_done(&input, state)
    }

    /// Returns an iterator over all matches, including overlapping ones, sorted by end, then start,
    /// then number. It searches one part of the haystack after another.
    ///
    /// Panics if the match kind is not standard, if the search is anchored, or if the searcher does
    /// not support unanchored searches.
    pub fn find_overlapping_iter<'a, 'h, I: Into<Input<'h>>>(&'a self, input: I) -> FindOverlappingIter<'a, 'h> {
        or_panic(self.try_find_overlapping_iter(input))
    }

    /// Does what `find_overlapping_iter` does, but returns an error instead of a panic.
    pub fn try_find_overlapping_iter<'a, 'h, I: Into<Input<'h>>>(&'a self, input: I) -> Result<FindOverlappingIter<'a, 'h>, MatchError> {
        let input = input.into();
        self.refusal(&input)?;
        self.overlapping_iter(input)
    }

    /// Returns the iterator, or the error of an automaton of the Rust crate: a wrong match kind
    /// comes first, then an anchored search, then a search that is not supported.
    pub(crate) fn overlapping_iter<'a, 'h>(
        &'a self,
        input: Input<'h>,
    ) -> Result<FindOverlappingIter<'a, 'h>, MatchError> {
        self.is_standard()?;
        if input.get_anchored().is_anchored() {
            return Err(MatchError::invalid_input_anchored());
        }
        self.refusal(&input)?;
        Ok(FindOverlappingIter { searcher: self, input, state: OverlappingState::start() })
    }

    /// Puts the next match into the state. A span that is done has none, and is never refused.
    pub(crate) fn next_unless_done(
        &self,
        input: &Input<'_>,
        state: &mut OverlappingState,
    ) -> Result<(), MatchError> {
        if input.is_done() {
            state.found = None;
            return Ok(());
        }
        self.refusal(input)?;
        self.is_standard()?;
        self.next_overlapping(input, state);
        Ok(())
    }

    fn is_standard(&self) -> Result<(), MatchError> {
        match self.match_kind() {
            MatchKind::Standard => Ok(()),
            got => Err(MatchError::unsupported_overlapping(got)),
        }
    }

    /// Returns where an anchored search of the span ends: before the first byte with which the
    /// bytes read so far are no longer the prefix of a pattern.
    fn anchored_end(&self, input: &Input<'_>) -> usize {
        let mut states = self.states().unwrap_or_else(out_of_memory);
        let mut state = states.start(true);
        for at in input.start()..input.end() {
            state = states.next(true, state, input.haystack()[at]);
            if states.told(state).is_dead {
                return at;
            }
        }
        input.end()
    }

    fn next_overlapping(&self, input: &Input<'_>, state: &mut OverlappingState) {
        while state.ready.is_empty() && self.search_part(input, state) {}
        state.found = state.ready.pop();
    }

    /// Lists the matches that end in the next part of the span. Returns whether there was a part.
    fn search_part(&self, input: &Input<'_>, state: &mut OverlappingState) -> bool {
        let from = state.searched_to.unwrap_or(input.start());
        let last = match input.get_anchored() {
            Anchored::No => input.end(),
            Anchored::Yes => *state.anchored_end.get_or_insert_with(|| self.anchored_end(input)),
        };
        if input.is_done() || state.searched_to.map_or(false, |at| at >= last) {
            return false;
        }
        let part = state.part.max(self.max_pattern_len());
        let to = last.min(from.saturating_add(part));
        // A match that ends after `from` starts at most the longest pattern before its end.
        let begin = input.start().max((from + 1).saturating_sub(self.max_pattern_len())).min(from);
        let mut found = self.overlapping_in(&input.haystack()[begin..to], begin);
        found.retain(|it| state.searched_to.map_or(true, |at| it.end() > at));
        state.part = if found.len() > WANTED { (part / 2).max(LEAST) } else { (part * 2).min(MOST) };
        found.reverse();
        state.ready = found;
        state.searched_to = Some(to);
        true
    }
}

fn out_of_memory<T>() -> T {
    std::alloc::handle_alloc_error(std::alloc::Layout::new::<AhoCorasick>())
}

/// An iterator over all matches, including overlapping ones.
#[derive(Debug)]
pub struct FindOverlappingIter<'a, 'h> {
    searcher: &'a AhoCorasick,
    input: Input<'h>,
    state: OverlappingState,
}

impl Iterator for FindOverlappingIter<'_, '_> {
    type Item = Match;

    fn next(&mut self) -> Option<Match> {
        self.searcher.next_overlapping(&self.input, &mut self.state);
        self.state.get_match()
    }
}

impl FusedIterator for FindOverlappingIter<'_, '_> {}
