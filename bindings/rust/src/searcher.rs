//! The searcher, its builder and its iterators.
use crate::error::{BuildError, MatchError};
use crate::kinds::AhoCorasickKind;
use crate::library::{Facts, Handle, Pieces, States, Stream, Wishes};
use crate::search::{Anchored, Input, Match, MatchKind, StartKind};
use crate::shares::{Share, Shares};
use std::{fmt, marker::PhantomData, ops::Deref, sync::Arc};

/// A searcher for a list of patterns. Clones share its memory, and any number of threads may search
/// with one searcher at the same time.
#[derive(Clone)]
pub struct AhoCorasick {
    shares: Arc<Shares>,
    facts: Facts,
    match_kind: MatchKind,
    start_kind: StartKind,
    kind: AhoCorasickKind,
}

/// Builds searchers.
#[derive(Clone, Debug)]
pub struct AhoCorasickBuilder {
    match_kind: MatchKind,
    start_kind: StartKind,
    ascii_case_insensitive: bool,
    prefilter: bool,
    kind: Option<AhoCorasickKind>,
}

impl Default for AhoCorasickBuilder {
    fn default() -> AhoCorasickBuilder {
        AhoCorasickBuilder::new()
    }
}

impl AhoCorasickBuilder {
    /// Returns a builder with the standard match kind, for unanchored and case-sensitive searches,
    /// and with a prefilter.
    pub fn new() -> AhoCorasickBuilder {
        let (match_kind, start_kind) = (MatchKind::Standard, StartKind::Unanchored);
        AhoCorasickBuilder { match_kind, start_kind, ascii_case_insensitive: false, prefilter: true, kind: None }
    }

    /// Builds a searcher for the patterns.
    ///
    /// Fails if they are too many or too long, or memory runs out.
    pub fn build<I, P>(&self, patterns: I) -> Result<AhoCorasick, BuildError>
    where
        I: IntoIterator<Item = P>,
        P: AsRef<[u8]>,
    {
        let patterns: Vec<P> = patterns.into_iter().collect();
        self.build_of(&Pieces::of(&patterns))
    }

    pub(crate) fn build_of(&self, patterns: &Pieces<'_>) -> Result<AhoCorasick, BuildError> {
        let mut handle = Handle::build(patterns, &self.wishes()).map_err(BuildError::of)?;
        let facts = handle.facts();
        let kind = AhoCorasickKind::told(self.kind, self.start_kind);
        Ok(AhoCorasick { shares: Arc::new(Shares::new(handle)), facts, match_kind: self.match_kind, start_kind: self.start_kind, kind })
    }

    fn wishes(&self) -> Wishes {
        // The library lists overlapping matches with unanchored searches only. A searcher for both
        // kinds of searches has the same automaton, and the same answers to the other calls.
        let start_kind = if self.start_kind == StartKind::Anchored { StartKind::Both } else { self.start_kind };
        Wishes {
            match_kind: self.match_kind,
            start_kind,
            ignore_case: self.ascii_case_insensitive,
            prefilter: self.prefilter,
            kind: self.kind,
        }
    }

    /// Sets which of several possible matches is found.
    pub fn match_kind(&mut self, kind: MatchKind) -> &mut AhoCorasickBuilder {
        self.match_kind = kind;
        self
    }

    /// Sets which searches the searcher supports.
    pub fn start_kind(&mut self, kind: StartKind) -> &mut AhoCorasickBuilder {
        self.start_kind = kind;
        self
    }

    /// Sets whether ASCII letters match in either case.
    pub fn ascii_case_insensitive(&mut self, yes: bool) -> &mut AhoCorasickBuilder {
        self.ascii_case_insensitive = yes;
        self
    }

    /// Sets whether searches may use a prefilter, on which no answer depends.
    pub fn prefilter(&mut self, yes: bool) -> &mut AhoCorasickBuilder {
        self.prefilter = yes;
        self
    }

    /// Sets the kind of automaton. It is a hint, on which no answer depends. With `None` the
    /// library chooses.
    pub fn kind(&mut self, kind: Option<AhoCorasickKind>) -> &mut AhoCorasickBuilder {
        self.kind = kind;
        self
    }

    /// Accepts the setting of the Rust crate, and ignores it: the library chooses which states are
    /// dense.
    pub fn dense_depth(&mut self, _depth: usize) -> &mut AhoCorasickBuilder {
        self
    }

    /// Accepts the setting of the Rust crate, and ignores it: the library always uses classes of
    /// bytes.
    pub fn byte_classes(&mut self, _yes: bool) -> &mut AhoCorasickBuilder {
        self
    }
}

/// Panics with the error of a call, for the call of the same name without `try_`.
pub(crate) fn or_panic<T>(answer: Result<T, MatchError>) -> T {
    answer.unwrap_or_else(|error| panic!("{error} (the call of the same name with try_ returns this as an error)"))
}

impl AhoCorasick {
    /// Builds a searcher of the standard kind for the patterns.
    ///
    /// Fails if they are too many or too long, or memory runs out.
    pub fn new<I, P>(patterns: I) -> Result<AhoCorasick, BuildError>
    where
        I: IntoIterator<Item = P>,
        P: AsRef<[u8]>,
    {
        AhoCorasickBuilder::new().build(patterns)
    }

    /// Returns a builder with the default settings.
    pub fn builder() -> AhoCorasickBuilder {
        AhoCorasickBuilder::new()
    }

    /// Returns whether a pattern occurs in the input. It never panics: every input is searched,
    /// whatever `start_kind` the searcher was built with, and a span that is done has no match.
    pub fn is_match<'h, I: Into<Input<'h>>>(&self, input: I) -> bool {
        let input = input.into();
        if input.is_done() {
            return false;
        }
        if input.get_anchored() == Anchored::No {
            let haystack = &input.haystack()[input.get_range()];
            return self.shares.share().with(|handle| handle.is_match(haystack));
        }
        if self.allows(Anchored::Yes).is_err() {
            return self.starts_with_match(&input);
        }
        searched(&mut self.shares.share(), &input.earliest(true)).is_some()
    }

    /// Returns whether a pattern occurs at the start of the span, by an unanchored search of as
    /// many bytes as the longest pattern has.
    fn starts_with_match(&self, input: &Input<'_>) -> bool {
        let end = input.end().min(input.start().saturating_add(self.max_pattern_len()));
        let front = &input.haystack()[input.start()..end];
        if self.match_kind == MatchKind::Standard {
            return self.overlapping_in(front, 0).iter().any(|it| it.start() == 0);
        }
        // If any match starts there, the leftmost match does.
        searched(&mut self.shares.share(), &Input::new(front)).map_or(false, |it| it.start() == 0)
    }

    /// Returns the first match. Panics if the searcher does not support such searches.
    pub fn find<'h, I: Into<Input<'h>>>(&self, input: I) -> Option<Match> {
        or_panic(self.try_find(input))
    }

    /// Returns an iterator over the matches. Each search begins where the previous match ended.
    /// Panics as `find` does.
    pub fn find_iter<'a, 'h, I: Into<Input<'h>>>(&'a self, input: I) -> FindIter<'a, 'h> {
        or_panic(self.try_find_iter(input))
    }

    /// Returns the text with each match replaced by the replacement of its pattern. A match that
    /// starts or ends inside a character is not replaced.
    ///
    /// Panics if the number of replacements differs from the number of patterns, and as `find`
    /// does.
    pub fn replace_all<B: AsRef<str>>(&self, haystack: &str, replace_with: &[B]) -> String {
        or_panic(self.try_replace_all(haystack, replace_with))
    }

    /// Returns the bytes with each match replaced by the replacement of its pattern. Panics as
    /// `replace_all` does.
    pub fn replace_all_bytes<B: AsRef<[u8]>>(&self, haystack: &[u8], replace_with: &[B]) -> Vec<u8> {
        or_panic(self.try_replace_all_bytes(haystack, replace_with))
    }

    /// Appends the text to `dst`, and calls the closure for each match, which appends the
    /// replacement. If the closure returns false, the rest of the text is appended unchanged. A
    /// match that starts or ends inside a character is not replaced. Panics as `find` does.
    pub fn replace_all_with<F>(&self, haystack: &str, dst: &mut String, replace_with: F)
    where
        F: FnMut(&Match, &str, &mut String) -> bool,
    {
        or_panic(self.try_replace_all_with(haystack, dst, replace_with))
    }

    /// Appends the bytes to `dst`, as `replace_all_with` does with a text, but replaces every
    /// match.
    pub fn replace_all_with_bytes<F>(&self, haystack: &[u8], dst: &mut Vec<u8>, replace_with: F)
    where
        F: FnMut(&Match, &[u8], &mut Vec<u8>) -> bool,
    {
        or_panic(self.try_replace_all_with_bytes(haystack, dst, replace_with))
    }

    /// Does what `find` does, but returns an error instead of a panic.
    pub fn try_find<'h, I: Into<Input<'h>>>(&self, input: I) -> Result<Option<Match>, MatchError> {
        let input = input.into();
        self.refusal(&input)?;
        Ok(searched(&mut self.shares.share(), &input))
    }

    /// Does what `find_iter` does, but returns an error instead of a panic.
    pub fn try_find_iter<'a, 'h, I: Into<Input<'h>>>(&'a self, input: I) -> Result<FindIter<'a, 'h>, MatchError> {
        let input = input.into();
        self.refusal(&input)?;
        Ok(FindIter { share: self.shares.kept_share(), of: PhantomData, input, last_end: None })
    }

    /// Does what `replace_all` does, but returns an error if the searcher does not support the
    /// search. A wrong number of replacements panics.
    pub fn try_replace_all<B: AsRef<str>>(&self, haystack: &str, replace_with: &[B]) -> Result<String, MatchError> {
        self.allows(Anchored::No)?;
        self.want_one_each(replace_with.len());
        let mut dst = String::with_capacity(haystack.len());
        self.try_replace_all_with(haystack, &mut dst, |found, _, dst| {
            dst.push_str(replace_with[found.pattern().as_usize()].as_ref());
            true
        })?;
        Ok(dst)
    }

    /// Does what `replace_all_bytes` does, but returns an error if the searcher does not support
    /// the search. A wrong number of replacements panics.
    pub fn try_replace_all_bytes<B: AsRef<[u8]>>(&self, haystack: &[u8], replace_with: &[B]) -> Result<Vec<u8>, MatchError> {
        self.allows(Anchored::No)?;
        self.want_one_each(replace_with.len());
        let pieces = Pieces::of(replace_with);
        match self.shares.share().with(|handle| handle.replace_all(haystack, &pieces)) {
            Some(replaced) => Ok(replaced),
            None => std::alloc::handle_alloc_error(std::alloc::Layout::for_value(haystack)),
        }
    }

    /// Does what `replace_all_with` does, but returns an error instead of a panic.
    pub fn try_replace_all_with<F>(&self, haystack: &str, dst: &mut String, mut replace_with: F) -> Result<(), MatchError>
    where
        F: FnMut(&Match, &str, &mut String) -> bool,
    {
        let mut copied = 0;
        for found in self.try_find_iter(haystack)? {
            let text = match haystack.get(found.range()) {
                Some(text) => text,
                None => continue,
            };
            dst.push_str(&haystack[copied..found.start()]);
            copied = found.end();
            if !replace_with(&found, text, dst) {
                break;
            }
        }
        dst.push_str(&haystack[copied..]);
        Ok(())
    }

    /// Does what `replace_all_with_bytes` does, but returns an error instead of a panic.
    pub fn try_replace_all_with_bytes<F>(&self, haystack: &[u8], dst: &mut Vec<u8>, mut replace_with: F) -> Result<(), MatchError>
    where
        F: FnMut(&Match, &[u8], &mut Vec<u8>) -> bool,
    {
        let mut copied = 0;
        for found in self.try_find_iter(haystack)? {
            dst.extend_from_slice(&haystack[copied..found.start()]);
            copied = found.end();
            if !replace_with(&found, &haystack[found.range()], dst) {
                break;
            }
        }
        dst.extend_from_slice(&haystack[copied..]);
        Ok(())
    }

    /// Returns the kind of automaton that was requested, or else the one that the library most
    /// likely chose.
    pub fn kind(&self) -> AhoCorasickKind {
        self.kind
    }

    /// Returns which of several possible matches is found.
    pub fn match_kind(&self) -> MatchKind {
        self.match_kind
    }

    /// Returns which searches the searcher supports.
    pub fn start_kind(&self) -> StartKind {
        self.start_kind
    }

    /// Returns the number of patterns.
    pub fn patterns_len(&self) -> usize {
        self.facts.patterns
    }

    /// Returns the length of the shortest pattern in bytes, or `usize::MAX` without patterns.
    pub fn min_pattern_len(&self) -> usize {
        self.facts.min_len
    }

    /// Returns the length of the longest pattern in bytes, or 0 without patterns.
    pub fn max_pattern_len(&self) -> usize {
        self.facts.max_len
    }

    /// Returns the memory of the searcher in bytes.
    pub fn memory_usage(&self) -> usize {
        self.facts.memory
    }

    /// Returns an error if the searcher does not support the search.
    pub(crate) fn refusal(&self, input: &Input<'_>) -> Result<(), MatchError> {
        self.allows(input.get_anchored())
    }

    pub(crate) fn allows(&self, anchored: Anchored) -> Result<(), MatchError> {
        match (self.start_kind, anchored) {
            (StartKind::Unanchored, Anchored::Yes) => Err(MatchError::invalid_input_anchored()),
            (StartKind::Anchored, Anchored::No) => Err(MatchError::invalid_input_unanchored()),
            _ => Ok(()),
        }
    }

    /// Returns this searcher, which supports all searches, with another kind and start kind.
    pub(crate) fn of_kind(&self, kind: AhoCorasickKind, start_kind: StartKind) -> AhoCorasick {
        AhoCorasick { kind, start_kind, ..self.clone() }
    }

    /// Returns the states of its automaton, or `None` if memory ran out.
    pub(crate) fn states(&self) -> Option<States> {
        self.shares.one_more().map(States::of)
    }

    /// Formats a type that consists of this searcher.
    pub(crate) fn print(&self, name: &str, memory_usage: usize, to: &mut fmt::Formatter<'_>) -> fmt::Result {
        to.debug_struct(name)
            .field("patterns_len", &self.facts.patterns)
            .field("match_kind", &self.match_kind)
            .field("start_kind", &self.start_kind)
            .field("memory_usage", &memory_usage)
            .finish()
    }

    /// Returns the haystack with each run of matched bytes replaced. The caller gives one
    /// replacement for each pattern; no pattern is empty, the match kind is standard, and the
    /// searcher supports unanchored searches.
    pub(crate) fn cover_all<B: AsRef<[u8]>>(&self, haystack: &[u8], pieces: &[B]) -> Vec<u8> {
        let pieces = &Pieces::of(pieces);
        let covered = self.shares.share().with(|handle| handle.cover_all(haystack, pieces));
        covered.unwrap_or_else(|| std::alloc::handle_alloc_error(std::alloc::Layout::for_value(haystack)))
    }

    /// Returns all matches in a part of a haystack that begins at `begin`, including overlapping
    /// ones, with their offsets in the haystack.
    pub(crate) fn overlapping_in(&self, part: &[u8], begin: usize) -> Vec<Match> {
        self.shares.share().with(|handle| handle.overlapping(part, begin))
    }

    /// Returns a stream. No pattern is empty, and the searcher supports unanchored searches.
    pub(crate) fn stream(&self) -> Stream {
        let made = self.shares.share().with(|handle| handle.stream());
        made.unwrap_or_else(|_| std::alloc::handle_alloc_error(std::alloc::Layout::new::<[u8; 65536]>()))
    }

    pub(crate) fn want_one_each(&self, pieces: usize) {
        assert_eq!(pieces, self.patterns_len(), "the number of replacements differs from the number of patterns");
    }
}

impl fmt::Debug for AhoCorasick {
    fn fmt(&self, to: &mut fmt::Formatter<'_>) -> fmt::Result {
        self.print("AhoCorasick", self.facts.memory, to)
    }
}

/// Returns the match of a search that the searcher supports.
fn searched<S: Deref<Target = Shares>>(share: &mut Share<S>, input: &Input<'_>) -> Option<Match> {
    if input.is_done() {
        return None;
    }
    share.with(|handle| handle.search(input))
}

/// An iterator over matches. Each match is searched for by the call that returns it. The iterator
/// has its own handle of the searcher.
pub struct FindIter<'a, 'h> {
    share: Share<Arc<Shares>>,
    of: PhantomData<&'a AhoCorasick>,
    input: Input<'h>,
    last_end: Option<usize>,
}

impl Iterator for FindIter<'_, '_> {
    type Item = Match;

    fn next(&mut self) -> Option<Match> {
        let mut found = searched(&mut self.share, &self.input)?;
        if found.is_empty() && self.last_end == Some(found.end()) {
            // An empty match where the last match ended is dropped.
            self.input.set_start(self.input.start() + 1);
            found = searched(&mut self.share, &self.input)?;
        }
        self.input.set_start(found.end());
        self.last_end = Some(found.end());
        Some(found)
    }
}

impl fmt::Debug for FindIter<'_, '_> {
    fn fmt(&self, to: &mut fmt::Formatter<'_>) -> fmt::Result {
        to.debug_struct("FindIter").field("input", &self.input).finish_non_exhaustive()
    }
}
