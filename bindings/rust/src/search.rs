//! The inputs of searches, and their matches.
use crate::primitives::PatternID;
use std::{
    fmt,
    ops::{Bound, Index, IndexMut, Range, RangeBounds},
};

/// Which of several possible matches is found.
#[derive(Clone, Copy, Debug, PartialEq, Eq)]
#[non_exhaustive]
pub enum MatchKind {
    /// The match that ends first.
    Standard,
    /// Of the matches that start first, the one whose pattern was given first.
    LeftmostFirst,
    /// Of the matches that start first, the longest.
    LeftmostLongest,
}

impl Default for MatchKind {
    fn default() -> MatchKind {
        MatchKind::Standard
    }
}

/// Which searches a searcher supports.
#[derive(Clone, Copy, Debug, PartialEq, Eq)]
pub enum StartKind {
    /// Both kinds of searches.
    Both,
    /// Unanchored searches.
    Unanchored,
    /// Anchored searches.
    Anchored,
}

impl Default for StartKind {
    fn default() -> StartKind {
        StartKind::Unanchored
    }
}

/// Whether a match must start where the span does.
#[derive(Clone, Copy, Debug, PartialEq, Eq)]
#[non_exhaustive]
pub enum Anchored {
    /// A match may start anywhere in the span.
    No,
    /// A match must start where the span does.
    Yes,
}

impl Anchored {
    /// Returns whether it is `Yes`.
    pub fn is_anchored(&self) -> bool {
        *self == Anchored::Yes
    }
}

/// A half-open range of bytes.
#[derive(Clone, Copy, PartialEq, Eq, Hash)]
pub struct Span {
    /// The offset of its first byte.
    pub start: usize,
    /// The offset after its last byte.
    pub end: usize,
}

impl Span {
    /// Returns the span as a range.
    pub fn range(&self) -> Range<usize> {
        self.start..self.end
    }

    /// Returns whether it is empty.
    pub fn is_empty(&self) -> bool {
        self.start >= self.end
    }

    /// Returns its length in bytes.
    pub fn len(&self) -> usize {
        self.end.saturating_sub(self.start)
    }

    /// Returns whether an offset is in it.
    pub fn contains(&self, offset: usize) -> bool {
        self.range().contains(&offset)
    }

    /// Returns the span, moved to the right by a number of bytes.
    pub fn offset(&self, offset: usize) -> Span {
        Span { start: self.start + offset, end: self.end + offset }
    }
}

impl From<Range<usize>> for Span {
    fn from(range: Range<usize>) -> Span {
        Span { start: range.start, end: range.end }
    }
}

impl From<Span> for Range<usize> {
    fn from(span: Span) -> Range<usize> {
        span.range()
    }
}

impl PartialEq<Range<usize>> for Span {
    fn eq(&self, range: &Range<usize>) -> bool {
        self.range() == *range
    }
}

impl PartialEq<Span> for Range<usize> {
    fn eq(&self, span: &Span) -> bool {
        span == self
    }
}

impl fmt::Debug for Span {
    fn fmt(&self, to: &mut fmt::Formatter<'_>) -> fmt::Result {
        write!(to, "{}..{}", self.start, self.end)
    }
}

impl Index<Span> for [u8] {
    type Output = [u8];

    fn index(&self, span: Span) -> &[u8] {
        &self[span.range()]
    }
}

impl IndexMut<Span> for [u8] {
    fn index_mut(&mut self, span: Span) -> &mut [u8] {
        &mut self[span.range()]
    }
}

impl Index<Span> for str {
    type Output = str;

    fn index(&self, span: Span) -> &str {
        &self[span.range()]
    }
}

/// A match: the number of its pattern, and its span.
#[derive(Clone, Copy, Debug, PartialEq, Eq, Hash)]
pub struct Match {
    pattern: PatternID,
    span: Span,
}

impl Match {
    /// Returns a match of the pattern at the span. Panics if the span ends before its start.
    pub fn new<S: Into<Span>>(pattern: PatternID, span: S) -> Match {
        let span = span.into();
        assert!(span.start <= span.end, "a match that ends before its start");
        Match { pattern, span }
    }

    /// Returns a match of the pattern with this number. Panics if the span ends before its start,
    /// or the number is above `PatternID::MAX`.
    pub fn must<S: Into<Span>>(pattern: usize, span: S) -> Match {
        Match::new(PatternID::must(pattern), span)
    }

    /// Returns the number of the pattern.
    pub fn pattern(&self) -> PatternID {
        self.pattern
    }

    /// Returns the offset of its first byte.
    pub fn start(&self) -> usize {
        self.span.start
    }

    /// Returns the offset after its last byte.
    pub fn end(&self) -> usize {
        self.span.end
    }

    /// Returns its span as a range.
    pub fn range(&self) -> Range<usize> {
        self.span.range()
    }

    /// Returns its span.
    pub fn span(&self) -> Span {
        self.span
    }

    /// Returns whether it is empty.
    pub fn is_empty(&self) -> bool {
        self.span.is_empty()
    }

    /// Returns its length in bytes.
    pub fn len(&self) -> usize {
        self.span.len()
    }

    /// Returns the match, moved to the right by a number of bytes.
    pub fn offset(&self, offset: usize) -> Match {
        Match { pattern: self.pattern, span: self.span.offset(offset) }
    }
}

/// The input of a search: a haystack, a span of it, whether the search is anchored, and whether it
/// wants the earliest match.
#[derive(Clone)]
pub struct Input<'h> {
    haystack: &'h [u8],
    span: Span,
    anchored: Anchored,
    earliest: bool,
}

impl<'h> Input<'h> {
    /// Returns the input of an unanchored search of the whole haystack, which does not want the
    /// earliest match.
    pub fn new<H: ?Sized + AsRef<[u8]>>(haystack: &'h H) -> Input<'h> {
        let haystack = haystack.as_ref();
        Input { haystack, span: Span { start: 0, end: haystack.len() }, anchored: Anchored::No, earliest: false }
    }

    /// Returns the input with this span. The start may be one above the end: then nothing is found.
    /// Panics if the haystack has no such span.
    pub fn span<S: Into<Span>>(mut self, span: S) -> Input<'h> {
        self.set_span(span);
        self
    }

    /// Returns the input with this range as its span. Panics as `span` does.
    pub fn range<R: RangeBounds<usize>>(mut self, range: R) -> Input<'h> {
        self.set_range(range);
        self
    }

    /// Returns the input with this anchoring.
    pub fn anchored(mut self, mode: Anchored) -> Input<'h> {
        self.set_anchored(mode);
        self
    }

    /// Returns the input for a search that wants the match that ends first, if `yes`.
    pub fn earliest(mut self, yes: bool) -> Input<'h> {
        self.set_earliest(yes);
        self
    }

    /// Sets the span. Panics as `span` does.
    pub fn set_span<S: Into<Span>>(&mut self, span: S) {
        let span = span.into();
        assert!(
            span.end <= self.haystack.len() && span.start <= span.end + 1,
            "a haystack of {} bytes has no span {}..{}",
            self.haystack.len(),
            span.start,
            span.end
        );
        self.span = span;
    }

    /// Sets the span by a range. Panics as `span` does.
    pub fn set_range<R: RangeBounds<usize>>(&mut self, range: R) {
        let start = match range.start_bound() {
            Bound::Included(&at) => at,
            Bound::Excluded(&at) => at.checked_add(1).expect("the start of the range is too large"),
            Bound::Unbounded => 0,
        };
        let end = match range.end_bound() {
            Bound::Included(&at) => at.checked_add(1).expect("the end of the range is too large"),
            Bound::Excluded(&at) => at,
            Bound::Unbounded => self.haystack.len(),
        };
        self.set_span(Span { start, end });
    }

    /// Sets the start of the span. Panics as `span` does.
    pub fn set_start(&mut self, start: usize) {
        self.set_span(Span { start, end: self.span.end });
    }

    /// Sets the end of the span. Panics as `span` does.
    pub fn set_end(&mut self, end: usize) {
        self.set_span(Span { start: self.span.start, end });
    }

    /// Sets whether the search is anchored.
    pub fn set_anchored(&mut self, mode: Anchored) {
        self.anchored = mode;
    }

    /// Sets whether the search wants the match that ends first.
    pub fn set_earliest(&mut self, yes: bool) {
        self.earliest = yes;
    }

    /// Returns the whole haystack.
    pub fn haystack(&self) -> &'h [u8] {
        self.haystack
    }

    /// Returns the start of the span.
    pub fn start(&self) -> usize {
        self.span.start
    }

    /// Returns the end of the span.
    pub fn end(&self) -> usize {
        self.span.end
    }

    /// Returns the span.
    pub fn get_span(&self) -> Span {
        self.span
    }

    /// Returns the span as a range.
    pub fn get_range(&self) -> Range<usize> {
        self.span.range()
    }

    /// Returns whether the search is anchored.
    pub fn get_anchored(&self) -> Anchored {
        self.anchored
    }

    /// Returns whether the search wants the match that ends first.
    pub fn get_earliest(&self) -> bool {
        self.earliest
    }

    /// Returns whether the span starts after its end, so that nothing is found.
    pub fn is_done(&self) -> bool {
        self.span.start > self.span.end
    }
}

impl<'h, H: ?Sized + AsRef<[u8]>> From<&'h H> for Input<'h> {
    fn from(haystack: &'h H) -> Input<'h> {
        Input::new(haystack)
    }
}

impl fmt::Debug for Input<'_> {
    fn fmt(&self, to: &mut fmt::Formatter<'_>) -> fmt::Result {
        let text = std::str::from_utf8(self.haystack);
        let haystack: &dyn fmt::Debug = text.as_ref().map_or(&self.haystack, |text| text);
        to.debug_struct("Input")
            .field("haystack", haystack)
            .field("span", &self.span)
            .field("anchored", &self.anchored)
            .field("earliest", &self.earliest)
            .finish()
    }
}
