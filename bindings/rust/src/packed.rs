//! The Rust crate's searcher for a few patterns, over the same library. It does unanchored searches
//! with a leftmost kind.
//!
//! ```
//! use chromesquid::{packed::{Config, MatchKind, Searcher}, PatternID};
//!
//! let searcher = Searcher::new(["foobar", "foo"]).unwrap();
//! assert_eq!(searcher.find("foobar").unwrap().pattern(), PatternID::ZERO);
//! let longest = Config::new().match_kind(MatchKind::LeftmostLongest).builder().add("foo").add("foobar").build().unwrap();
//! assert_eq!(longest.find_iter("foo foobar").map(|it| it.range()).collect::<Vec<_>>(), [0..3, 4..10]);
//! ```
use crate::search::{Input, Match, Span};
use crate::searcher::{self, AhoCorasick};

/// The maximum number of patterns, as in the Rust crate. Callers with more use another searcher.
const MOST: usize = 128;

/// Which of several possible matches is found.
#[derive(Clone, Copy, Debug, PartialEq, Eq)]
#[non_exhaustive]
pub enum MatchKind {
    /// Of the matches that start first, the one whose pattern was given first.
    LeftmostFirst,
    /// Of the matches that start first, the longest.
    LeftmostLongest,
}

impl Default for MatchKind {
    fn default() -> MatchKind {
        MatchKind::LeftmostFirst
    }
}

impl From<MatchKind> for crate::MatchKind {
    fn from(kind: MatchKind) -> crate::MatchKind {
        match kind {
            MatchKind::LeftmostFirst => crate::MatchKind::LeftmostFirst,
            MatchKind::LeftmostLongest => crate::MatchKind::LeftmostLongest,
        }
    }
}

/// The configuration of a searcher.
#[derive(Clone, Debug)]
pub struct Config {
    kind: MatchKind,
    is_limited: bool,
}

impl Default for Config {
    fn default() -> Config {
        Config::new()
    }
}

impl Config {
    /// Returns the default configuration: leftmost-first, and at most 128 patterns.
    pub fn new() -> Config {
        Config { kind: MatchKind::default(), is_limited: true }
    }

    /// Returns a builder with this configuration.
    pub fn builder(&self) -> Builder {
        Builder { config: self.clone(), patterns: Vec::new(), is_refused: false }
    }

    /// Sets which of several possible matches is found.
    pub fn match_kind(&mut self, kind: MatchKind) -> &mut Config {
        self.kind = kind;
        self
    }

    /// Sets whether more than 128 patterns are refused.
    pub fn heuristic_pattern_limits(&mut self, yes: bool) -> &mut Config {
        self.is_limited = yes;
        self
    }
}

/// Collects patterns, and builds a searcher.
#[derive(Clone, Debug)]
pub struct Builder {
    config: Config,
    patterns: Vec<Vec<u8>>,
    /// Whether a pattern was empty or one too many. Nothing is built then.
    is_refused: bool,
}

impl Default for Builder {
    fn default() -> Builder {
        Builder::new()
    }
}

impl Builder {
    /// Returns a builder with the default configuration: leftmost-first, and at most 128 patterns.
    pub fn new() -> Builder {
        Config::new().builder()
    }

    /// Adds a pattern. After an empty pattern, or one too many, `build` returns `None`.
    pub fn add<P: AsRef<[u8]>>(&mut self, pattern: P) -> &mut Builder {
        let pattern = pattern.as_ref();
        if pattern.is_empty() || self.config.is_limited && self.patterns.len() >= MOST {
            self.is_refused = true;
            self.patterns.clear();
        }
        if !self.is_refused {
            self.patterns.push(pattern.to_vec());
        }
        self
    }

    /// Adds patterns in their order.
    pub fn extend<I, P>(&mut self, patterns: I) -> &mut Builder
    where
        I: IntoIterator<Item = P>,
        P: AsRef<[u8]>,
    {
        for pattern in patterns {
            self.add(pattern);
        }
        self
    }

    /// Returns the number of patterns that were added.
    pub fn len(&self) -> usize {
        self.patterns.len()
    }

    /// Returns the length of the shortest pattern in bytes, or `usize::MAX` without patterns.
    pub fn minimum_len(&self) -> usize {
        self.patterns.iter().map(Vec::len).min().unwrap_or(usize::MAX)
    }

    /// Builds a searcher. Returns `None` if there are no patterns or too many, or if one is empty.
    pub fn build(&self) -> Option<Searcher> {
        if self.is_refused || self.patterns.is_empty() {
            return None;
        }
        let mut builder = AhoCorasick::builder();
        let searcher = builder.match_kind(self.config.kind.into()).build(&self.patterns).ok()?;
        Some(Searcher { searcher, kind: self.config.kind })
    }
}

/// A searcher for a few patterns.
#[derive(Clone, Debug)]
pub struct Searcher {
    searcher: AhoCorasick,
    kind: MatchKind,
}

impl Searcher {
    /// Builds a leftmost-first searcher. Returns `None` as `Builder::build` does.
    pub fn new<I, P>(patterns: I) -> Option<Searcher>
    where
        I: IntoIterator<Item = P>,
        P: AsRef<[u8]>,
    {
        Builder::new().extend(patterns).build()
    }

    /// Returns the default configuration.
    pub fn config() -> Config {
        Config::new()
    }

    /// Returns a builder with the default configuration.
    pub fn builder() -> Builder {
        Builder::new()
    }

    /// Returns the first match.
    pub fn find<B: AsRef<[u8]>>(&self, haystack: B) -> Option<Match> {
        self.searcher.find(haystack.as_ref())
    }

    /// Returns the first match in a span. Panics if the haystack has no such span, or the span
    /// starts after its end.
    pub fn find_in<B: AsRef<[u8]>>(&self, haystack: B, span: Span) -> Option<Match> {
        assert!(span.start <= span.end, "the span {span:?} ends before its start");
        self.searcher.find(Input::new(haystack.as_ref()).span(span))
    }

    /// Returns an iterator over the matches. Each search begins where the previous match ended.
    pub fn find_iter<'a, 'b, B: ?Sized + AsRef<[u8]>>(&'a self, haystack: &'b B) -> FindIter<'a, 'b> {
        FindIter(self.searcher.find_iter(haystack.as_ref()))
    }

    /// Which of several possible matches is found.
    pub fn match_kind(&self) -> &MatchKind {
        &self.kind
    }

    /// Returns the length of the shortest haystack for which this searcher is the best choice, in
    /// bytes. It is 0.
    pub fn minimum_len(&self) -> usize {
        0
    }

    /// Returns the memory of the searcher in bytes.
    pub fn memory_usage(&self) -> usize {
        self.searcher.memory_usage()
    }
}

/// An iterator over matches. Each match is searched for by the call that returns it.
#[derive(Debug)]
pub struct FindIter<'s, 'h>(searcher::FindIter<'s, 'h>);

impl Iterator for FindIter<'_, '_> {
    type Item = Match;

    fn next(&mut self) -> Option<Match> {
        self.0.next()
    }
}
