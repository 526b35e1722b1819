//! Calls as programs for the Rust crate make them.
use chromesquid::{
    automaton::{self, Automaton, OverlappingState, StateID},
    dfa::DFA,
    nfa::{contiguous, noncontiguous},
    packed, AhoCorasick, AhoCorasickBuilder, AhoCorasickKind, Anchored, BuildError, FindIter, FindOverlappingIter, Input, Match,
    MatchError, MatchErrorKind, MatchKind, PatternID, Span, StartKind, StreamFindIter,
};

/// A match on `Anchored` has an arm for what may come, under `deny(warnings)` too.
#[deny(warnings)]
pub fn is_anchored(mode: Anchored) -> bool {
    match mode {
        Anchored::No => false,
        Anchored::Yes => true,
        _ => unreachable!(),
    }
}

/// A set of globs keeps, for each literal, the places of the globs that it belongs to.
struct LiteralSet {
    searcher: AhoCorasick,
    globs: Vec<usize>,
    longest: usize,
}

impl LiteralSet {
    fn new(literals: &[(&str, usize)]) -> Self {
        let searcher = AhoCorasick::builder()
            .start_kind(StartKind::Both)
            .kind(Some(AhoCorasickKind::ContiguousNFA))
            .build(literals.iter().map(|it| it.0))
            .unwrap();
        let longest = searcher.max_pattern_len();
        LiteralSet { searcher, globs: literals.iter().map(|it| it.1).collect(), longest }
    }

    fn matches_into(&self, path: &[u8], matches: &mut Vec<usize>) {
        for m in self.searcher.find_overlapping_iter(&path[..path.len().min(self.longest)]) {
            if m.start() == 0 {
                matches.push(self.globs[m.pattern()]);
            }
        }
    }
}

#[test]
fn slices_by_numbers_of_patterns() {
    let set = LiteralSet::new(&[("src/", 4), ("src", 7), ("lib", 2)]);
    let mut matches = vec![];
    set.matches_into(b"src/lib.rs", &mut matches);
    assert_eq!(matches, [7, 4]);
    let mut counts = vec![0; 3];
    let searcher = AhoCorasick::new(["a", "b", "c"]).unwrap();
    for m in searcher.find_iter("abacab") {
        counts[m.pattern()] += 1;
    }
    assert_eq!(counts, [3, 2, 1]);
    let names: &[&str] = &["one", "two", "three"];
    assert_eq!(searcher.find("c").map(|m| names[m.pattern()]), Some("three"));
}

/// A regex engine asks a prefilter for the next span in which a literal stands.
trait Prefilter {
    fn find(&self, haystack: &[u8], span: Span) -> Option<Span>;
    fn prefix(&self, haystack: &[u8], span: Span) -> Option<Span>;
    fn memory_usage(&self) -> usize;
}

struct ByAutomaton(AhoCorasick);

impl Prefilter for ByAutomaton {
    fn find(&self, haystack: &[u8], span: Span) -> Option<Span> {
        let input = Input::new(haystack).span(span.start..span.end);
        self.0.find(input).map(|m| Span { start: m.start(), end: m.end() })
    }

    fn prefix(&self, haystack: &[u8], span: Span) -> Option<Span> {
        let input = Input::new(haystack).anchored(Anchored::Yes).span(span.start..span.end);
        self.0.find(input).map(|m| Span { start: m.start(), end: m.end() })
    }

    fn memory_usage(&self) -> usize {
        self.0.memory_usage()
    }
}

struct ByPacked {
    searcher: packed::Searcher,
    anchored: AhoCorasick,
    minimum_len: usize,
}

impl Prefilter for ByPacked {
    fn find(&self, haystack: &[u8], span: Span) -> Option<Span> {
        let ac_span = Span { start: span.start, end: span.end };
        self.searcher.find_in(haystack, ac_span).map(|m| Span { start: m.start(), end: m.end() })
    }

    fn prefix(&self, haystack: &[u8], span: Span) -> Option<Span> {
        let input = Input::new(haystack).anchored(Anchored::Yes).span(span.start..span.end);
        self.anchored.find(input).map(|m| Span { start: m.start(), end: m.end() })
    }

    fn memory_usage(&self) -> usize {
        self.searcher.memory_usage() + self.anchored.memory_usage() + self.minimum_len
    }
}

#[test]
fn prefilters_of_a_regex_engine() {
    let needles = ["foobar", "foo", "quux"];
    let automaton = AhoCorasick::builder()
        .match_kind(MatchKind::LeftmostFirst)
        .start_kind(StartKind::Both)
        .kind(if needles.len() <= 500 { Some(AhoCorasickKind::DFA) } else { None })
        .prefilter(false)
        .build(needles)
        .unwrap();
    let searcher = packed::Config::new().match_kind(packed::MatchKind::LeftmostFirst).builder().extend(needles).build().unwrap();
    let anchored = AhoCorasick::builder()
        .match_kind(MatchKind::LeftmostFirst)
        .start_kind(StartKind::Anchored)
        .kind(Some(AhoCorasickKind::DFA))
        .prefilter(false)
        .build(needles)
        .unwrap();
    let minimum_len = searcher.minimum_len();
    let both: [Box<dyn Prefilter>; 2] = [Box::new(ByAutomaton(automaton)), Box::new(ByPacked { searcher, anchored, minimum_len })];
    for prefilter in both {
        let text = b"a foobar, a quux, a foo";
        assert_eq!(prefilter.find(text, Span { start: 0, end: text.len() }), Some(Span { start: 2, end: 8 }));
        assert_eq!(prefilter.find(text, Span { start: 3, end: text.len() }), Some(Span { start: 12, end: 16 }));
        assert_eq!(prefilter.find(text, Span { start: 17, end: 22 }), None);
        assert_eq!(prefilter.prefix(text, Span { start: 2, end: text.len() }), Some(Span { start: 2, end: 8 }));
        assert_eq!(prefilter.prefix(text, Span { start: 1, end: text.len() }), None);
        assert!(prefilter.memory_usage() > 0);
    }
}

/// A tokenizer cuts its input at special tokens, the longest first.
#[test]
fn a_tokenizer() {
    let tokens = ["<s>", "</s>", "<mask>", "<mask>s"];
    let ids = vec![10_u32, 11, 12, 13];
    let trie = AhoCorasickBuilder::new().match_kind(MatchKind::LeftmostLongest).build(tokens.iter().map(|it| it.as_bytes())).unwrap();
    let sentence = "<s>a <mask>s b</s>";
    let mut splits = vec![];
    let mut offset = 0;
    for mat in trie.find_iter(sentence) {
        if offset < mat.start() {
            splits.push((None, &sentence[offset..mat.start()]));
        }
        splits.push((Some(ids[mat.pattern()]), &sentence[mat.span()]));
        offset = mat.end();
    }
    assert_eq!(splits, [(Some(10), "<s>"), (None, "a "), (Some(13), "<mask>s"), (None, " b"), (Some(11), "</s>")]);
}

/// Editors and linters ask whether there is a keyword at all, in any case, and where.
#[test]
fn keywords_of_a_linter() {
    let markers = AhoCorasick::builder().ascii_case_insensitive(true).build(["todo", "fixme", "xxx"]).unwrap();
    assert!(markers.is_match("# ToDo: later") && !markers.is_match("# done"));
    let ranges: Vec<std::ops::Range<usize>> = markers.find_iter("XXX fixme").map(|m| m.range()).collect();
    assert_eq!(ranges, [0..3, 4..9]);
    let escaped = AhoCorasick::new(["&", "<", ">"]).unwrap().replace_all("a<b & c>d", &["&amp;", "&lt;", "&gt;"]);
    assert_eq!(escaped, "a&lt;b &amp; c&gt;d");
    let input = Input::from("xx todo").range(..4);
    assert_eq!(markers.try_find(input), Ok(None));
}

#[test]
fn spans() {
    let (span, text) = (Span::from(1..3), "abcd");
    let mut bytes = *b"abcd";
    bytes[span][0] = b'X';
    assert_eq!((&bytes[span], &text[span]), (&b"Xc"[..], "bc"));
    assert!(span == (1..3) && (1..3) == span && span != (1..2));
    assert_eq!(format!("{span:?} {:?}", Match::must(0, span)), "1..3 Match { pattern: PatternID(0), span: 1..3 }");
}

#[test]
fn numbers() {
    assert_eq!((PatternID::ZERO.as_usize(), PatternID::MAX.as_u32(), PatternID::LIMIT, PatternID::SIZE), (0, 2147483646, 2147483647, 4));
    assert_eq!(PatternID::try_from(7_u16).unwrap(), PatternID::new_unchecked(7));
    const SEVEN: (PatternID, StateID) = (PatternID::from_u32_unchecked(7), StateID::from_u32_unchecked(7));
    assert_eq!(SEVEN, (PatternID::must(7), StateID::must(7)));
    assert_eq!(PatternID::try_from(7_u32).unwrap().one_more(), 8);
    assert_eq!(PatternID::from(7_u8).as_i32(), 7);
    let above = PatternID::try_from(2147483647_u64).unwrap_err();
    assert_eq!(above.attempted(), 2147483647);
    assert_eq!(above.to_string(), "failed to create PatternID from 2147483647, which exceeds PatternID(2147483646)");
    assert_eq!(StateID::from_ne_bytes(StateID::must(9).to_ne_bytes()), Ok(StateID::must(9)));
    assert!(PatternID::from_ne_bytes([255; 4]).is_err());
    assert!(std::panic::catch_unwind(|| PatternID::must(usize::MAX)).is_err());
}

#[test]
fn errors() {
    for (error, kind, text) in [
        (MatchError::invalid_input_anchored(), MatchErrorKind::InvalidInputAnchored, "anchored searches are not supported or enabled"),
        (
            MatchError::invalid_input_unanchored(),
            MatchErrorKind::InvalidInputUnanchored,
            "unanchored searches are not supported or enabled",
        ),
        (
            MatchError::unsupported_stream(MatchKind::LeftmostLongest),
            MatchErrorKind::UnsupportedStream { got: MatchKind::LeftmostLongest },
            "match kind LeftmostLongest does not support stream searching",
        ),
        (
            MatchError::unsupported_overlapping(MatchKind::LeftmostFirst),
            MatchErrorKind::UnsupportedOverlapping { got: MatchKind::LeftmostFirst },
            "match kind LeftmostFirst does not support overlapping searches",
        ),
        (
            MatchError::unsupported_empty(),
            MatchErrorKind::UnsupportedEmpty,
            "matching with an empty pattern string is not supported for this operation",
        ),
    ] {
        assert_eq!((error.kind(), error.to_string().as_str()), (&kind, text));
        assert_eq!(error, MatchError::new(kind));
    }
}

#[test]
fn hints() {
    for kind in [None, Some(AhoCorasickKind::NoncontiguousNFA), Some(AhoCorasickKind::ContiguousNFA), Some(AhoCorasickKind::DFA)] {
        for start in [StartKind::Unanchored, StartKind::Both] {
            let searcher = AhoCorasick::builder().kind(kind).start_kind(start).dense_depth(3).byte_classes(false).build(["ab"]).unwrap();
            assert_eq!(searcher.find("xab"), Some(Match::must(0, 1..3)));
            assert!(kind.is_none() || kind == Some(searcher.kind()));
        }
    }
}

#[test]
fn a_few_patterns() {
    assert!(packed::Searcher::new(["a", ""]).is_none() && packed::Searcher::new(Vec::<&str>::new()).is_none());
    let many: Vec<_> = (0..129).map(|it| format!("p{it}")).collect();
    assert!(packed::Searcher::new(&many).is_none());
    assert!(packed::Config::new().heuristic_pattern_limits(false).builder().extend(&many).build().is_some());
    let searcher = packed::Searcher::new(["ab", "abc"]).unwrap();
    assert_eq!(searcher.find_in("xabc", Span { start: 2, end: 4 }), None);
    assert_eq!(searcher.find_in("xabc", Span { start: 4, end: 4 }), None);
    for span in [Span { start: 3, end: 2 }, Span { start: 3, end: 5 }] {
        assert!(std::panic::catch_unwind(|| searcher.find_in("xabc", span)).is_err(), "{span:?}");
    }
    assert_eq!((searcher.match_kind(), packed::Builder::new().add("ab").add("c").minimum_len()), (&packed::MatchKind::LeftmostFirst, 1));
}

#[test]
fn the_state_of_an_overlapping_search() {
    let searcher = AhoCorasick::new(["append", "appendage", "app"]).unwrap();
    let mut state = OverlappingState::start();
    let mut found = vec![];
    loop {
        searcher.find_overlapping("append the app to the appendage", &mut state);
        match state.get_match() {
            Some(it) => found.push(it),
            None => break,
        }
    }
    assert_eq!(found.len(), 6);
    assert_eq!(found[5], Match::must(1, 22..31));
    let leftmost = AhoCorasick::builder().match_kind(MatchKind::LeftmostFirst).build(["a"]).unwrap();
    assert!(leftmost.try_find_overlapping("a", &mut OverlappingState::start()).is_err());
}

/// An editor searches the pieces of a text as they are read, in any case if that is wished, and stops at a first match or after many.
struct SearchQuery {
    search: std::sync::Arc<AhoCorasick>,
    query: std::sync::Arc<str>,
}

impl SearchQuery {
    fn new(query: &str, case_sensitive: bool) -> Result<Self, Box<dyn std::error::Error + Send + Sync>> {
        let search = AhoCorasickBuilder::new().ascii_case_insensitive(!case_sensitive).build([&query])?;
        Ok(SearchQuery { search: std::sync::Arc::new(search), query: query.into() })
    }

    fn detect<T: std::io::Read>(&self, stream: T) -> std::io::Result<bool> {
        match self.search.stream_find_iter(stream).next() {
            Some(Ok(_)) => Ok(true),
            Some(Err(error)) => Err(error),
            None => Ok(false),
        }
    }

    fn search<T: std::io::Read>(&self, stream: T) -> Vec<std::ops::Range<usize>> {
        let mut matches = Vec::new();
        for (ix, mat) in self.search.stream_find_iter(stream).enumerate() {
            assert!(ix < 100 && !self.query.is_empty());
            let mat = mat.unwrap();
            matches.push(mat.start()..mat.end());
        }
        matches
    }
}

#[test]
fn a_search_of_an_editor() {
    use std::io::Read;
    let rope = || b"fn main() {"[..].chain(&b"} // FN m"[..]).chain(&b"ain"[..]);
    let query = SearchQuery::new("fn main", false).unwrap();
    assert!(query.detect(rope()).unwrap() && !query.detect(&b"nothing"[..]).unwrap());
    assert_eq!(query.search(rope()), [0..7, 16..23]);
    assert_eq!(SearchQuery::new("fn main", true).unwrap().search(rope()), std::iter::once(0..7).collect::<Vec<_>>());
}

/// A checker of links looks for what a link begins with.
#[test]
fn schemes_of_a_link_checker() {
    const SCHEMES: &[&str] = &["https://", "http://", "mailto:"];
    fn starts<'t>(searcher: &'t AhoCorasick, text: &'t str) -> impl Iterator<Item = &'t str> + 't {
        searcher.find_iter(text).map(move |mat| &text[mat.start()..]).map(|it| it.split_whitespace().next().unwrap_or(it))
    }
    let searcher = AhoCorasickBuilder::new().match_kind(MatchKind::LeftmostLongest).ascii_case_insensitive(true).build(SCHEMES).unwrap();
    assert_eq!(starts(&searcher, "see HTTP://a.example or mailto:b@c").collect::<Vec<_>>(), ["HTTP://a.example", "mailto:b@c"]);
    assert!(!searcher.is_match("ftp://a.example"));
}

/// A maker of books escapes text, and takes placeholders out of templates by calls that may stop.
#[test]
fn texts_of_a_book() {
    let escapes: [(&str, &str); 3] = [("&", "&amp;"), ("<", "&lt;"), ("\"", "&quot;")];
    let (special, escaped): (Vec<_>, Vec<_>) = escapes.into_iter().unzip();
    let searcher = AhoCorasick::new(special).expect("patterns that are few");
    assert_eq!(searcher.replace_all("<a href=\"b&c\">", &escaped), "&lt;a href=&quot;b&amp;c&quot;>");
    let mut result = String::new();
    let titles = AhoCorasick::builder().match_kind(MatchKind::LeftmostFirst).build(["{{#title}}", "{{"]).unwrap();
    titles.replace_all_with("{{#title}} of {{it}} {{", &mut result, |mat, _, dst| {
        dst.push_str(if mat.pattern().as_usize() == 0 { "Home" } else { "{ {" });
        mat.start() < 10
    });
    assert_eq!(result, "Home of { {it}} {{");
}

/// A searcher and a text of a function's own, whose iterator stands in its last expression: it goes after them.
#[test]
fn iterators_in_a_last_expression() {
    fn ends(patterns: &[&str], text: &str) -> Option<usize> {
        let (searcher, text) = (AhoCorasick::new(patterns).unwrap(), text.to_lowercase());
        searcher.find_iter(&text).last().or_else(|| searcher.find_iter(&text).next()).map(|found| found.end())
    }
    fn overlap(patterns: &[&str], text: &str) -> bool {
        let (searcher, text) = (AhoCorasick::new(patterns).unwrap(), text.to_lowercase());
        searcher.find_overlapping_iter(&text).any(|found| found.start() > 0)
    }
    fn walks(patterns: &[&str], text: &str) -> bool {
        let (automaton, text) = (contiguous::NFA::new(patterns).unwrap(), text.to_lowercase());
        automaton.try_find_iter(Input::new(&text)).unwrap().any(|found| found.start() > 0)
    }
    fn few(patterns: &[&str], text: &str) -> bool {
        let (searcher, text) = (packed::Searcher::new(patterns).unwrap(), text.to_lowercase());
        searcher.find_iter(&text).any(|found| found.start() > 0)
    }
    fn streamed(patterns: &[&str], text: &str) -> bool {
        let (searcher, text) = (AhoCorasick::new(patterns).unwrap(), text.to_lowercase());
        searcher.stream_find_iter(text.as_bytes()).any(|found| found.unwrap().start() > 0)
    }
    assert_eq!(ends(&["sam"], "A SAM"), Some(5));
    for call in [overlap, walks, few, streamed] {
        assert!(call(&["sam"], "A SAM"));
    }
}

/// What may go to another thread, be shared by several, and stand in a closure whose panic is caught.
#[test]
fn bounds() {
    fn has<T: Send + Sync + std::panic::UnwindSafe + std::panic::RefUnwindSafe + Unpin>() {}
    type Text = &'static [u8];
    has::<(AhoCorasick, AhoCorasickBuilder, BuildError, MatchError, Match, Input<'static>)>();
    has::<(FindIter<'static, 'static>, FindOverlappingIter<'static, 'static>, StreamFindIter<'static, Text>)>();
    has::<(noncontiguous::NFA, contiguous::NFA, DFA, OverlappingState, automaton::StateID)>();
    has::<(automaton::FindIter<'static, 'static, DFA>, automaton::StreamFindIter<'static, DFA, Text>)>();
    has::<(packed::Searcher, packed::FindIter<'static, 'static>, packed::Builder)>();
    let searcher = AhoCorasick::new(["sam"]).unwrap();
    let matches = std::sync::Mutex::new(searcher.find_iter("sam, sam, sam"));
    let shared = &searcher.find_iter("sam");
    std::thread::scope(|threads| {
        for _ in 0..2 {
            threads.spawn(|| matches.lock().unwrap().next());
        }
        threads.spawn(|| assert!(format!("{shared:?}").contains("FindIter")));
    });
    assert_eq!(matches.into_inner().unwrap().map(|found| found.start()).collect::<Vec<_>>(), [10]);
}
