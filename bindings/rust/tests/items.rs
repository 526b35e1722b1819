//! An example of each public item that the documentation of the Rust crate has one of, with other patterns and texts.
use chromesquid::{
    automaton::{Automaton, OverlappingState},
    dfa::DFA,
    nfa::{contiguous, noncontiguous},
    packed, AhoCorasick, AhoCorasickBuilder, AhoCorasickKind, Anchored, Input, Match, MatchError, MatchErrorKind, MatchKind, PatternID,
    Span, StartKind,
};
use std::panic::{catch_unwind, AssertUnwindSafe};

const NAMES: [&str; 3] = ["sam", "samwise", "gamgee"];

fn built(kind: MatchKind) -> AhoCorasick {
    AhoCorasick::builder().match_kind(kind).build(NAMES).unwrap()
}

fn numbers(found: impl Iterator<Item = Match>) -> Vec<usize> {
    found.map(|it| it.pattern().as_usize()).collect()
}

#[test]
fn searches() {
    let standard = AhoCorasick::new(NAMES).unwrap();
    assert!(standard.is_match("a gamgee") && !standard.is_match("a baggins"));
    assert_eq!(standard.find("by samwise").map(|m| &"by samwise"[m.start()..m.end()]), Some("sam"));
    assert_eq!(built(MatchKind::LeftmostFirst).find("by samwise"), Some(Match::must(0, 3..6)));
    assert_eq!(built(MatchKind::LeftmostLongest).find("by samwise"), Some(Match::must(1, 3..10)));
    // What a search of a span finds has its place in the whole haystack.
    assert_eq!(standard.find(Input::new("sam, sam").span(1..8)), Some(Match::must(0, 5..8)));
    assert_eq!(standard.find(&"sam, sam"[1..8]), Some(Match::must(0, 4..7)));
    // An anchored search, for a searcher of both.
    let both = AhoCorasick::builder().start_kind(StartKind::Both).build(NAMES).unwrap();
    assert_eq!(both.find(Input::new("a sam").anchored(Anchored::Yes)), None);
    assert_eq!(both.find(Input::new("a sam").range(2..).anchored(Anchored::Yes)), Some(Match::must(0, 2..5)));
    assert_eq!(both.try_find(Input::new("a sam").range(2..)), Ok(Some(Match::must(0, 2..5))));
    assert_eq!(standard.try_find(Input::new("sam").anchored(Anchored::Yes)), Err(MatchError::invalid_input_anchored()));
    // What ends first, also by a leftmost kind.
    let longest = built(MatchKind::LeftmostLongest);
    assert_eq!(longest.find(Input::new("samwise").earliest(true)), Some(Match::must(0, 0..3)));
}

#[test]
fn iterators() {
    let text = "samwise gamgee, or sam";
    assert_eq!(numbers(AhoCorasick::new(NAMES).unwrap().find_iter(text)), [0, 2, 0]);
    assert_eq!(numbers(built(MatchKind::LeftmostFirst).find_iter(text)), [0, 2, 0]);
    assert_eq!(numbers(built(MatchKind::LeftmostLongest).find_iter(text)), [1, 2, 0]);
    assert_eq!(numbers(AhoCorasick::new(NAMES).unwrap().find_overlapping_iter(text)), [0, 1, 2, 0]);
    assert_eq!(numbers(AhoCorasick::new(NAMES).unwrap().try_find_iter(Input::new(text).range(1..)).unwrap()), [2, 0]);
    assert_eq!(numbers(AhoCorasick::new(NAMES).unwrap().try_find_overlapping_iter(text).unwrap()).len(), 4);
    assert!(built(MatchKind::LeftmostFirst).try_find_overlapping_iter(text).is_err());
    let both = AhoCorasick::builder().start_kind(StartKind::Both).build(NAMES).unwrap();
    let anchored = Input::new("samsamwise sam").anchored(Anchored::Yes);
    assert_eq!(both.find_iter(anchored).map(|m| m.range()).collect::<Vec<_>>(), [0..3, 3..6]);
    // An empty pattern matches at each place, and never where a match has just ended.
    let empty = AhoCorasick::new(["", "b"]).unwrap();
    assert_eq!(empty.find_iter("ab").map(|m| m.range()).collect::<Vec<_>>(), [0..0, 1..1, 2..2]);
}

#[test]
fn overlapping_by_a_state() {
    let searcher = AhoCorasick::new(NAMES).unwrap();
    let (mut state, mut found) = (OverlappingState::start(), vec![]);
    assert_eq!(state.get_match(), None);
    loop {
        searcher.find_overlapping("samwise", &mut state);
        let it = match state.get_match() {
            Some(it) => it,
            None => break,
        };
        found.push((it.pattern().as_usize(), it.range()));
    }
    assert_eq!(found, [(0, 0..3), (1, 0..7)]);
    assert_eq!(searcher.try_find_overlapping("x", &mut OverlappingState::start()), Ok(()));
}

#[test]
fn replacements() {
    let searcher = built(MatchKind::LeftmostLongest);
    assert_eq!(searcher.replace_all("samwise, sam", &["S", "W", "G"]), "W, S");
    assert_eq!(searcher.replace_all_bytes(b"samwise, \xFF", &[&b"S"[..], b"\xFE", b""]), b"\xFE, \xFF");
    assert_eq!(searcher.try_replace_all("sam", &["S", "W", "G"]).as_deref(), Ok("S"));
    assert_eq!(searcher.try_replace_all_bytes(b"gamgee", &["S", "W", ""]).as_deref(), Ok(&b""[..]));
    let mut text = String::from("> ");
    searcher.replace_all_with("sam samwise gamgee", &mut text, |found, name, dst| {
        dst.push_str(&format!("{}:{name}", found.pattern().as_usize()));
        found.pattern() != PatternID::must(1) // nothing behind this one is replaced
    });
    assert_eq!(text, "> 0:sam 1:samwise gamgee");
    let mut bytes = vec![];
    searcher.replace_all_with_bytes(b"sam\xFF", &mut bytes, |_, name, dst| dst.extend(name.iter().rev()) == ());
    assert_eq!(bytes, b"mas\xFF");
    assert_eq!(searcher.try_replace_all_with("sam", &mut text, |_, _, _| true), Ok(()));
    assert_eq!(searcher.try_replace_all_with_bytes(b"sam", &mut bytes, |_, _, _| true), Ok(()));
    assert!(catch_unwind(|| searcher.replace_all("sam", &["only one"])).is_err());
}

#[test]
fn streams() {
    let searcher = AhoCorasick::new(NAMES).unwrap();
    let found: Result<Vec<Match>, std::io::Error> = searcher.stream_find_iter(&b"samwise gamgee"[..]).collect();
    assert_eq!(found.unwrap(), [Match::must(0, 0..3), Match::must(2, 8..14)]);
    assert_eq!(searcher.try_stream_find_iter(&b"x"[..]).unwrap().count(), 0);
    let mut written = vec![];
    searcher.try_stream_replace_all(&b"sam, gamgee"[..], &mut written, &["S", "W", "G"]).unwrap();
    assert_eq!(written, b"S, G");
    let mut numbered = vec![];
    let by_number = |found: &Match, name: &[u8], to: &mut &mut Vec<u8>| {
        to.extend(format!("{}{}", found.pattern().as_usize(), name.len()).bytes());
        Ok(())
    };
    searcher.try_stream_replace_all_with(&b"sam, gamgee"[..], &mut numbered, by_number).unwrap();
    assert_eq!(numbered, b"03, 26");
    let leftmost = built(MatchKind::LeftmostFirst).try_stream_find_iter(&b"x"[..]).map(|_| ()).unwrap_err();
    assert_eq!(leftmost, MatchError::unsupported_stream(MatchKind::LeftmostFirst));
}

#[test]
fn what_a_searcher_tells() {
    let searcher = AhoCorasickBuilder::new()
        .match_kind(MatchKind::LeftmostFirst)
        .start_kind(StartKind::Both)
        .kind(Some(AhoCorasickKind::NoncontiguousNFA))
        .prefilter(false)
        .dense_depth(1)
        .byte_classes(true)
        .build(NAMES)
        .unwrap();
    assert_eq!((searcher.kind(), searcher.match_kind()), (AhoCorasickKind::NoncontiguousNFA, MatchKind::LeftmostFirst));
    assert_eq!((searcher.start_kind(), searcher.patterns_len()), (StartKind::Both, 3));
    assert_eq!((searcher.min_pattern_len(), searcher.max_pattern_len()), (3, 7));
    assert!(searcher.memory_usage() > 0);
    let folded = AhoCorasick::builder().ascii_case_insensitive(true).build(["Sam", "É"]).unwrap();
    assert_eq!(folded.find_iter("sAM é É").map(|m| m.start()).collect::<Vec<_>>(), [0, 7]);
    assert_eq!((MatchKind::default(), StartKind::default()), (MatchKind::Standard, StartKind::Unanchored));
    assert!(Anchored::Yes.is_anchored() && !Anchored::No.is_anchored());
}

#[test]
fn inputs() {
    let input = Input::new("a samwise").range(2..=4).anchored(Anchored::Yes).earliest(true);
    assert_eq!((input.haystack(), input.start(), input.end()), (&b"a samwise"[..], 2, 5));
    assert_eq!((input.get_span(), input.get_range()), (Span { start: 2, end: 5 }, 2..5));
    assert_eq!((input.get_anchored(), input.get_earliest(), input.is_done()), (Anchored::Yes, true, false));
    let mut input = Input::from("a samwise");
    input.set_start(4);
    input.set_end(6);
    assert_eq!(input.get_range(), 4..6);
    input.set_span(1..2);
    input.set_range(..7);
    input.set_anchored(Anchored::Yes);
    input.set_earliest(true);
    assert_eq!((input.get_range(), input.get_anchored(), input.get_earliest()), (0..7, Anchored::Yes, true));
    for (haystack, told) in [(&b"s\xc3\xa9m"[..], "\"s\u{e9}m\""), (&b"\xe9m"[..], "[233, 109]")] {
        let wanted = format!("Input {{ haystack: {told}, span: 0..{}, anchored: No, earliest: false }}", haystack.len());
        assert_eq!(format!("{:?}", Input::new(haystack)), wanted);
    }
    // A search is done where the span starts above its end: by one at most.
    input.set_span(Span { start: 6, end: 5 });
    assert!(input.is_done());
    for span in [Span { start: 7, end: 5 }, Span { start: 0, end: 10 }] {
        assert!(catch_unwind(AssertUnwindSafe(|| Input::new("a samwise").span(span).is_done())).is_err(), "{span:?}");
    }
}

#[test]
fn matches_and_spans() {
    let found = Match::new(PatternID::must(1), 2..9);
    assert_eq!((found, found.pattern(), found.start(), found.end()), (Match::must(1, 2..9), PatternID::must(1), 2, 9));
    assert_eq!((found.range(), found.span(), found.len(), found.is_empty()), (2..9, Span::from(2..9), 7, false));
    assert_eq!((found.offset(3), Match::must(0, 4..4).is_empty()), (Match::must(1, 5..12), true));
    let span = found.span();
    assert_eq!((span.range(), span.len(), span.is_empty(), span.offset(1)), (2..9, 7, false, Span { start: 3, end: 10 }));
    assert!(span.contains(2) && span.contains(8) && !span.contains(9));
    assert_eq!((&"a samwise"[span], &b"a samwise"[span]), ("samwise", &b"samwise"[..]));
    assert_eq!(std::ops::Range::<usize>::from(span), 2..9);
}

#[test]
fn errors() {
    let error = AhoCorasick::new(NAMES).unwrap().try_find(Input::new("sam").anchored(Anchored::Yes)).unwrap_err();
    assert!(matches!(error.kind(), MatchErrorKind::InvalidInputAnchored));
    assert_eq!(error, MatchError::new(MatchErrorKind::InvalidInputAnchored));
    let told: Box<dyn std::error::Error + Send + Sync> = error.into();
    assert_eq!(told.to_string(), "anchored searches are not supported or enabled");
    let overlapping = built(MatchKind::LeftmostLongest).try_find_overlapping("sam", &mut OverlappingState::start()).unwrap_err();
    assert_eq!(overlapping.kind(), &MatchErrorKind::UnsupportedOverlapping { got: MatchKind::LeftmostLongest });
    let empty = AhoCorasick::new([""]).unwrap().try_stream_find_iter(&b""[..]).map(|_| ()).unwrap_err();
    assert_eq!(empty, MatchError::unsupported_empty());
}

#[test]
fn automata() {
    let text = "samwise gamgee";
    let first = noncontiguous::NFA::builder().match_kind(MatchKind::LeftmostFirst).build(NAMES).unwrap();
    assert_eq!(first.try_find(&Input::new(text)), Ok(Some(Match::must(0, 0..3))));
    assert_eq!(noncontiguous::NFA::new(NAMES).unwrap().try_find(&Input::new("gamgee")).unwrap().map(|m| m.len()), Some(6));
    let second = contiguous::Builder::new().build_from_noncontiguous(&first).unwrap();
    assert_eq!(second.try_find_iter(Input::new(text)).unwrap().count(), 2);
    assert_eq!(
        contiguous::NFA::builder()
            .ascii_case_insensitive(true)
            .build(NAMES)
            .unwrap()
            .try_find(&Input::new("SAM"))
            .unwrap()
            .map(|m| m.end()),
        Some(3)
    );
    let third = DFA::builder().start_kind(StartKind::Both).match_kind(MatchKind::LeftmostLongest).build(NAMES).unwrap();
    assert_eq!(third.try_find(&Input::new(text).anchored(Anchored::Yes)), Ok(Some(Match::must(1, 0..7))));
    assert_eq!(DFA::new(NAMES).unwrap().try_replace_all(text, &["S", "W", "G"]).as_deref(), Ok("Swise G"));
    assert_eq!(DFA::new(NAMES).unwrap().try_find_overlapping_iter(Input::new(text)).unwrap().count(), 3);
}

#[test]
fn packed_searchers() {
    let searcher = packed::Searcher::new(NAMES).unwrap();
    assert_eq!(searcher.find("a samwise"), Some(Match::must(0, 2..5)));
    assert_eq!(searcher.find_in("a samwise, sam", Span { start: 3, end: 14 }), Some(Match::must(0, 11..14)));
    assert_eq!(numbers(searcher.find_iter("gamgee, samwise")), [2, 0]);
    let longest = packed::Config::new().match_kind(packed::MatchKind::LeftmostLongest).builder().extend(NAMES).build().unwrap();
    assert_eq!((longest.match_kind(), longest.find("samwise")), (&packed::MatchKind::LeftmostLongest, Some(Match::must(1, 0..7))));
    assert!(longest.minimum_len() <= 64 && longest.memory_usage() > 0);
    let built = packed::Searcher::builder().add("sam").add("bilbo").build().unwrap();
    assert_eq!(built.find_iter("bilbo, sam").map(|m| m.range()).collect::<Vec<_>>(), [0..5, 7..10]);
    assert_eq!(packed::Searcher::config().builder().extend(["frodo"]).build().unwrap().find("frodo").map(|m| m.end()), Some(5));
    assert!(packed::Builder::new().build().is_none());
}
