//! Answers and errors in which this crate once differed from aho-corasick 1.1.
use chromesquid::{
    automaton::{Automaton, OverlappingState},
    dfa,
    nfa::noncontiguous,
    AhoCorasick, AhoCorasickKind, Anchored, Input, Match, MatchError, MatchErrorKind, MatchKind,
    Span, StartKind,
};

const KINDS: [MatchKind; 3] =
    [MatchKind::Standard, MatchKind::LeftmostFirst, MatchKind::LeftmostLongest];
const STARTS: [StartKind; 3] = [StartKind::Both, StartKind::Unanchored, StartKind::Anchored];

/// Lists the matches that one call after another puts into a state.
fn listed(mut next: impl FnMut(&mut OverlappingState) -> Result<(), MatchError>) -> Vec<Match> {
    let (mut state, mut all) = (OverlappingState::start(), vec![]);
    loop {
        next(&mut state).unwrap();
        match state.get_match() {
            Some(found) => all.push(found),
            None => return all,
        }
    }
}

/// The definition: whether some pattern occurs in the span, or at its start.
fn occurs(patterns: &[&str], haystack: &[u8], span: Span, anchored: Anchored) -> bool {
    (span.start..=span.end).any(|at| {
        let is_start = at == span.start || anchored == Anchored::No;
        is_start && patterns.iter().any(|it| haystack[at..span.end].starts_with(it.as_bytes()))
    })
}

#[test]
fn is_match_answers_every_input() {
    let haystack = b"xbab";
    let lists = [&["ab", "b"][..], &["ba", "a"], &["abab"], &["", "xb"], &[], &["bab", "xab", "z"]];
    for (patterns, match_kind, start_kind) in lists
        .iter()
        .flat_map(|it| KINDS.iter().map(move |kind| (it, *kind)))
        .flat_map(|(it, kind)| STARTS.iter().map(move |start| (it, kind, *start)))
    {
        for kind in [None, Some(AhoCorasickKind::ContiguousNFA), Some(AhoCorasickKind::DFA)] {
            let mut builder = AhoCorasick::builder();
            builder.match_kind(match_kind).start_kind(start_kind).kind(kind);
            let searcher = builder.build(*patterns).unwrap();
            for (start, end) in [(0, 4), (1, 4), (2, 4), (2, 3), (4, 4), (1, 1), (3, 2), (1, 0)] {
                for anchored in [Anchored::No, Anchored::Yes] {
                    let span = Span { start, end };
                    let wanted = occurs(patterns, haystack, span, anchored);
                    let input = Input::new(haystack).span(span).anchored(anchored);
                    let case = (patterns, match_kind, start_kind, kind, &input);
                    assert_eq!(searcher.is_match(input.clone()), wanted, "{case:?}");
                }
            }
        }
    }
}

#[test]
fn anchored_overlapping_lists_what_the_states_list() {
    let rows: [(&[&str], &str, &[(usize, usize, usize)]); 5] = [
        (&["ba", "a"], "ba", &[(0, 0, 2), (1, 1, 2)]),
        (&["abc", "b"], "abcb", &[(1, 1, 2), (0, 0, 3)]),
        (&["", "ab"], "abx", &[(0, 0, 0), (0, 1, 1), (1, 0, 2), (0, 2, 2)]),
        (&["b"], "ab", &[]),
        // "abc" is no match, and still the prefix of a pattern.
        (&["abcd", "bc"], "abce", &[(1, 1, 3)]),
    ];
    for (patterns, haystack, wanted) in rows {
        let wanted: Vec<_> = wanted.iter().map(|&(it, s, e)| Match::must(it, s..e)).collect();
        let searcher = AhoCorasick::builder().start_kind(StartKind::Anchored).build(patterns);
        let (searcher, nfa) = (searcher.unwrap(), noncontiguous::NFA::new(patterns).unwrap());
        let input = Input::new(haystack).anchored(Anchored::Yes);
        let found = listed(|state| searcher.try_find_overlapping(input.clone(), state));
        assert_eq!(found, wanted, "{patterns:?} {haystack:?}");
        assert_eq!(listed(|state| nfa.try_find_overlapping(&input, state)), wanted);
    }
}

#[test]
fn anchored_overlapping_of_a_long_haystack() {
    let long = "ab".repeat(3000);
    let patterns = [&long[..], "bab", "ba"];
    let nfa = noncontiguous::NFA::new(patterns).unwrap();
    for (haystack, count) in [(format!("{long}ba"), 2 * 2999), ("ab".repeat(2000) + "cba", 3998)] {
        let input = Input::new(&haystack).anchored(Anchored::Yes);
        let found = listed(|state| nfa.try_find_overlapping(&input, state));
        assert_eq!(found.len(), count + usize::from(haystack.starts_with(&long)));
        assert!(found.windows(2).all(|it| it[0].end() <= it[1].end()));
    }
}

#[test]
fn a_done_input_is_refused_only_by_a_start_kind() {
    let done = Input::new("ab").span(Span { start: 1, end: 0 });
    for match_kind in KINDS {
        let mut builder = dfa::Builder::new();
        let dfa = builder.start_kind(StartKind::Anchored).match_kind(match_kind).build(["a"]);
        let (dfa, mut state) = (dfa.unwrap(), OverlappingState::start());
        assert_eq!(dfa.try_find_overlapping(&done, &mut state), Ok(()));
        assert_eq!(state.get_match(), None);
        assert_eq!(dfa.try_find(&done), Ok(None));
        let mut builder = AhoCorasick::builder();
        let searcher = builder.start_kind(StartKind::Anchored).match_kind(match_kind).build(["a"]);
        let (searcher, refused) = (searcher.unwrap(), MatchError::invalid_input_unanchored());
        assert_eq!(searcher.try_find_overlapping(done.clone(), &mut state), Err(refused));
        let anchored = done.clone().anchored(Anchored::Yes);
        assert_eq!(searcher.try_find_overlapping(anchored, &mut state), Ok(()));
    }
}

#[test]
fn a_searcher_names_its_start_kind_before_its_match_kind() {
    let leftmost = AhoCorasick::builder().match_kind(MatchKind::LeftmostFirst).build(["a"]).unwrap();
    let (input, mut state) = (Input::new("a").anchored(Anchored::Yes), OverlappingState::start());
    let refused = MatchErrorKind::InvalidInputAnchored;
    let told = leftmost.try_find_overlapping_iter(input.clone()).unwrap_err();
    assert_eq!(told.kind(), &refused);
    assert_eq!(told.to_string(), "anchored searches are not supported or enabled");
    let told = leftmost.try_find_overlapping(input.clone(), &mut state).unwrap_err();
    assert_eq!(told.kind(), &refused);
    // An automaton names its match kind first.
    let dfa = dfa::Builder::new().match_kind(MatchKind::LeftmostFirst).build(["a"]).unwrap();
    let unsupported = MatchErrorKind::UnsupportedOverlapping { got: MatchKind::LeftmostFirst };
    let told = dfa.try_find_overlapping_iter(input).unwrap_err();
    assert_eq!(told.kind(), &unsupported);
}
