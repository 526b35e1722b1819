//! The automata of `nfa` and `dfa`, and walks over their states, beside the searches of the library.
use chromesquid::{
    automaton::{self, Automaton, OverlappingState, StateID},
    dfa,
    nfa::{contiguous, noncontiguous},
    AhoCorasick, Anchored, Input, Match, MatchError, MatchErrorKind, MatchKind, PatternID, StartKind,
};
use std::panic::catch_unwind;
use MatchKind::{LeftmostFirst, LeftmostLongest, Standard};

/// A search as callers write it: it stops where nothing better can come. What an anchored one is told that starts later it passes over.
fn walk<A: Automaton + ?Sized>(automaton: &A, haystack: &[u8], anchored: Anchored) -> Result<Option<Match>, MatchError> {
    let found = |state: StateID, end: usize| {
        let pattern = automaton.match_pattern(state, 0);
        let found = Match::new(pattern, end - automaton.pattern_len(pattern)..end);
        (!anchored.is_anchored() || found.start() == 0).then(|| found)
    };
    let mut state = automaton.start_state(anchored)?;
    let mut last = if automaton.is_match(state) { found(state, 0) } else { None };
    for (at, &byte) in haystack.iter().enumerate() {
        if last.is_some() && automaton.match_kind() == Standard {
            break;
        }
        state = automaton.next_state(anchored, state, byte);
        if automaton.is_special(state) {
            if automaton.is_dead(state) {
                break;
            }
            if automaton.is_match(state) {
                last = found(state, at + 1).or(last);
            }
        }
    }
    Ok(last)
}

/// All that a walk finds, in the order in which the states list it.
/// All matches, one after another by a state, as an anchored search has them too.
fn overlapping(searcher: &AhoCorasick, input: &Input<'_>) -> Vec<Match> {
    let mut state = OverlappingState::start();
    std::iter::from_fn(|| {
        searcher.find_overlapping(input.clone(), &mut state);
        state.get_match()
    })
    .collect()
}

fn walk_all(automaton: impl Automaton, haystack: &[u8], anchored: Anchored) -> Vec<Match> {
    let mut state = automaton.start_state(anchored).unwrap();
    let mut all = vec![];
    for end in 0..=haystack.len() {
        for index in 0..automaton.match_len(state) {
            let pattern = automaton.match_pattern(state, index);
            all.push(Match::new(pattern, end - automaton.pattern_len(pattern)..end));
        }
        if let Some(&byte) = haystack.get(end) {
            state = automaton.next_state(anchored, state, byte);
        }
    }
    all
}

struct Dice(u64);

impl Dice {
    fn below(&mut self, bound: usize) -> usize {
        self.0 ^= self.0 << 13;
        self.0 ^= self.0 >> 7;
        self.0 ^= self.0 << 17;
        (self.0 >> 11) as usize % bound
    }

    fn bytes(&mut self, letters: &[u8], most: usize) -> Vec<u8> {
        (0..self.below(most + 1)).map(|_| letters[self.below(letters.len())]).collect()
    }
}

/// A walk of each kind of automaton finds what the library does, also by the searches of the automaton.
fn compare(dice: &mut Dice, letters: &[u8], most: usize) {
    let (count, kind, ignore_case) = (dice.below(9), [Standard, LeftmostFirst, LeftmostLongest][dice.below(3)], dice.below(2) == 0);
    let patterns: Vec<_> = (0..count).map(|_| dice.bytes(letters, 5)).collect();
    let haystack = dice.bytes(letters, most);
    let case = format!("{patterns:?} {haystack:?} {kind:?} {ignore_case}");
    let searcher =
        AhoCorasick::builder().match_kind(kind).start_kind(StartKind::Both).ascii_case_insensitive(ignore_case).build(&patterns).unwrap();
    let noncontiguous = noncontiguous::Builder::new().match_kind(kind).ascii_case_insensitive(ignore_case).build(&patterns).unwrap();
    let contiguous = contiguous::Builder::new().match_kind(kind).ascii_case_insensitive(ignore_case).build(&patterns).unwrap();
    let dfa = dfa::Builder::new().start_kind(StartKind::Both).build_from_noncontiguous(&noncontiguous).unwrap();
    let all: [&dyn Automaton; 3] = [&noncontiguous, &contiguous, &dfa];
    for automaton in all {
        for anchored in [Anchored::No, Anchored::Yes] {
            let input = Input::new(&haystack).anchored(anchored);
            let wanted = searcher.find(input.clone());
            assert_eq!(walk(automaton, &haystack, anchored), Ok(wanted), "{case} {anchored:?}");
            assert_eq!(automaton.try_find(&input), Ok(wanted), "{case} {anchored:?}");
        }
        let facts = (automaton.patterns_len(), automaton.min_pattern_len(), automaton.max_pattern_len(), automaton.match_kind());
        assert_eq!(facts, (searcher.patterns_len(), searcher.min_pattern_len(), searcher.max_pattern_len(), kind));
        for (number, pattern) in patterns.iter().enumerate() {
            assert_eq!(automaton.pattern_len(PatternID::must(number)), pattern.len());
        }
    }
    if kind == Standard {
        for anchored in [Anchored::No, Anchored::Yes] {
            let wanted = overlapping(&searcher, &Input::new(&haystack).anchored(anchored));
            assert_eq!(walk_all(&dfa, &haystack, anchored), wanted, "{case} {anchored:?}");
        }
    }
}

#[test]
fn random_walks_on_few_letters() {
    let mut dice = Dice(31337);
    for _ in 0..3_000 {
        compare(&mut dice, b"ab", 14);
    }
}

#[test]
fn random_walks_on_all_kinds_of_bytes() {
    let mut dice = Dice(90125);
    for _ in 0..3_000 {
        compare(&mut dice, b"aAbB\0\xC3\xE3\xFF[{", 40);
    }
}

#[test]
fn a_walk_over_many_patterns() {
    let mut dice = Dice(4711);
    let letters: Vec<u8> = (0..=255).collect();
    let patterns: Vec<_> = (0..5_000).map(|_| dice.bytes(&letters, 9)).filter(|it| !it.is_empty()).collect();
    let nested = (1..60).map(|len| vec![b'a'; len]);
    let patterns: Vec<_> = patterns.into_iter().chain(nested).collect();
    let automaton = noncontiguous::NFA::new(&patterns).unwrap();
    let haystack: Vec<u8> = (0..50).flat_map(|_| [patterns[dice.below(patterns.len())].clone(), dice.bytes(b"a", 200)].concat()).collect();
    let searcher = AhoCorasick::new(&patterns).unwrap();
    assert!(walk_all(&automaton, &haystack, Anchored::No).into_iter().eq(searcher.find_overlapping_iter(&haystack)));
    assert!(automaton.memory_usage() > searcher.memory_usage());
}

/// A search over two automata, one for the text and one for what it is compared with, as a generic caller keeps them.
struct Either<A> {
    automaton: A,
}

impl<A: Automaton> Either<A> {
    fn ranges(&self, text: &str) -> Vec<std::ops::Range<usize>> {
        let found: automaton::FindIter<'_, '_, A> = self.automaton.try_find_iter(Input::new(text)).unwrap();
        found.map(|m| m.range()).collect()
    }

    fn overlapping(&self, text: &str) -> usize {
        let found: automaton::FindOverlappingIter<'_, '_, A> = self.automaton.try_find_overlapping_iter(Input::new(text)).unwrap();
        let listed = found.count();
        let mut state = OverlappingState::start();
        for _ in 0..listed {
            self.automaton.try_find_overlapping(&Input::new(text), &mut state).unwrap();
            assert!(state.get_match().is_some());
        }
        self.automaton.try_find_overlapping(&Input::new(text), &mut state).unwrap();
        assert_eq!(state.get_match(), None);
        listed
    }

    fn streamed(&self, text: &str) -> (usize, String) {
        let found: automaton::StreamFindIter<'_, A, &[u8]> = self.automaton.try_stream_find_iter(text.as_bytes()).unwrap();
        let count = found.map(|m| m.unwrap()).count();
        let (mut pieces, mut numbers) = (vec![], vec![]);
        self.automaton.try_stream_replace_all(text.as_bytes(), &mut pieces, &["1", "2"]).unwrap();
        let number = |m: &Match, _: &[u8], to: &mut &mut Vec<u8>| std::io::Write::write_all(to, &[b'1' + m.pattern().as_usize() as u8]);
        self.automaton.try_stream_replace_all_with(text.as_bytes(), &mut numbers, number).unwrap();
        assert_eq!(pieces, numbers);
        (count, String::from_utf8(pieces).unwrap())
    }
}

#[test]
fn generic_callers() {
    fn told<A: Automaton>(automaton: A) {
        let either = Either { automaton };
        assert_eq!(either.ranges("abcd abc"), [1..3, 6..8]);
        assert_eq!(either.overlapping("abcd abc"), 3);
        assert_eq!(either.streamed("abcd abc"), (2, "a2d a2".to_string()));
        assert_eq!(either.automaton.try_replace_all("abcd", &["x", "y"]).unwrap(), "ayd");
        assert_eq!(either.automaton.try_replace_all_bytes(b"abcd", &["x", "y"]).unwrap(), b"ayd");
        let (mut text, mut bytes) = (String::new(), vec![]);
        either.automaton.try_replace_all_with("abcd", &mut text, |_, it, to| to.push_str(it) != ()).unwrap();
        either.automaton.try_replace_all_with_bytes(b"abcd", &mut bytes, |_, it, to| to.extend(it) != ()).unwrap();
        assert_eq!((text.as_str(), &bytes[..]), ("abcd", &b"abcd"[..]));
        assert!(either.automaton.prefilter().is_none());
    }
    let patterns = ["abcd", "bc"];
    let first = noncontiguous::NFA::new(patterns).unwrap();
    told(&first);
    told(contiguous::Builder::new().dense_depth(2).byte_classes(false).build_from_noncontiguous(&first).unwrap());
    told(dfa::DFA::new(patterns).unwrap());
    told(dfa::DFA::builder().byte_classes(false).prefilter(false).build(patterns).unwrap().clone());
    told(&&contiguous::NFA::builder().build(patterns).unwrap());
    told(noncontiguous::NFA::builder().dense_depth(0).build(patterns).unwrap());
}

#[test]
fn which_searches_an_automaton_answers() {
    let refused = |automaton: &dfa::DFA, anchored| automaton.start_state(anchored).unwrap_err().kind().clone();
    let unanchored = dfa::DFA::new(["a"]).unwrap();
    assert_eq!(refused(&unanchored, Anchored::Yes), MatchErrorKind::InvalidInputAnchored);
    assert!(unanchored.try_find(&Input::new("a").anchored(Anchored::Yes)).is_err() && unanchored.start_state(Anchored::No).is_ok());
    for anchored in [
        dfa::Builder::new().start_kind(StartKind::Anchored).build(["ab", "b", "a"]).unwrap(),
        dfa::Builder::new()
            .start_kind(StartKind::Anchored)
            .build_from_noncontiguous(&noncontiguous::NFA::new(["ab", "b", "a"]).unwrap())
            .unwrap(),
    ] {
        assert_eq!(refused(&anchored, Anchored::No), MatchErrorKind::InvalidInputUnanchored);
        assert!(anchored.try_find(&Input::new("ab")).is_err() && anchored.try_stream_find_iter(&b"ab"[..]).is_err());
        let input = Input::new("xab").range(1..).anchored(Anchored::Yes);
        assert_eq!(anchored.try_find_overlapping_iter(input.clone()).unwrap_err().kind(), &MatchErrorKind::InvalidInputAnchored);
        let mut state = OverlappingState::start();
        for wanted in [Some((2, 1..2)), Some((0, 1..3)), Some((1, 2..3)), None] {
            anchored.try_find_overlapping(&input, &mut state).unwrap();
            assert_eq!(state.get_match(), wanted.map(|(pattern, at)| Match::must(pattern, at)));
        }
    }
    assert_eq!(unanchored.try_find(&Input::new("a").anchored(Anchored::Yes).span(chromesquid::Span { start: 1, end: 0 })), Ok(None));
    // An automaton tells of its kind and of its patterns first.
    let first = dfa::Builder::new().start_kind(StartKind::Anchored).match_kind(LeftmostFirst).build(["a"]).unwrap();
    let told = first.try_stream_find_iter(&b"a"[..]).unwrap_err();
    assert_eq!(told.kind(), &MatchErrorKind::UnsupportedStream { got: LeftmostFirst });
    assert!(catch_unwind(|| first.try_replace_all("a", &["b", "c"])).is_err());
    let leftmost = contiguous::Builder::new().match_kind(LeftmostFirst).build(["a"]).unwrap();
    assert!(leftmost.try_stream_find_iter(&b"a"[..]).is_err() && leftmost.try_find_overlapping_iter(Input::new("a")).is_err());
}

#[test]
fn states() {
    let automaton = noncontiguous::NFA::new(["ab", "b", "ab"]).unwrap();
    let start = automaton.start_state(Anchored::No).unwrap();
    assert!(automaton.is_start(start) && automaton.is_special(start) && !automaton.is_match(start) && !automaton.is_dead(start));
    let a = automaton.next_state(Anchored::No, start, b'a');
    assert!(!automaton.is_special(a));
    let ab = automaton.next_state(Anchored::No, a, b'b');
    let listed: Vec<_> = (0..automaton.match_len(ab)).map(|index| automaton.match_pattern(ab, index).as_usize()).collect();
    assert_eq!(listed, [0, 2, 1]);
    let first = noncontiguous::Builder::new().match_kind(LeftmostFirst).build(["a", "a", "ab"]).unwrap();
    let same = first.next_state(Anchored::No, first.start_state(Anchored::No).unwrap(), b'a');
    assert_eq!((first.match_len(same), first.match_pattern(same, 1)), (2, PatternID::must(1)));
    assert!(first.is_dead(first.next_state(Anchored::No, same, b'b')));
    assert_eq!(automaton.next_state(Anchored::No, ab, b'x'), start);
    let anchored = automaton.start_state(Anchored::Yes).unwrap();
    assert!(anchored != start && automaton.is_start(anchored));
    let dead = automaton.next_state(Anchored::Yes, anchored, b'x');
    assert!(automaton.is_dead(dead) && automaton.is_special(dead) && automaton.next_state(Anchored::No, dead, b'a') == dead);
    assert_eq!(automaton.is_dead(StateID::ZERO), dead == StateID::ZERO);
    // A state of another automaton, and those that no walk has come to.
    let longer = noncontiguous::NFA::new(["longer than these"]).unwrap();
    let begun = longer.start_state(Anchored::No).unwrap();
    let other = b"longer than".iter().fold(begun, |it, &byte| longer.next_state(Anchored::No, it, byte));
    let told = [start, a, ab, anchored, dead];
    assert!(!longer.is_special(other) && !told.contains(&other));
    for none in (0..20).map(StateID::must).filter(|it| !told.contains(it)).chain([other, StateID::MAX]) {
        assert!(catch_unwind(|| automaton.next_state(Anchored::No, none, b'a')).is_err(), "{none:?}");
        assert!(catch_unwind(|| automaton.is_match(none)).is_err() && catch_unwind(|| automaton.is_special(none)).is_err());
    }
    assert!(catch_unwind(|| automaton.match_pattern(ab, 3)).is_err() && catch_unwind(|| automaton.match_pattern(start, 0)).is_err());
    assert!(catch_unwind(|| automaton.pattern_len(PatternID::must(3))).is_err());
}

#[test]
fn what_is_printed() {
    fn shared<T: Send + Sync + std::panic::UnwindSafe + std::panic::RefUnwindSafe + Clone>(_: &T) {}
    let automaton = dfa::DFA::new(["a"]).unwrap();
    shared(&automaton);
    shared(&noncontiguous::NFA::new(["a"]).unwrap());
    assert!(
        format!("{automaton:?}").starts_with("dfa::DFA { patterns_len: 1, match_kind: Standard, start_kind: Unanchored, memory_usage: ")
    );
    assert!(format!("{:?}", noncontiguous::NFA::new(["a"]).unwrap()).starts_with("noncontiguous::NFA { patterns_len: 1"));
    assert!(format!("{:?}", contiguous::NFA::new(["a"]).unwrap()).starts_with("contiguous::NFA { patterns_len: 1"));
    assert!(format!("{:?}", automaton.try_find_iter(Input::new("a")).unwrap()).starts_with("FindIter"));
    assert_eq!(automaton::Candidate::Match(Match::must(0, 3..4)).into_option(), Some(3));
    assert_eq!(automaton::Candidate::PossibleStartOfMatch(2).into_option(), Some(2));
    assert_eq!(automaton::Candidate::None.into_option(), None);
}
