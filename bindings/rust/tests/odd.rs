//! Types of a caller that answer each time otherwise, or search meanwhile.
use chromesquid::{
    automaton::Automaton,
    dfa::DFA,
    nfa::{contiguous, noncontiguous},
    packed, secret_forms, AhoCorasick, Form, Input, Match, MatchKind, PatternID, Redactor,
};
use std::cell::Cell;

/// Bytes that are short at first, and long from then on.
struct Odd {
    asked: Cell<usize>,
    answers: [Box<[u8]>; 2],
}

impl Odd {
    fn new(first: &str) -> Odd {
        Odd { asked: Cell::new(0), answers: [first.as_bytes().into(), vec![b'y'; 1 << 20].into()] }
    }
}

impl AsRef<[u8]> for Odd {
    fn as_ref(&self) -> &[u8] {
        self.asked.set(self.asked.get() + 1);
        &self.answers[usize::from(self.asked.get() > 1)]
    }
}

#[test]
fn bytes_are_asked_for_once() {
    let searcher = AhoCorasick::new([Odd::new("a"), Odd::new("bc")]).unwrap();
    assert_eq!((searcher.max_pattern_len(), searcher.find("abc")), (2, Some(Match::must(0, 0..1))));
    let pieces = || [Odd::new("x"), Odd::new("y")];
    assert_eq!(searcher.replace_all_bytes(b"abca", &pieces()), b"xyx");
    let mut written = vec![];
    searcher.stream_replace_all(&b"abca"[..], &mut written, &pieces()).unwrap();
    assert_eq!(written, b"xyx");
    assert_eq!(searcher.find_iter(&Odd::new("abca")).count(), 3);
    assert_eq!(Input::new(&Odd::new("abca")).end(), 4);
}

#[test]
fn lengths_of_an_automaton_are_those_of_its_patterns() {
    fn looked_at<A: Automaton>(automaton: &A) {
        assert_eq!((automaton.pattern_len(PatternID::ZERO), automaton.max_pattern_len()), (2, 2));
        assert_eq!(automaton.try_find(&Input::new("xab")), Ok(Some(Match::must(0, 1..3))));
    }
    looked_at(&noncontiguous::NFA::new([Odd::new("ab")]).unwrap());
    looked_at(&contiguous::NFA::new([Odd::new("ab")]).unwrap());
    looked_at(&DFA::builder().match_kind(MatchKind::LeftmostFirst).build([Odd::new("ab")]).unwrap());
}

#[test]
fn secrets_and_few_patterns() {
    let redactor = Redactor::new([Odd::new("swordfish")], &[Form::Hex]).unwrap().replacement(Odd::new("*"));
    assert_eq!(redactor.text("a swordfish"), "a *");
    assert_eq!(secret_forms(Odd::new("key/+"), &[Form::Hex]), secret_forms("key/+", &[Form::Hex]));
    let few = packed::Searcher::new([Odd::new("ab")]).unwrap();
    assert_eq!((few.find(Odd::new("xab")), few.find_iter(&Odd::new("xab")).count()), (Some(Match::must(0, 1..3)), 1));
}

#[test]
fn bytes_that_search_as_they_are_asked_for() {
    struct Searches<'s>(&'s AhoCorasick);
    impl AsRef<[u8]> for Searches<'_> {
        fn as_ref(&self) -> &[u8] {
            assert_eq!(self.0.find_iter("aa").count(), 2);
            b"x"
        }
    }
    let searcher = AhoCorasick::new(["a"]).unwrap();
    assert_eq!(searcher.replace_all_bytes(b"aba", &[Searches(&searcher)]), b"xbx");
    let mut written = vec![];
    searcher.stream_replace_all(&b"aba"[..], &mut written, &[Searches(&searcher)]).unwrap();
    assert_eq!(written, b"xbx");
}
