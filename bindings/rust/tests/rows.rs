//! The worked examples of docs/RULES.md, and what is refused.
use chromesquid::{AhoCorasick, Anchored, Input, Match, MatchError, MatchErrorKind, MatchKind, PatternID, Span, StartKind};
use std::panic::{catch_unwind, AssertUnwindSafe};
use MatchKind::{LeftmostFirst, LeftmostLongest, Standard};

fn searcher(kind: MatchKind, patterns: &[&str]) -> AhoCorasick {
    AhoCorasick::builder().match_kind(kind).start_kind(StartKind::Both).build(patterns).unwrap()
}

fn ignoring_case(kind: MatchKind, patterns: &[&[u8]]) -> AhoCorasick {
    AhoCorasick::builder().match_kind(kind).ascii_case_insensitive(true).build(patterns).unwrap()
}

fn told(found: impl IntoIterator<Item = Match>) -> Vec<(usize, usize, usize)> {
    found.into_iter().map(|it| (it.pattern().as_usize(), it.start(), it.end())).collect()
}

fn found<'h>(searcher: &AhoCorasick, input: impl Into<Input<'h>>) -> Vec<(usize, usize, usize)> {
    told(searcher.find(input))
}

#[test]
fn the_case_rule() {
    let fruits = ignoring_case(Standard, &[b"apple", b"maple", b"snapple"]);
    assert_eq!(told(fruits.find_iter("Nobody likes maple in their apple flavored Snapple.")), [(1, 13, 18), (0, 28, 33), (2, 43, 50)]);
    assert_eq!(found(&ignoring_case(LeftmostFirst, &[b"A", b"ab"]), "AB"), [(0, 0, 1)]);
    assert_eq!(found(&ignoring_case(Standard, &[b"["]), "{"), []);
    assert_eq!(found(&ignoring_case(Standard, &[b"\xC3\x89"]), b"\xC3\xA9"), []);
}

#[test]
fn where_a_pattern_occurs() {
    assert_eq!(found(&searcher(Standard, &["aab"]), "xaaab"), [(0, 2, 5)]);
    let longest = searcher(LeftmostLongest, &["ab", "abcd"]);
    assert_eq!(found(&longest, Input::new("xabcdy").span(1..4).anchored(Anchored::Yes)), [(0, 1, 3)]);
    assert_eq!(found(&longest, Input::new("xabcdy").anchored(Anchored::Yes)), []);
    assert_eq!(found(&searcher(Standard, &[""]), Input::new("ab").span(Span { start: 3, end: 2 })), []);
    let none = AhoCorasick::new(Vec::<&str>::new()).unwrap();
    assert_eq!((found(&none, "a"), none.patterns_len(), none.max_pattern_len()), (vec![], 0, 0));
}

#[test]
fn which_occurrence_is_best() {
    assert_eq!(found(&searcher(Standard, &["b", "abc", "abcd"]), "abcd"), [(0, 1, 2)]);
    assert_eq!(found(&searcher(Standard, &["samwise", "sam"]), "samwise"), [(1, 0, 3)]);
    assert_eq!(found(&searcher(LeftmostFirst, &["samwise", "sam"]), "samwise"), [(0, 0, 7)]);
    assert_eq!(found(&searcher(Standard, &["bc", "abc"]), "abc"), [(1, 0, 3)]);
    let longest = searcher(LeftmostLongest, &["abcd", "ab"]);
    assert_eq!(found(&longest, "abcd"), [(0, 0, 4)]);
    assert_eq!(found(&longest, Input::new("abcd").earliest(true)), [(1, 0, 2)]);
    assert_eq!(found(&searcher(LeftmostLongest, &["", "ab", "c"]), "ac"), [(0, 0, 0)]);
}

#[test]
fn iteration() {
    assert_eq!(told(searcher(LeftmostFirst, &["abcd", "b", "bce", "ce"]).find_iter("abce")), [(1, 1, 2), (3, 2, 4)]);
    assert_eq!(told(searcher(LeftmostLongest, &["abcd", "b", "bce"]).find_iter("abce")), [(2, 1, 4)]);
    assert_eq!(told(searcher(LeftmostFirst, &["xyz", ""]).find_iter("xy")), [(1, 0, 0), (1, 1, 1), (1, 2, 2)]);
    let mut some = vec![];
    let searcher = searcher(LeftmostLongest, &["", "a"]);
    let mut matches = searcher.find_iter("ab");
    for _ in 0..5 {
        some.extend(matches.next());
    }
    assert_eq!(told(some), [(1, 0, 1), (0, 2, 2)]);
}

#[test]
fn overlapping_search() {
    let words = searcher(Standard, &["append", "appendage", "app"]);
    let listed = [(2, 0, 3), (0, 0, 6), (2, 11, 14), (2, 22, 25), (0, 22, 28), (1, 22, 31)];
    assert_eq!(told(words.find_overlapping_iter("append the app to the appendage")), listed);
    assert_eq!(
        told(words.find_overlapping_iter(Input::new("append the app to the appendage").range(11..30))),
        [(2, 11, 14), (2, 22, 25), (0, 22, 28)]
    );
    assert_eq!(told(searcher(Standard, &["", "ab"]).find_overlapping_iter("ab")), [(0, 0, 0), (0, 1, 1), (1, 0, 2), (0, 2, 2)]);
    let many = "a".repeat(5000);
    assert_eq!(searcher(Standard, &["a", "aa"]).find_overlapping_iter(&many).count(), 9999);
}

#[test]
fn replacement() {
    let words = searcher(Standard, &["fox", "brown", "quick"]);
    assert_eq!(words.replace_all("The quick brown fox.", &["sloth", "grey", "slow"]), "The slow grey sloth.");
    assert_eq!(words.replace_all_bytes(b"The quick brown fox.", &["sloth", "grey", "slow"]), b"The slow grey sloth.");
    let empty = searcher(LeftmostLongest, &[""]);
    assert_eq!(empty.replace_all("ab", &["-"]), "-a-b-");
    assert_eq!(empty.replace_all("é", &["-"]), "-é-");
    assert_eq!(empty.replace_all_bytes("é".as_bytes(), &["-"]), b"-\xC3-\xA9-");
    let half = AhoCorasick::new([b"\xA9"]).unwrap();
    assert_eq!(half.replace_all("é", &["e"]), "é");
    assert_eq!(half.replace_all_bytes("é".as_bytes(), &["e"]), b"\xC3e");
    let letter = searcher(Standard, &["a"]);
    let (mut text, mut bytes) = (String::from("> "), vec![]);
    letter.replace_all_with("aba", &mut text, |found, was, dst| {
        assert_eq!((found.range(), was), (0..1, "a"));
        dst.push('X');
        false
    });
    letter.replace_all_with_bytes(b"aba", &mut bytes, |_, was, dst| {
        dst.extend_from_slice(was);
        dst.push(b'X');
        true
    });
    assert_eq!((text.as_str(), bytes.as_slice()), ("> Xba", &b"aXbaX"[..]));
    let long = "long".repeat(100);
    assert_eq!(letter.replace_all_bytes(b"aba", &[&long]), format!("{long}b{long}").as_bytes());
}

#[test]
fn what_is_refused() {
    let unanchored = AhoCorasick::builder().match_kind(LeftmostFirst).build(["a"]).unwrap();
    let anchored = AhoCorasick::builder().start_kind(StartKind::Anchored).build(["a"]).unwrap();
    let anchored_input = || Input::new("a").anchored(Anchored::Yes);
    assert_eq!(unanchored.try_find(anchored_input()).unwrap_err().kind(), &MatchErrorKind::InvalidInputAnchored);
    assert_eq!(anchored.try_find("a").unwrap_err().kind(), &MatchErrorKind::InvalidInputUnanchored);
    assert_eq!(anchored.try_find_iter("a").unwrap_err().kind(), &MatchErrorKind::InvalidInputUnanchored);
    assert_eq!(anchored.try_replace_all("a", &["b"]).unwrap_err().kind(), &MatchErrorKind::InvalidInputUnanchored);
    assert_eq!(anchored.try_replace_all_bytes(b"a", &["b"]).unwrap_err().kind(), &MatchErrorKind::InvalidInputUnanchored);
    assert_eq!(anchored.try_find_overlapping_iter("a").unwrap_err().kind(), &MatchErrorKind::InvalidInputUnanchored);
    let overlapping = unanchored.try_find_overlapping_iter("a").unwrap_err();
    assert_eq!(overlapping.kind(), &MatchErrorKind::UnsupportedOverlapping { got: LeftmostFirst });
    assert_eq!(overlapping.to_string(), "match kind LeftmostFirst does not support overlapping searches");
    assert_eq!(found(&anchored, anchored_input()), [(0, 0, 1)]);
    // That a searcher is anchored is told first.
    for (kind, patterns) in [(LeftmostFirst, ["a", "b"]), (Standard, ["a", ""])] {
        let anchored = AhoCorasick::builder().start_kind(StartKind::Anchored).match_kind(kind).build(patterns).unwrap();
        let wanted = MatchError::invalid_input_unanchored();
        assert_eq!(anchored.try_stream_find_iter(&b"a"[..]).unwrap_err(), wanted);
        assert_eq!(anchored.try_stream_replace_all(&b"a"[..], vec![], &["b"]).unwrap_err().to_string(), wanted.to_string());
        let told = anchored.try_stream_replace_all_with(&b"a"[..], vec![], |_, _, _| Ok(())).unwrap_err();
        assert_eq!(told.to_string(), wanted.to_string());
        assert_eq!(anchored.try_replace_all("a", &["b"]).unwrap_err(), wanted);
        assert_eq!(anchored.try_replace_all_bytes(b"a", &["b"]).unwrap_err(), wanted);
    }
    assert!(anchored.is_match(anchored_input()) && !anchored.is_match(Input::new("ba").anchored(Anchored::Yes)));
    assert!(anchored.is_match("a") && unanchored.is_match(anchored_input()));
    assert!(catch_unwind(|| unanchored.replace_all("a", &["b", "c"])).is_err());
    assert!(catch_unwind(|| Input::new("ab").span(0..3)).is_err());
    assert!(catch_unwind(|| Input::new("ab").set_start(4)).is_err());
    assert!(unanchored.is_match("a"), "a call that panicked leaves it as it was");
}

#[test]
fn a_count_of_replacements_that_is_not_that_of_the_patterns() {
    let words = searcher(Standard, &["login", "hunter2"]);
    let text = "login hunter2";
    for wrong in [&[][..], &["user"][..], &["user", "***", "x"][..]] {
        assert!(catch_unwind(|| words.replace_all(text, wrong)).is_err());
        assert!(catch_unwind(|| words.try_replace_all(text, wrong)).is_err());
        assert!(catch_unwind(|| words.replace_all_bytes(text.as_bytes(), wrong)).is_err());
        assert!(catch_unwind(|| words.try_replace_all_bytes(text.as_bytes(), wrong)).is_err());
        assert!(catch_unwind(|| words.try_stream_replace_all(text.as_bytes(), vec![], wrong)).is_err());
        let mut there = vec![];
        let streamed = catch_unwind(AssertUnwindSafe(|| words.stream_replace_all(text.as_bytes(), &mut there, wrong)));
        assert!(streamed.is_err() && there.is_empty());
    }
}

#[test]
fn streams_that_fail() {
    struct Fails(usize);
    impl std::io::Read for Fails {
        fn read(&mut self, room: &mut [u8]) -> std::io::Result<usize> {
            self.0 += 1;
            match self.0 {
                1 => Err(std::io::ErrorKind::Interrupted.into()),
                2 => {
                    room[..6].copy_from_slice(b"xxabxx");
                    Ok(6)
                }
                _ => Err(std::io::Error::new(std::io::ErrorKind::Other, "gone")),
            }
        }
    }
    let words = searcher(Standard, &["ab"]);
    let mut written = vec![];
    assert_eq!(words.stream_replace_all(Fails(0), &mut written, &["-"]).unwrap_err().to_string(), "gone");
    assert!(b"xx-xx".starts_with(&written[..]) && written.len() >= 3);
    let told: Vec<_> = words.stream_find_iter(Fails(0)).take(2).map(|it| it.map_err(|error| error.to_string())).collect();
    assert_eq!(told, [Ok(Match::must(0, 2..4)), Err("gone".to_string())]);
    let leftmost = searcher(LeftmostFirst, &["ab"]);
    assert_eq!(leftmost.try_stream_find_iter(Fails(0)).unwrap_err(), MatchError::unsupported_stream(LeftmostFirst));
    let text = leftmost.try_stream_replace_all(Fails(0), vec![], &["-"]).unwrap_err().to_string();
    assert_eq!(text, "match kind LeftmostFirst does not support stream searching");
    let empty = searcher(Standard, &["", "a"]);
    assert_eq!(empty.try_stream_find_iter(&b"a"[..]).unwrap_err().kind(), &MatchErrorKind::UnsupportedEmpty);
    assert!(empty.try_stream_replace_all(&b"a"[..], vec![], &["", "b"]).is_err());
    assert!(catch_unwind(|| words.stream_replace_all(&b"a"[..], vec![], &["", "b"])).is_err());
}

#[test]
fn what_is_told() {
    let words = searcher(LeftmostLongest, &["abc", "b"]);
    assert_eq!((words.patterns_len(), words.min_pattern_len(), words.max_pattern_len()), (2, 1, 3));
    assert_eq!((words.match_kind(), words.start_kind()), (LeftmostLongest, StartKind::Both));
    assert!(words.memory_usage() > 0 && chromesquid::version() >= 100);
    assert!(format!("{words:?}").starts_with("AhoCorasick { patterns_len: 2, match_kind: LeftmostLongest,"));
    assert!(PatternID::new(PatternID::MAX.as_usize() + 1).is_err());
    assert_eq!(Match::must(3, 1..4).offset(2), Match::new(PatternID::must(3), Span { start: 3, end: 6 }));
}

#[test]
fn any_threads_at_the_same_time() {
    fn is_shared<T: Send + Sync + Clone>(it: &T) -> T {
        it.clone()
    }
    let words = is_shared(&searcher(LeftmostFirst, &["frodo", "sam"]));
    let text = "frodo and sam ".repeat(5000);
    std::thread::scope(|threads| {
        for _ in 0..8 {
            let (one, text) = (words.clone(), &text);
            threads.spawn(move || {
                assert_eq!(one.find_iter(text).count(), 10_000);
                // calls while an iterator runs
                assert_eq!(one.find_iter(text).filter(|it| one.is_match(&text[it.range()])).count(), 10_000);
            });
        }
    });
    drop(words.find_iter("sam"));
    assert_eq!(words.find_iter("sam").count(), 1);
}
