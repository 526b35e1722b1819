//! Random calls beside a plain search, which looks at each place.
use chromesquid::{automaton::OverlappingState, AhoCorasick, Anchored, Input, MatchKind, StartKind};
use MatchKind::{LeftmostFirst, LeftmostLongest, Standard};

struct Dice(u64);

impl Dice {
    fn below(&mut self, bound: usize) -> usize {
        self.0 ^= self.0 << 13;
        self.0 ^= self.0 >> 7;
        self.0 ^= self.0 << 17;
        (self.0 >> 11) as usize % bound
    }

    fn bytes(&mut self, letters: &[u8], most: usize) -> Vec<u8> {
        (0..self.below(most + 1)).map(|_| letters[self.below(letters.len())]).collect()
    }

    fn yes(&mut self) -> bool {
        self.below(2) == 0
    }
}

type Found = (usize, usize, usize);

struct Plain<'a> {
    patterns: &'a [Vec<u8>],
    kind: MatchKind,
    ignore_case: bool,
}

impl Plain<'_> {
    /// All that occurs in the span, by end, then start, then number.
    fn occurrences(&self, haystack: &[u8], start: usize, end: usize, anchored: bool) -> Vec<Found> {
        let mut found = vec![];
        for (number, pattern) in self.patterns.iter().enumerate() {
            for at in start..(end + 1).saturating_sub(pattern.len()) {
                let there = &haystack[at..at + pattern.len()];
                let same = if self.ignore_case { there.eq_ignore_ascii_case(pattern) } else { there == &pattern[..] };
                if same && (!anchored || at == start) {
                    found.push((number, at, at + pattern.len()));
                }
            }
        }
        found.sort_by_key(|&(number, start, end)| (end, start, number));
        found
    }

    /// All that an overlapping search lists. An anchored one lists what ends while the bytes read
    /// so far are the prefix of a pattern.
    fn overlapping(&self, haystack: &[u8], start: usize, end: usize, anchored: bool) -> Vec<Found> {
        let mut found = self.occurrences(haystack, start, end, false);
        let same = |one: &[u8], other: &[u8]| match self.ignore_case {
            true => one.eq_ignore_ascii_case(other),
            false => one == other,
        };
        let is_prefix = |read: &[u8]| {
            self.patterns.iter().any(|it| it.get(..read.len()).map_or(false, |it| same(it, read)))
        };
        found.retain(|it| !anchored || is_prefix(&haystack[start..it.2]));
        found
    }

    fn best(&self, haystack: &[u8], start: usize, end: usize, anchored: bool, earliest: bool) -> Option<Found> {
        let mut found = self.occurrences(haystack, start, end, anchored);
        if earliest {
            let first = found.first()?.2;
            found.retain(|it| it.2 == first);
        }
        match self.kind {
            Standard => found.into_iter().next(),
            LeftmostFirst => found.into_iter().min_by_key(|&(number, start, _)| (start, number)),
            _ => found.into_iter().min_by_key(|&(number, start, end)| (start, usize::MAX - end, number)),
        }
    }

    fn finds(&self, haystack: &[u8], mut start: usize, end: usize, anchored: bool, earliest: bool) -> Vec<Found> {
        let (mut found, mut last) = (vec![], None);
        while let Some(mut it) = self.best(haystack, start, end, anchored, earliest) {
            if it.1 == it.2 && last == Some(it.2) {
                match self.best(haystack, start + 1, end, anchored, earliest) {
                    Some(other) => it = other,
                    None => break,
                }
            }
            found.push(it);
            start = it.2;
            last = Some(it.2);
        }
        found
    }
}

fn replaced(haystack: &[u8], found: &[Found], pieces: &[Vec<u8>]) -> Vec<u8> {
    let (mut all, mut at) = (vec![], 0);
    for &(number, start, end) in found {
        all.extend_from_slice(&haystack[at..start]);
        all.extend_from_slice(&pieces[number]);
        at = end;
    }
    all.extend_from_slice(&haystack[at..]);
    all
}

fn compare(dice: &mut Dice, letters: &[u8], most: usize) {
    let count = dice.below(7);
    let patterns: Vec<_> = (0..count).map(|_| dice.bytes(letters, 4)).collect();
    let haystack = dice.bytes(letters, most);
    let plain = Plain { patterns: &patterns, kind: [Standard, LeftmostFirst, LeftmostLongest][dice.below(3)], ignore_case: dice.yes() };
    let searcher = AhoCorasick::builder()
        .match_kind(plain.kind)
        .start_kind(StartKind::Both)
        .ascii_case_insensitive(plain.ignore_case)
        .prefilter(dice.yes())
        .build(&patterns)
        .unwrap();
    let start = dice.below(haystack.len() + 1);
    let end = start + dice.below(haystack.len() - start + 1);
    for (start, end) in [(0, haystack.len()), (start, end)] {
        let (anchored, earliest) = (dice.yes(), dice.yes());
        let mode = if anchored { Anchored::Yes } else { Anchored::No };
        let input = Input::new(&haystack).range(start..end).anchored(mode).earliest(earliest);
        let best = searcher.find(input.clone()).map(|it| (it.pattern().as_usize(), it.start(), it.end()));
        let case = format!("{patterns:?} {haystack:?} {:?} {} {input:?}", plain.kind, plain.ignore_case);
        assert_eq!(best, plain.best(&haystack, start, end, anchored, earliest), "{case}");
        assert_eq!(searcher.is_match(input.clone()), best.is_some(), "{case}");
        let found: Vec<_> = searcher.find_iter(input).map(|it| (it.pattern().as_usize(), it.start(), it.end())).collect();
        assert_eq!(found, plain.finds(&haystack, start, end, anchored, earliest), "{case}");
        if plain.kind == Standard {
            let input = Input::new(&haystack).range(start..end).anchored(mode);
            let mut state = OverlappingState::start();
            let by_state = std::iter::from_fn(|| {
                searcher.find_overlapping(input.clone(), &mut state);
                state.get_match()
            });
            let listed: Vec<_> = by_state.map(|it| (it.pattern().as_usize(), it.start(), it.end())).collect();
            assert_eq!(listed, plain.overlapping(&haystack, start, end, anchored), "{case}");
            let iterated = searcher.try_find_overlapping_iter(input).map(|all| all.count());
            assert_eq!(iterated.ok(), (!anchored).then(|| listed.len()), "{case}");
        }
    }
    let pieces: Vec<_> = patterns.iter().map(|_| dice.bytes(letters, 5)).collect();
    let wanted = replaced(&haystack, &plain.finds(&haystack, 0, haystack.len(), false, false), &pieces);
    assert_eq!(searcher.replace_all_bytes(&haystack, &pieces), wanted, "{patterns:?} {haystack:?} {pieces:?}");
    if let (Ok(text), true) =
        (std::str::from_utf8(&haystack), patterns.iter().chain(&pieces).all(|it| it.is_ascii()) && haystack.is_ascii())
    {
        let pieces: Vec<_> = pieces.iter().map(|it| std::str::from_utf8(it).unwrap()).collect();
        assert_eq!(searcher.replace_all(text, &pieces).as_bytes(), wanted);
    }
}

/// A reader and writer in small pieces.
struct Pieces<'a>(&'a [u8], &'a mut Dice);

impl std::io::Read for Pieces<'_> {
    fn read(&mut self, room: &mut [u8]) -> std::io::Result<usize> {
        let count = self.0.len().min(room.len()).min(1 + self.1.below(9));
        room[..count].copy_from_slice(&self.0[..count]);
        self.0 = &self.0[count..];
        Ok(count)
    }
}

#[test]
fn random_streams() {
    let mut dice = Dice(77);
    for _ in 0..6_000 {
        let patterns: Vec<_> = (0..1 + dice.below(6)).map(|_| [dice.bytes(b"abA", 5), vec![b'a']].concat()).collect();
        let haystack = dice.bytes(b"abA", 60);
        let plain = Plain { patterns: &patterns, kind: [Standard, LeftmostFirst, LeftmostLongest][dice.below(3)], ignore_case: dice.yes() };
        let searcher = AhoCorasick::builder()
            .match_kind(plain.kind)
            .ascii_case_insensitive(plain.ignore_case)
            .prefilter(dice.yes())
            .build(&patterns)
            .unwrap();
        let wanted = plain.finds(&haystack, 0, haystack.len(), false, false);
        let streams = searcher.streams().unwrap();
        let found: Vec<_> = streams.find_iter(Pieces(&haystack, &mut dice)).map(|it| it.unwrap()).collect();
        let found: Vec<_> = found.iter().map(|it| (it.pattern().as_usize(), it.start(), it.end())).collect();
        assert_eq!(found, wanted, "{patterns:?} {haystack:?} {:?}", plain.kind);
        let pieces: Vec<_> = patterns.iter().map(|_| dice.bytes(b"xy", 5)).collect();
        let mut written = vec![];
        streams.replace_all(Pieces(&haystack, &mut dice), &mut written, &pieces).unwrap();
        assert_eq!(written, replaced(&haystack, &wanted, &pieces), "{patterns:?} {haystack:?} {:?}", plain.kind);
    }
}

#[test]
fn long_streams() {
    let text = "frodo and sam ".repeat(50_000);
    for kind in [Standard, LeftmostFirst, LeftmostLongest] {
        let searcher = AhoCorasick::builder().match_kind(kind).build(["frodo", "sam", "and sa"]).unwrap();
        let mut written = vec![];
        searcher.streams().unwrap().replace_all(text.as_bytes(), &mut written, &["F", "S", "AS"]).unwrap();
        assert!(written == searcher.replace_all_bytes(text.as_bytes(), &["F", "S", "AS"]));
        let found: Vec<_> = searcher.streams().unwrap().find_iter(text.as_bytes()).map(|it| it.unwrap()).collect();
        assert!(found.into_iter().eq(searcher.find_iter(&text)));
    }
}

/// How many kilobytes this process has had of memory at most.
fn most_memory() -> usize {
    let told = std::fs::read_to_string("/proc/self/status").unwrap();
    let line = told.lines().find_map(|line| line.strip_prefix("VmHWM:")).unwrap();
    line.trim().trim_end_matches(" kB").parse().unwrap()
}

#[test]
fn overlapping_matches_are_searched_for_as_they_are_asked_for() {
    let nested = AhoCorasick::new((1..=100).map(|length| "a".repeat(length))).unwrap();
    let (text, before) = ("a".repeat(100_000), most_memory());
    assert_eq!(nested.find_overlapping_iter(&text).count(), 100 * 100_000 - 4950);
    assert!(most_memory() - before < 64 << 10, "and 469 MiB where all are held");
}

#[test]
fn many_overlapping_matches_of_long_texts() {
    let mut dice = Dice(4242);
    for turn in 0..24 {
        let most = [1, 40, 3_000][turn % 3];
        let mut patterns: Vec<_> = (0..1 + dice.below(5)).map(|_| dice.bytes(b"aaaaaaab", most)).collect();
        patterns.extend((0..[0, 300][turn % 2]).map(|length| vec![b'a'; length]));
        let haystack = dice.bytes(b"aaaaaaaaaaaaaaaaaaaaaaaaab", [60_000, 400][turn % 2]);
        let plain = Plain { patterns: &patterns, kind: Standard, ignore_case: false };
        let searcher = AhoCorasick::new(&patterns).unwrap();
        let start = dice.below(haystack.len() + 1);
        let listed = searcher.find_overlapping_iter(Input::new(&haystack).range(start..));
        let listed: Vec<_> = listed.map(|it| (it.pattern().as_usize(), it.start(), it.end())).collect();
        assert!(listed == plain.occurrences(&haystack, start, haystack.len(), false), "{turn}");
    }
}

#[test]
fn random_calls_on_few_letters() {
    let mut dice = Dice(20261126);
    for _ in 0..6_000 {
        compare(&mut dice, b"ab", 12);
    }
}

#[test]
fn random_calls_on_all_kinds_of_bytes() {
    let mut dice = Dice(61621);
    for _ in 0..6_000 {
        compare(&mut dice, b"aAbB\0\xC3\xA9\xFFz", 40);
    }
}

#[test]
fn overlapping_matches_across_parts() {
    let mut dice = Dice(991);
    for _ in 0..150 {
        let patterns: Vec<_> = (0..1 + dice.below(8)).map(|_| dice.bytes(b"ab", 40)).collect();
        let haystack: Vec<u8> = (0..dice.below(3_000)).map(|_| b"aaab"[dice.below(4)]).collect();
        let plain = Plain { patterns: &patterns, kind: Standard, ignore_case: false };
        let searcher = AhoCorasick::new(&patterns).unwrap();
        let start = dice.below(haystack.len() + 1);
        let end = start + dice.below(haystack.len() - start + 1);
        let input = Input::new(&haystack).range(start..end);
        let (mut state, mut found) = (OverlappingState::start(), vec![]);
        while let Some(it) = {
            searcher.find_overlapping(input.clone(), &mut state);
            state.get_match()
        } {
            found.push((it.pattern().as_usize(), it.start(), it.end()));
        }
        assert_eq!(found, plain.occurrences(&haystack, start, end, false), "{patterns:?}");
        assert!(searcher.find_overlapping_iter(input).count() == found.len());
    }
}
