//! Prints what it found, and how much the crate below found by the same library.
use aho_corasick::{
    automaton::{Automaton, OverlappingState},
    nfa::noncontiguous::NFA,
    packed, AhoCorasick, Input, Match, MatchKind,
};

fn main() -> Result<(), Box<dyn std::error::Error>> {
    let searcher = AhoCorasick::builder().match_kind(MatchKind::LeftmostFirst).build(["samwise", "sam"])?;
    let found: Option<Match> = searcher.find("a samwise");
    let packed = packed::Searcher::new(["sam"]).ok_or("no searcher")?.find("sam").map(|it| it.range());
    assert!(OverlappingState::start().get_match().is_none());
    assert_eq!(NFA::new(["wise"])?.try_find(&Input::new("a samwise"))?, Some(Match::must(0, 5..9)));
    println!("{found:?} {packed:?} {}", globs::count(&["a", "b"], "aabc")?);
    Ok(())
}
