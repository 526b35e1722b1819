//! Counts matches by the crate that its Cargo.toml calls aho-corasick.
use aho_corasick::{AhoCorasick, BuildError};

/// How many of the words stand in the text, each match behind the one before.
pub fn count(words: &[&str], text: &str) -> Result<usize, BuildError> {
    Ok(AhoCorasick::new(words)?.find_iter(text).count())
}
