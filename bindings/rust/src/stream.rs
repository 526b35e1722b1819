//! Streams: the matches in the bytes of a reader, and the bytes with the matches replaced.
use crate::error::MatchError;
use crate::library::{Pieces, Stream};
use crate::search::{Anchored, Match, MatchKind};
use crate::searcher::{or_panic, AhoCorasick};
use std::{
    fmt,
    io::{self, ErrorKind, Read, Write},
    ops::Range,
};

const CHUNK: usize = 64 * 1024;

/// A reader whose bytes are pushed into a stream.
struct Source<R> {
    reader: R,
    stream: Stream,
    chunk: Vec<u8>,
    /// The bytes of the chunk that are not pushed yet.
    left: Range<usize>,
    has_ended: bool,
}

/// The next event of a source.
enum Next {
    /// A match that is certain.
    Match(Match),
    /// These bytes of the chunk were pushed.
    Pushed(Range<usize>),
    /// All bytes were read, and all matches were returned.
    End,
}

impl<R: Read> Source<R> {
    fn next(&mut self) -> io::Result<Next> {
        if let Some(found) = self.stream.next_match() {
            return Ok(Next::Match(found));
        }
        Ok(self.push()?.map_or(Next::End, Next::Pushed))
    }

    /// Pushes the next bytes of the reader, or its end. Returns the bytes of the chunk that were
    /// pushed, or `None` if the end was pushed before.
    fn push(&mut self) -> io::Result<Option<Range<usize>>> {
        if self.has_ended {
            return Ok(None);
        }
        if self.left.is_empty() {
            self.left = 0..self.read()?;
            if self.left.is_empty() {
                self.stream.end();
                self.has_ended = true;
                return Ok(Some(0..0));
            }
        }
        let taken =
            self.stream.push(&self.chunk[self.left.clone()]).ok_or_else(|| io::Error::new(ErrorKind::Other, "the stream is too long"))?;
        let pushed = self.left.start..self.left.start + taken;
        self.left.start += taken;
        Ok(Some(pushed))
    }

    fn read(&mut self) -> io::Result<usize> {
        loop {
            match self.reader.read(&mut self.chunk) {
                Err(error) if error.kind() == ErrorKind::Interrupted => continue,
                read => return read,
            }
        }
    }
}

/// An iterator over the matches of a stream. Apart from a buffer, it reads no further than it must
/// to be certain of the next match.
///
/// With the standard kind, a match is certain at its last byte. With the leftmost kinds, it is
/// certain at the first byte after it that rules out every better match, or at the end of the
/// stream. It waits for one more byte even if no better match is possible.
pub struct StreamFindIter<'a, R> {
    source: Source<R>,
    of: std::marker::PhantomData<&'a AhoCorasick>,
}

impl<R: Read> Iterator for StreamFindIter<'_, R> {
    type Item = Result<Match, io::Error>;

    fn next(&mut self) -> Option<Result<Match, io::Error>> {
        loop {
            match self.source.next() {
                Ok(Next::Match(found)) => return Some(Ok(found)),
                Ok(Next::Pushed(_)) => {}
                Ok(Next::End) => return None,
                Err(error) => return Some(Err(error)),
            }
        }
    }
}

impl<R> fmt::Debug for StreamFindIter<'_, R> {
    fn fmt(&self, to: &mut fmt::Formatter<'_>) -> fmt::Result {
        to.debug_struct("StreamFindIter").finish_non_exhaustive()
    }
}

impl AhoCorasick {
    /// Returns the streams of the searcher, with any match kind. The other calls on streams have
    /// the names of the Rust crate and refuse the leftmost kinds, as it does.
    ///
    /// Returns an error if a pattern is empty, or the searcher supports anchored searches only.
    pub fn streams(&self) -> Result<Streams<'_>, MatchError> {
        if self.min_pattern_len() == 0 {
            return Err(MatchError::unsupported_empty());
        }
        self.allows(Anchored::No)?;
        Ok(Streams { searcher: self })
    }

    /// Returns an iterator over the matches in the bytes of a reader: those that `find_iter` finds
    /// in all bytes together.
    ///
    /// Panics if the match kind is not standard, if a pattern is empty, if the searcher supports
    /// anchored searches only, or if memory runs out.
    pub fn stream_find_iter<R: Read>(&self, rdr: R) -> StreamFindIter<'_, R> {
        or_panic(self.try_stream_find_iter(rdr))
    }

    /// Does what `stream_find_iter` does, but returns an error instead of a panic, unless memory
    /// runs out.
    pub fn try_stream_find_iter<R: Read>(&self, rdr: R) -> Result<StreamFindIter<'_, R>, MatchError> {
        self.allows(Anchored::No)?;
        Ok(self.standard_streams()?.find_iter(rdr))
    }

    /// Writes the bytes of a reader with each match replaced by the replacement of its pattern.
    /// After an error, a prefix of the result was written.
    ///
    /// Panics if the number of replacements differs from the number of patterns, and as
    /// `stream_find_iter` does.
    pub fn stream_replace_all<R, W, B>(&self, rdr: R, wtr: W, replace_with: &[B]) -> Result<(), io::Error>
    where
        R: Read,
        W: Write,
        B: AsRef<[u8]>,
    {
        or_panic(self.standard_streams()).replace_all(rdr, wtr, replace_with)
    }

    /// Does what `stream_replace_all` does, but returns an error if the searcher does not support
    /// the search.
    pub fn try_stream_replace_all<R, W, B>(&self, rdr: R, wtr: W, replace_with: &[B]) -> Result<(), io::Error>
    where
        R: Read,
        W: Write,
        B: AsRef<[u8]>,
    {
        self.allows(Anchored::No).map_err(refused)?;
        self.want_one_each(replace_with.len());
        self.standard_streams().map_err(refused)?.replace_all(rdr, wtr, replace_with)
    }

    /// Writes the bytes of a reader, and calls the closure for each match, which writes the
    /// replacement. Panics as `stream_find_iter` does.
    pub fn stream_replace_all_with<R, W, F>(&self, rdr: R, wtr: W, replace_with: F) -> Result<(), io::Error>
    where
        R: Read,
        W: Write,
        F: FnMut(&Match, &[u8], &mut W) -> Result<(), io::Error>,
    {
        or_panic(self.standard_streams()).replace_all_with(rdr, wtr, replace_with)
    }

    /// Does what `stream_replace_all_with` does, but returns an error if the searcher does not
    /// support the search.
    pub fn try_stream_replace_all_with<R, W, F>(&self, rdr: R, wtr: W, replace_with: F) -> Result<(), io::Error>
    where
        R: Read,
        W: Write,
        F: FnMut(&Match, &[u8], &mut W) -> Result<(), io::Error>,
    {
        self.allows(Anchored::No).map_err(refused)?;
        self.standard_streams().map_err(refused)?.replace_all_with(rdr, wtr, replace_with)
    }

    /// Returns the streams if the match kind is standard, as the Rust crate requires.
    pub(crate) fn standard_streams(&self) -> Result<Streams<'_>, MatchError> {
        if self.match_kind() != MatchKind::Standard {
            return Err(MatchError::unsupported_stream(self.match_kind()));
        }
        self.streams()
    }
}

/// Returns the error of a search as an I/O error.
pub(crate) fn refused(error: MatchError) -> io::Error {
    io::Error::new(ErrorKind::Other, error)
}

/// The streams of a searcher of any match kind.
#[derive(Clone, Copy, Debug)]
pub struct Streams<'a> {
    searcher: &'a AhoCorasick,
}

impl<'a> Streams<'a> {
    /// Returns an iterator over the matches in the bytes of a reader: those that `find_iter` finds
    /// in all bytes together. Panics if memory runs out.
    pub fn find_iter<R: Read>(&self, rdr: R) -> StreamFindIter<'a, R> {
        StreamFindIter { source: self.source(rdr), of: std::marker::PhantomData }
    }

    /// Writes the bytes of a reader with each match replaced by the replacement of its pattern.
    /// After an error, a prefix of the result was written.
    ///
    /// Panics if the number of replacements differs from the number of patterns, or memory runs
    /// out.
    pub fn replace_all<R, W, B>(&self, rdr: R, wtr: W, replace_with: &[B]) -> Result<(), io::Error>
    where
        R: Read,
        W: Write,
        B: AsRef<[u8]>,
    {
        self.replace_pieces(self.source(rdr), wtr, replace_with)
    }

    /// Writes the bytes of a reader, and calls the closure for each match, which writes the
    /// replacement. Panics if memory runs out.
    pub fn replace_all_with<R, W, F>(&self, rdr: R, wtr: W, replace_with: F) -> Result<(), io::Error>
    where
        R: Read,
        W: Write,
        F: FnMut(&Match, &[u8], &mut W) -> Result<(), io::Error>,
    {
        self.replace_source(self.source(rdr), wtr, replace_with)
    }

    fn source<R: Read>(&self, reader: R) -> Source<R> {
        Source { reader, stream: self.searcher.stream(), chunk: vec![0; CHUNK], left: 0..0, has_ended: false }
    }

    fn replace_pieces<R: Read, W: Write, B: AsRef<[u8]>>(&self, mut source: Source<R>, mut wtr: W, replace_with: &[B]) -> io::Result<()> {
        self.searcher.want_one_each(replace_with.len());
        let (pieces, mut room) = (Pieces::of(replace_with), vec![0; CHUNK]);
        loop {
            while let Some(len) = source.stream.replace(&pieces, &mut room) {
                wtr.write_all(&room[..len])?;
            }
            if source.push()?.is_none() {
                return Ok(());
            }
        }
    }

    /// Keeps the pushed bytes in which a match may still begin, and writes the rest.
    fn replace_source<R, W, F>(&self, mut source: Source<R>, mut wtr: W, mut replace_with: F) -> io::Result<()>
    where
        R: Read,
        W: Write,
        F: FnMut(&Match, &[u8], &mut W) -> io::Result<()>,
    {
        let mut kept = Vec::new();
        // The offset in the stream of the first kept byte, and how many kept bytes are written.
        let (mut kept_from, mut gone) = (0, 0);
        loop {
            match source.next()? {
                Next::Match(found) => {
                    let (start, end) = (found.start() - kept_from, found.end() - kept_from);
                    wtr.write_all(&kept[gone..start])?;
                    replace_with(&found, &kept[start..end], &mut wtr)?;
                    gone = end;
                }
                Next::Pushed(bytes) => {
                    // A match that is not yet certain begins among the last bytes, at most the
                    // longest pattern before the end.
                    let settled = gone.max(kept.len().saturating_sub(self.searcher.max_pattern_len()));
                    wtr.write_all(&kept[gone..settled])?;
                    kept.drain(..settled);
                    kept_from += settled;
                    gone = 0;
                    kept.extend_from_slice(&source.chunk[bytes]);
                }
                Next::End => return wtr.write_all(&kept[gone..]),
            }
        }
    }
}
