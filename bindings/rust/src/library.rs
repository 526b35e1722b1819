//! Safe calls of the functions of the C library. This is the only file with unsafe code.
use crate::kinds::AhoCorasickKind;
use crate::primitives::{PatternID, StateID};
use crate::search::{Anchored, Input, Match, MatchKind, StartKind};
use std::{ffi::c_void, marker::PhantomData, ptr};

#[repr(C)]
struct CsSearcher {
    full: bool,
    at: *mut c_void,
}

#[repr(C)]
struct CsStream {
    full: bool,
    at: *mut c_void,
}

#[repr(C)]
struct CsSlice {
    at: *const u8,
    len: usize,
}

#[repr(C)]
struct CsOptions {
    size: u32,
    match_kind: u32,
    start_kind: u32,
    ignore_case: bool,
    prefilter: bool,
    automaton: u32,
    max_index: usize,
    max_pattern: usize,
    max_len: usize,
    later: [u64; 4],
}

#[repr(C)]
#[derive(Clone, Copy, Default)]
struct CsError {
    status: u32,
    option: u32,
    pattern: usize,
    requested: u64,
    max: u64,
}

#[repr(C)]
#[derive(Clone, Copy, Default)]
struct CsMatch {
    pattern: usize,
    start: usize,
    end: usize,
}

/// The settings of a searcher.
pub(crate) struct Wishes {
    pub(crate) match_kind: MatchKind,
    pub(crate) start_kind: StartKind,
    pub(crate) ignore_case: bool,
    pub(crate) prefilter: bool,
    pub(crate) kind: Option<AhoCorasickKind>,
}

/// The facts about a searcher: the number of its patterns, the lengths of the shortest and of the
/// longest one, and its memory in bytes.
#[repr(C)]
#[derive(Clone, Copy, Debug, Default)]
pub(crate) struct Facts {
    pub(crate) patterns: usize,
    pub(crate) min_len: usize,
    pub(crate) max_len: usize,
    pub(crate) memory: usize,
}

/// The facts about a state of an automaton.
#[repr(C)]
#[derive(Clone, Copy, Debug, Default)]
pub(crate) struct State {
    pub(crate) is_dead: bool,
    pub(crate) is_match: bool,
    pub(crate) is_start: bool,
    pub(crate) is_special: bool,
    pub(crate) patterns: usize,
}

#[rustfmt::skip]
extern "C" {
    fn cs_version() -> u32;
    fn cs_try_build(patterns: *const CsSlice, patterns_len: usize, options: *const CsOptions, out: *mut CsSearcher,
        error: *mut CsError) -> u32;
    fn cs_error_text(error: *const CsError, room: *mut u8, room_len: usize, len: *mut usize) -> u32;
    fn cs_free(searcher: *mut CsSearcher);
    fn cs_share(searcher: *mut CsSearcher, out: *mut CsSearcher) -> u32;
    fn cs_is_match(searcher: *mut CsSearcher, haystack: *const u8, haystack_len: usize) -> u32;
    fn cs_search(searcher: *mut CsSearcher, haystack: *const u8, haystack_len: usize, start: usize, end: usize, anchored: bool,
        earliest: bool, found: *mut CsMatch) -> u32;
    fn cs_overlapping(searcher: *mut CsSearcher, haystack: *const u8, haystack_len: usize, room: *mut CsMatch, room_len: usize,
        count: *mut usize) -> u32;
    fn cs_replace_all(searcher: *mut CsSearcher, haystack: *const u8, haystack_len: usize, replace_with: *const CsSlice,
        replace_with_len: usize, room: *mut u8, room_len: usize, len: *mut usize) -> u32;
    fn cs_cover_all(searcher: *mut CsSearcher, haystack: *const u8, haystack_len: usize, replace_with: *const CsSlice,
        replace_with_len: usize, room: *mut u8, room_len: usize, len: *mut usize) -> u32;
    fn cs_forms(secret: *const u8, secret_len: usize, forms: u32, room: *mut u8, room_len: usize, ends: *mut usize, ends_len: usize,
        len: *mut usize, count: *mut usize) -> u32;
    fn cs_info(searcher: *mut CsSearcher, out: *mut Facts) -> u32;
    fn cs_start_state(searcher: *mut CsSearcher, anchored: bool, state: *mut u32) -> u32;
    fn cs_next_state(searcher: *mut CsSearcher, anchored: bool, state: u32, byte: u8, next: *mut u32) -> u32;
    fn cs_state_is(searcher: *mut CsSearcher, state: u32, out: *mut State) -> u32;
    fn cs_match_pattern(searcher: *mut CsSearcher, state: u32, index: usize, pattern: *mut usize) -> u32;
    fn cs_stream_new(searcher: *mut CsSearcher, out: *mut CsStream) -> u32;
    fn cs_stream_push(stream: *mut CsStream, bytes: *const u8, bytes_len: usize, taken: *mut usize) -> u32;
    fn cs_stream_next(stream: *mut CsStream, found: *mut CsMatch) -> u32;
    fn cs_stream_replace(stream: *mut CsStream, replace_with: *const CsSlice, replace_with_len: usize, room: *mut u8, room_len: usize,
        len: *mut usize) -> u32;
    fn cs_stream_end(stream: *mut CsStream) -> u32;
    fn cs_stream_free(stream: *mut CsStream);
}

/// A function that writes a haystack with replacements.
type Writes = unsafe extern "C" fn(*mut CsSearcher, *const u8, usize, *const CsSlice, usize, *mut u8, usize, *mut usize) -> u32;

const DONE: u32 = 0;
const FOUND: u32 = 1;
const NO_MEMORY: u32 = 5;
const NO_ROOM: u32 = 11;
const TOO_SHORT: u32 = 15;

pub(crate) fn version() -> u32 {
    // SAFETY: it has no parameters.
    unsafe { cs_version() }
}

/// Returns the patterns of a secret in the forms of these bits, or `None` if it has fewer than four
/// bytes.
pub(crate) fn forms(secret: &[u8], bits: u32) -> Option<Vec<Vec<u8>>> {
    let (mut room, mut ends) = (vec![0; 144 * secret.len() + 64], vec![0; 128]); // enough for most
    loop {
        let (mut len, mut count) = (0, 0);
        // SAFETY: the secret is borrowed for the call, and the lengths of the buffers are true.
        let status = unsafe {
            cs_forms(
                secret.as_ptr(),
                secret.len(),
                bits,
                room.as_mut_ptr(),
                room.len(),
                ends.as_mut_ptr(),
                ends.len(),
                &mut len,
                &mut count,
            )
        };
        match status {
            DONE => {
                let begins = std::iter::once(0).chain(ends.iter().copied());
                return Some(begins.zip(&ends[..count]).map(|(begin, &end)| room[begin..end].to_vec()).collect());
            }
            TOO_SHORT => return None,
            NO_ROOM => (room, ends) = (vec![0; len], vec![0; count]),
            NO_MEMORY => panic!("out of memory"),
            status => panic!("the library returned {status} for forms"),
        }
    }
}

/// Byte strings in the form that the library accepts.
pub(crate) struct Pieces<'p> {
    slices: Vec<CsSlice>,
    of: PhantomData<&'p [u8]>,
}

impl<'p> Pieces<'p> {
    /// Borrows the bytes of each item once: a type of the caller may return other bytes later.
    pub(crate) fn of<B: AsRef<[u8]>>(items: &'p [B]) -> Pieces<'p> {
        let slices = items.iter().map(AsRef::as_ref).map(|item| CsSlice { at: item.as_ptr(), len: item.len() }).collect();
        Pieces { slices, of: PhantomData }
    }

    /// Returns the length of each in bytes.
    pub(crate) fn lens(&self) -> Vec<usize> {
        self.slices.iter().map(|it| it.len).collect()
    }
}

fn match_of(found: CsMatch, offset: usize) -> Match {
    Match::new(PatternID::new_unchecked(found.pattern), offset + found.start..offset + found.end)
}

/// Returns the text of a build error.
fn text_of(error: &CsError) -> String {
    let (mut room, mut len) = ([0; 256], 0);
    // SAFETY: the length of the buffer is true.
    match unsafe { cs_error_text(error, room.as_mut_ptr(), room.len(), &mut len) } {
        DONE => String::from_utf8_lossy(&room[..len]).into_owned(),
        NO_MEMORY => String::from("out of memory"),
        status => panic!("the library returned {status} for an error"),
    }
}

/// A handle of a searcher. One call at a time uses it.
pub(crate) struct Handle(CsSearcher);

// SAFETY: any thread may use a handle, one call at a time, and each call takes it by `&mut`.
unsafe impl Send for Handle {}
// SAFETY: no function is called through a shared reference.
unsafe impl Sync for Handle {}

impl Drop for Handle {
    fn drop(&mut self) {
        // SAFETY: the library made the handle, and nothing uses it any more.
        unsafe { cs_free(&mut self.0) }
    }
}

impl Handle {
    fn none() -> Handle {
        Handle(CsSearcher { full: false, at: ptr::null_mut() })
    }

    /// Builds a searcher for the patterns, or returns the text of the error.
    pub(crate) fn build(patterns: &Pieces<'_>, wishes: &Wishes) -> Result<Handle, String> {
        let patterns = &patterns.slices;
        let match_kind = match wishes.match_kind {
            MatchKind::Standard => 0,
            MatchKind::LeftmostFirst => 1,
            MatchKind::LeftmostLongest => 2,
        };
        let start_kind = match wishes.start_kind {
            StartKind::Unanchored => 0,
            StartKind::Anchored => 1,
            StartKind::Both => 2,
        };
        let automaton = match wishes.kind {
            None => 0,
            Some(AhoCorasickKind::NoncontiguousNFA) => 1,
            Some(AhoCorasickKind::ContiguousNFA | AhoCorasickKind::DFA) => 2,
        };
        let (ignore_case, prefilter, limit) = (wishes.ignore_case, wishes.prefilter, usize::MAX);
        let size = std::mem::size_of::<CsOptions>() as u32;
        let (max_index, max_pattern, max_len) = (limit, limit, limit);
        let options =
            CsOptions { size, match_kind, start_kind, ignore_case, prefilter, automaton, max_index, max_pattern, max_len, later: [0; 4] };
        let (mut handle, mut error) = (Handle::none(), CsError::default());
        // SAFETY: the slices are borrowed for the call, which keeps none of them, and the handle is
        // initialised.
        match unsafe { cs_try_build(patterns.as_ptr(), patterns.len(), &options, &mut handle.0, &mut error) } {
            DONE => Ok(handle),
            _ => Err(text_of(&error)),
        }
    }

    /// Returns another handle of the same searcher, or `None` if memory ran out.
    pub(crate) fn share(&mut self) -> Option<Handle> {
        let mut other = Handle::none();
        // SAFETY: both are handles, and they differ.
        (unsafe { cs_share(&mut self.0, &mut other.0) } == DONE).then(|| other)
    }

    /// Returns whether a pattern occurs in the haystack. The searcher supports unanchored searches.
    pub(crate) fn is_match(&mut self, haystack: &[u8]) -> bool {
        // SAFETY: the haystack is borrowed for the call.
        unsafe { cs_is_match(&mut self.0, haystack.as_ptr(), haystack.len()) == FOUND }
    }

    /// Returns the match of a search. The searcher supports it, and its span does not start after
    /// its end.
    pub(crate) fn search(&mut self, input: &Input<'_>) -> Option<Match> {
        let (haystack, mut found) = (input.haystack(), CsMatch::default());
        let anchored = input.get_anchored() == Anchored::Yes;
        // SAFETY: the haystack is borrowed for the call, and the library checks the span.
        let status = unsafe {
            cs_search(
                &mut self.0,
                haystack.as_ptr(),
                haystack.len(),
                input.start(),
                input.end(),
                anchored,
                input.get_earliest(),
                &mut found,
            )
        };
        (status == FOUND).then(|| match_of(found, 0))
    }

    /// Returns all matches of the haystack, including overlapping ones, each moved to the right by
    /// the offset. The match kind is standard, and the searcher supports unanchored searches.
    pub(crate) fn overlapping(&mut self, haystack: &[u8], offset: usize) -> Vec<Match> {
        let mut room = vec![CsMatch::default(); 64 + haystack.len() / 256];
        loop {
            let mut count = 0;
            // SAFETY: the length of the buffer is true, and its elements are initialised.
            let status =
                unsafe { cs_overlapping(&mut self.0, haystack.as_ptr(), haystack.len(), room.as_mut_ptr(), room.len(), &mut count) };
            assert_eq!(status, DONE, "the library returned {status} for an overlapping search");
            if count <= room.len() {
                return room[..count].iter().map(|&found| match_of(found, offset)).collect();
            }
            room = vec![CsMatch::default(); count];
        }
    }

    /// Returns the haystack with each match replaced, or `None` if memory ran out. There is one
    /// replacement for each pattern, and the searcher supports unanchored searches.
    pub(crate) fn replace_all(&mut self, haystack: &[u8], replace_with: &Pieces<'_>) -> Option<Vec<u8>> {
        self.written(haystack, replace_with, cs_replace_all)
    }

    /// Returns the haystack with each run of matched bytes replaced, or `None` if memory ran out.
    /// There is one replacement for each pattern, no pattern is empty, the match kind is standard,
    /// and the searcher supports unanchored searches.
    pub(crate) fn cover_all(&mut self, haystack: &[u8], replace_with: &Pieces<'_>) -> Option<Vec<u8>> {
        self.written(haystack, replace_with, cs_cover_all)
    }

    /// Returns what one of two functions of the library writes for the haystack.
    fn written(&mut self, haystack: &[u8], replace_with: &Pieces<'_>, function: Writes) -> Option<Vec<u8>> {
        let pieces = &replace_with.slices;
        let mut room = vec![0; haystack.len()];
        loop {
            let mut len = 0;
            // SAFETY: haystack and replacements are borrowed for the call, and the length of the
            // buffer is true.
            let status = unsafe {
                function(
                    &mut self.0,
                    haystack.as_ptr(),
                    haystack.len(),
                    pieces.as_ptr(),
                    pieces.len(),
                    room.as_mut_ptr(),
                    room.len(),
                    &mut len,
                )
            };
            match status {
                DONE => {
                    room.truncate(len);
                    return Some(room);
                }
                NO_ROOM => room = vec![0; len],
                NO_MEMORY => return None,
                status => panic!("the library returned {status} for a replacement"),
            }
        }
    }

    /// Returns the facts about the searcher.
    pub(crate) fn facts(&mut self) -> Facts {
        let mut facts = Facts::default();
        // SAFETY: it writes only the facts.
        let status = unsafe { cs_info(&mut self.0, &mut facts) };
        assert_eq!(status, DONE, "the library returned {status} for a question");
        facts
    }

    /// Returns a stream of the searcher, or the status of the error.
    pub(crate) fn stream(&mut self) -> Result<Stream, u32> {
        let mut stream = Stream(CsStream { full: false, at: ptr::null_mut() });
        // SAFETY: both are handles.
        match unsafe { cs_stream_new(&mut self.0, &mut stream.0) } {
            DONE => Ok(stream),
            status => Err(status),
        }
    }
}

/// The states of a searcher's automaton. The library does not check the number of a state, so only
/// numbers that it returned before are given to it.
pub(crate) struct States {
    handle: Handle,
    /// One bit for each number, from the lowest bit of the first word: whether it was returned.
    told: Vec<u64>,
}

impl States {
    pub(crate) fn of(handle: Handle) -> States {
        States { handle, told: Vec::new() }
    }

    fn tell(&mut self, state: u32) -> StateID {
        let word = state as usize / 64;
        if word >= self.told.len() {
            self.told.resize(word + 1, 0);
        }
        self.told[word] |= 1 << (state % 64);
        StateID::new_unchecked(state as usize)
    }

    /// Returns the number of a state. Panics if the library never returned it.
    fn known(&self, state: StateID) -> u32 {
        let number = state.as_u32();
        let word = self.told.get(number as usize / 64).copied().unwrap_or(0);
        assert!(word >> (number % 64) & 1 == 1, "the automaton never returned {state:?}");
        number
    }

    /// Returns the state in which a search begins. The searcher supports searches with this
    /// anchoring.
    pub(crate) fn start(&mut self, anchored: bool) -> StateID {
        let mut state = 0;
        // SAFETY: it writes only the state.
        let status = unsafe { cs_start_state(&mut self.handle.0, anchored, &mut state) };
        assert_eq!(status, DONE, "the library returned {status} for a start");
        self.tell(state)
    }

    /// Returns the state after a byte.
    pub(crate) fn next(&mut self, anchored: bool, state: StateID, byte: u8) -> StateID {
        let (state, mut next) = (self.known(state), 0);
        // SAFETY: the library returned the state for this searcher.
        let status = unsafe { cs_next_state(&mut self.handle.0, anchored, state, byte, &mut next) };
        assert_eq!(status, DONE, "the library returned {status} for a step");
        self.tell(next)
    }

    /// Returns the facts about a state.
    pub(crate) fn told(&mut self, state: StateID) -> State {
        let (state, mut told) = (self.known(state), State::default());
        // SAFETY: as for a step.
        let status = unsafe { cs_state_is(&mut self.handle.0, state, &mut told) };
        assert_eq!(status, DONE, "the library returned {status} for a question");
        told
    }

    /// Returns the pattern at an index of a state's list, or `None` if the list is shorter.
    pub(crate) fn match_pattern(&mut self, state: StateID, index: usize) -> Option<PatternID> {
        let (state, mut pattern) = (self.known(state), 0);
        // SAFETY: as for a step.
        let status = unsafe { cs_match_pattern(&mut self.handle.0, state, index, &mut pattern) };
        (status == DONE).then(|| PatternID::new_unchecked(pattern))
    }

    pub(crate) fn memory_usage(&self) -> usize {
        self.told.len() * std::mem::size_of::<u64>()
    }
}

/// A stream whose bytes are pushed.
pub(crate) struct Stream(CsStream);

// SAFETY: as for a `Handle`.
unsafe impl Send for Stream {}
// SAFETY: as for a `Handle`.
unsafe impl Sync for Stream {}

impl Drop for Stream {
    fn drop(&mut self) {
        // SAFETY: the library made the handle, and nothing uses it any more.
        unsafe { cs_stream_free(&mut self.0) }
    }
}

impl Stream {
    /// Pushes bytes, and returns how many the stream accepted, or `None` if it has ended or is too
    /// long.
    pub(crate) fn push(&mut self, bytes: &[u8]) -> Option<usize> {
        let mut taken = 0;
        // SAFETY: the bytes are borrowed for the call.
        (unsafe { cs_stream_push(&mut self.0, bytes.as_ptr(), bytes.len(), &mut taken) } == DONE).then(|| taken)
    }

    /// Returns the next certain match, with its offsets in the stream.
    pub(crate) fn next_match(&mut self) -> Option<Match> {
        let mut found = CsMatch::default();
        // SAFETY: it writes only the match.
        (unsafe { cs_stream_next(&mut self.0, &mut found) } == FOUND).then(|| match_of(found, 0))
    }

    /// Writes the next certain part of the result to the buffer, and returns its length. A buffer
    /// that is too small grows. There is one replacement for each pattern.
    pub(crate) fn replace(&mut self, pieces: &Pieces<'_>, room: &mut Vec<u8>) -> Option<usize> {
        loop {
            let (slices, mut len) = (&pieces.slices, 0);
            // SAFETY: the replacements are borrowed for the call, and the length of the buffer is
            // true.
            let status = unsafe { cs_stream_replace(&mut self.0, slices.as_ptr(), slices.len(), room.as_mut_ptr(), room.len(), &mut len) };
            match status {
                FOUND => return Some(len),
                DONE => return None,
                NO_ROOM => *room = vec![0; len],
                status => panic!("the library returned {status} for a replacement"),
            }
        }
    }

    /// Ends the stream.
    pub(crate) fn end(&mut self) {
        // SAFETY: the library made the handle.
        unsafe { cs_stream_end(&mut self.0) };
    }
}

#[cfg(test)]
mod tests {
    use super::*;

    #[test]
    fn texts_of_errors() {
        let error = |status| CsError { status, option: 0, pattern: 4, requested: 1 << 31, max: 2147483646 };
        for (status, text) in [
            (5, "out of memory"),
            (7, "state identifier overflow: failed to create state ID from 2147483648, which exceeds the max of 2147483646"),
            (8, "pattern identifier overflow: failed to create pattern ID from 2147483648, which exceeds the max of 2147483646"),
            (9, "pattern 4 with length 2147483648 exceeds the maximum pattern length of 2147483646"),
        ] {
            assert_eq!(text_of(&error(status)), text);
        }
    }
}
