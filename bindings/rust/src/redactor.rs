//! Removes secrets from texts and streams.
use crate::forms::{secret_forms, Form, FormError};
use crate::searcher::AhoCorasick;
use std::{
    collections::HashSet,
    fmt,
    io::{self, ErrorKind, Read, Write},
};

const CHUNK: usize = 64 * 1024;

/// Replaces secrets and their encoded forms in texts and streams. Occurrences that overlap or touch
/// are one run, and each run is replaced as a whole, so no byte of an occurrence remains. Clones
/// share its memory, and any number of threads may use it at the same time.
///
/// ```
/// use chromesquid::{Form, Redactor};
///
/// let redactor = Redactor::new(["key/+", "pass word"], &Form::ALL).unwrap();
/// assert_eq!(redactor.text("Basic dTprZXkvKw== key%2F%2B pass+word"), "Basic dT[redacted]== [redacted] [redacted]");
/// ```
///
/// Other encodings of a secret are not found, for example compression, or base64 with line breaks.
#[derive(Clone)]
pub struct Redactor {
    searcher: AhoCorasick,
    replacement: Vec<u8>,
    secrets: usize,
    /// The prefixes of the patterns, of up to four bytes.
    begins: HashSet<Vec<u8>>,
}

impl Redactor {
    /// Returns a redactor that replaces the secrets and their forms by `[redacted]`.
    ///
    /// Fails if a secret is empty, or if there are forms and a secret has fewer than four bytes.
    pub fn new<I, S>(secrets: I, forms: &[Form]) -> Result<Redactor, FormError>
    where
        I: IntoIterator<Item = S>,
        S: AsRef<[u8]>,
    {
        let (mut patterns, mut count) = (Vec::new(), 0);
        for secret in secrets {
            let secret = secret.as_ref();
            if secret.is_empty() {
                return Err(FormError::Empty(count));
            }
            patterns.push(secret.to_vec());
            if !forms.is_empty() {
                patterns.append(&mut secret_forms(secret, forms).map_err(|_| FormError::TooShort(count))?);
            }
            count += 1;
        }
        let begins = patterns.iter().flat_map(|it| (1..=it.len().min(4)).map(|count| it[..count].to_vec())).collect();
        let searcher = AhoCorasick::new(&patterns).map_err(FormError::Build)?;
        Ok(Redactor { searcher, replacement: b"[redacted]".to_vec(), secrets: count, begins })
    }

    /// Sets the replacement of each run. Together with the bytes next to it, a replacement can
    /// spell out a secret. It should not be empty, or similar to a part of a secret:
    ///
    /// ```
    /// let redactor = chromesquid::Redactor::new(["abcd"], &[]).unwrap().replacement("");
    /// assert_eq!(redactor.text("ababcdcd"), "abcd");
    /// ```
    pub fn replacement<R: AsRef<[u8]>>(mut self, replacement: R) -> Redactor {
        self.replacement = replacement.as_ref().to_vec();
        self
    }

    /// Returns the text with each run replaced. A character that a secret cuts in two becomes
    /// U+FFFD.
    pub fn text(&self, text: &str) -> String {
        match String::from_utf8(self.bytes(text.as_bytes())) {
            Ok(covered) => covered,
            Err(cut) => String::from_utf8_lossy(cut.as_bytes()).into_owned(),
        }
    }

    /// Returns the bytes with each run replaced.
    pub fn bytes(&self, bytes: &[u8]) -> Vec<u8> {
        if self.searcher.is_match(bytes) {
            self.searcher.cover_all(bytes, &vec![&self.replacement; self.searcher.patterns_len()])
        } else {
            bytes.to_vec()
        }
    }

    /// Writes the bytes of the reader with each run replaced, and flushes the writer at the end.
    /// Bytes are written as soon as they cannot belong to a secret that is still incomplete.
    ///
    /// If the reader or the writer fails, even with `WouldBlock`, the bytes that were read and not
    /// written are lost. **Do not continue with a second call**: if the first call held the start
    /// of a secret, the second would write the rest of it.
    pub fn stream<R: Read, W: Write>(&self, mut reader: R, mut writer: W) -> io::Result<()> {
        let mut chunk = vec![0; CHUNK];
        let mut covering = Covering { redactor: self, held: Vec::new(), is_open: false, upto: 0 };
        loop {
            match reader.read(&mut chunk) {
                Ok(0) => {
                    covering.tell(covering.held.len(), &mut writer)?;
                    return writer.flush();
                }
                Ok(read) => {
                    covering.held.extend_from_slice(&chunk[..read]);
                    covering.tell(covering.settled(), &mut writer)?;
                }
                Err(error) if error.kind() == ErrorKind::Interrupted => {}
                Err(error) => return Err(error),
            }
        }
    }
}

impl fmt::Debug for Redactor {
    fn fmt(&self, to: &mut fmt::Formatter<'_>) -> fmt::Result {
        to.debug_struct("Redactor").field("secrets", &self.secrets).finish_non_exhaustive()
    }
}

/// The progress of a redacted stream.
struct Covering<'r> {
    redactor: &'r Redactor,
    /// The bytes that are not written yet.
    held: Vec<u8>,
    /// Whether a run whose replacement was written continues in them, and its end as far as it is
    /// known.
    is_open: bool,
    upto: usize,
}

impl Covering<'_> {
    /// Returns the offset before which no incomplete occurrence begins.
    fn settled(&self) -> usize {
        let (held, redactor) = (&self.held, self.redactor);
        let first = (held.len() + 1).saturating_sub(redactor.searcher.max_pattern_len());
        (first..held.len()).find(|&at| redactor.begins.contains(&held[at..held.len().min(at + 4)])).unwrap_or(held.len())
    }

    /// Writes the bytes before that offset, with each run replaced.
    fn tell<W: Write>(&mut self, settled: usize, writer: &mut W) -> io::Result<()> {
        let mut found: Vec<_> = self.redactor.searcher.overlapping_in(&self.held, 0).iter().map(|it| (it.start(), it.end())).collect();
        found.sort_unstable();
        for (start, end) in found.into_iter().take_while(|&(start, _)| start < settled) {
            if !self.is_open || start > self.upto {
                writer.write_all(&self.held[self.upto..start])?;
                writer.write_all(&self.redactor.replacement)?;
            }
            (self.is_open, self.upto) = (true, self.upto.max(end));
        }
        if self.upto < settled {
            writer.write_all(&self.held[self.upto..settled])?;
            (self.is_open, self.upto) = (false, settled);
        }
        self.held.drain(..settled);
        self.upto -= settled;
        Ok(())
    }
}
