//! Secrets in their forms: patterns, texts, bytes and streams.
use chromesquid::{secret_forms, Form, FormError, Redactor};
use std::io::{self, BufWriter, ErrorKind, Read, Write};

/// A reader of pieces, each by a call of its own.
struct Pieces(Vec<Vec<u8>>);

impl Read for Pieces {
    fn read(&mut self, room: &mut [u8]) -> io::Result<usize> {
        if self.0.is_empty() {
            return Ok(0);
        }
        let piece = self.0.remove(0);
        room[..piece.len()].copy_from_slice(&piece);
        Ok(piece.len())
    }
}

/// A writer that keeps what each call wrote.
#[derive(Default)]
struct Parts(Vec<Vec<u8>>);

impl Write for Parts {
    fn write(&mut self, bytes: &[u8]) -> io::Result<usize> {
        self.0.push(bytes.to_vec());
        Ok(bytes.len())
    }

    fn flush(&mut self) -> io::Result<()> {
        Ok(())
    }
}

struct Dice(u64);

impl Dice {
    fn below(&mut self, bound: usize) -> usize {
        self.0 ^= self.0 << 13;
        self.0 ^= self.0 >> 7;
        self.0 ^= self.0 << 17;
        (self.0 >> 11) as usize % bound
    }

    fn bytes(&mut self, letters: &[u8], count: usize) -> Vec<u8> {
        (0..count).map(|_| letters[self.below(letters.len())]).collect()
    }
}

/// Base64 of the standard alphabet, with its padding.
fn base64(bytes: &[u8]) -> String {
    let alphabet = b"ABCDEFGHIJKLMNOPQRSTUVWXYZabcdefghijklmnopqrstuvwxyz0123456789+/";
    let mut text = String::new();
    for group in bytes.chunks(3) {
        let bits = group.iter().fold(0, |bits, &byte| bits << 8 | usize::from(byte)) << (8 * (3 - group.len()));
        for at in 0..4 {
            text.push(if at <= group.len() { char::from(alphabet[bits >> (18 - 6 * at) & 63]) } else { '=' });
        }
    }
    text
}

#[test]
fn the_patterns_of_a_secret() {
    assert_eq!(secret_forms("key/+", &[Form::Hex]).unwrap(), [b"6b65792f2b", b"6B65792F2B"]);
    assert_eq!(secret_forms("first line\nsecond line", &[Form::Lines]).unwrap(), [&b"first line"[..], b"second line"]);
    let lines: Vec<_> = (0..300).map(|it| format!("line number {it}")).collect();
    assert_eq!(secret_forms(lines.join("\n"), &[Form::Lines]).unwrap(), lines.iter().map(|it| it.as_bytes()).collect::<Vec<_>>());
    assert_eq!(secret_forms(b"key+", &[]).unwrap(), Vec::<Vec<u8>>::new());
    assert_eq!(secret_forms("key", &Form::ALL), Err(FormError::TooShort(0)));
    let each: Vec<_> = Form::ALL.iter().flat_map(|&form| secret_forms("key \"+", &[form]).unwrap()).collect();
    let all = secret_forms("key \"+", &Form::ALL).unwrap();
    assert!(all.len() > 20 && all.iter().all(|it| each.contains(it)) && each.iter().all(|it| all.contains(it)));
}

#[test]
fn what_is_refused_is_told_by_its_number() {
    let error = Redactor::new(["swordfish", "key"], &[Form::Hex]).unwrap_err();
    assert_eq!(
        (error.clone(), error.to_string().as_str()),
        (FormError::TooShort(1), "secret 1 has fewer than four bytes, and so no forms")
    );
    let error = Redactor::new(["swordfish", ""], &[]).unwrap_err();
    assert_eq!((error.clone(), error.to_string().as_str()), (FormError::Empty(1), "secret 1 is empty"));
    assert_eq!(Redactor::new(["key"], &[]).unwrap().text("a key"), "a [redacted]");
    assert_eq!(Redactor::new(Vec::<&str>::new(), &Form::ALL).unwrap().text("a key"), "a key");
    assert_eq!(format!("{:?}", Redactor::new(["swordfish"], &[]).unwrap()), "Redactor { secrets: 1, .. }");
}

#[test]
fn texts_and_bytes() {
    let redactor = Redactor::new([&b"sword/fish"[..], b"\xA9tude"], &Form::ALL).unwrap().replacement("*");
    assert_eq!(redactor.text("a sword/fishword/fish sword%2Ffish"), "a *word/fish *");
    assert_eq!(redactor.text("\u{e9}tude"), "\u{fffd}*");
    assert_eq!(redactor.bytes(b"sword/fishsword/fish \xFF"), b"* \xFF");
    assert_eq!(redactor.bytes(b""), b"");
}

#[test]
fn base64_at_each_shift() {
    let mut dice = Dice(7);
    for _ in 0..2000 {
        let (count, before, after) = (4 + dice.below(16), dice.below(6), dice.below(6));
        let secret = dice.bytes(&(0..=255).filter(|it| !b"xyz".contains(it)).collect::<Vec<_>>(), count);
        let whole = [dice.bytes(b"xyz", before), secret.clone(), dice.bytes(b"xyz", after)].concat();
        let (encoded, first, last) = (base64(&whole), 8 * before / 6, (8 * (before + count) + 5) / 6);
        let redactor = Redactor::new([secret], &[Form::Base64]).unwrap().replacement("*");
        assert_eq!(redactor.text(&encoded), format!("{}*{}", &encoded[..first], &encoded[last..]), "{whole:?}");
    }
}

#[test]
fn streams_are_covered_as_a_whole_is() {
    let mut dice = Dice(11);
    for turn in 0..20000 {
        let secrets: Vec<_> = (0..dice.below(4)).map(|_| 1 + dice.below(5)).collect();
        let secrets: Vec<_> = secrets.into_iter().map(|count| dice.bytes(b"ab", count)).collect();
        let redactor = Redactor::new(&secrets, &[]).unwrap().replacement(if turn % 3 == 0 { "" } else { "-" });
        let pieces: Vec<_> = (0..dice.below(6)).map(|_| 1 + dice.below(8)).collect();
        let pieces: Vec<_> = pieces.into_iter().map(|count| dice.bytes(b"aabc", count)).collect();
        let (mut there, whole) = (Vec::new(), pieces.concat());
        redactor.stream(Pieces(pieces.clone()), &mut there).unwrap();
        assert_eq!(there, redactor.bytes(&whole), "{secrets:?} {pieces:?}");
    }
}

#[test]
fn a_stream_is_written_as_it_comes() {
    let redactor = Redactor::new(["swordfish"], &[]).unwrap();
    let mut there = Parts::default();
    let pieces = [&b"a line\n"[..], b"a sw", b"orange sword", b"fish", b"."].map(<[u8]>::to_vec).to_vec();
    redactor.stream(Pieces(pieces), &mut there).unwrap();
    let wanted: [&[u8]; 5] = [b"a line\n", b"a ", b"sworange ", b"[redacted]", b"."];
    assert_eq!(there.0, wanted);
}

/// A writer that is full.
struct Full;

impl Write for Full {
    fn write(&mut self, _part: &[u8]) -> io::Result<usize> {
        Err(io::Error::new(ErrorKind::Other, "it is full"))
    }

    fn flush(&mut self) -> io::Result<()> {
        Ok(())
    }
}

#[test]
fn a_buffer_that_cannot_be_written_is_told() {
    let redactor = Redactor::new(["swordfish"], &[]).unwrap();
    let failure = redactor.stream(&b"a swordfish"[..], BufWriter::new(Full)).unwrap_err();
    assert_eq!(failure.to_string(), "it is full");
}
