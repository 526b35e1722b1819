//! The encoded forms in which a secret can appear in a log.
use crate::error::BuildError;
use crate::library;
use std::{error::Error, fmt};

/// How a secret is encoded.
#[derive(Clone, Copy, Debug, PartialEq, Eq, Hash)]
pub enum Form {
    /// Inside base64, with the standard alphabet and with the URL-safe one.
    Base64 = 1,
    /// As hexadecimal digits.
    Hex = 2,
    /// Percent-encoded.
    Url = 4,
    /// Escaped in a JSON string.
    Json = 8,
    /// Escaped in XML or HTML.
    Xml = 16,
    /// Quoted for a shell.
    Shell = 32,
    /// Each line of at least eight bytes of a secret that has several lines.
    Lines = 64,
}

impl Form {
    /// All forms.
    pub const ALL: [Form; 7] = [Form::Base64, Form::Hex, Form::Url, Form::Json, Form::Xml, Form::Shell, Form::Lines];
}

/// The reason why there are no forms or no `Redactor`. It has the number of the secret, never its
/// bytes.
#[derive(Clone, Debug, PartialEq, Eq)]
#[non_exhaustive]
pub enum FormError {
    /// The secret with this number has fewer than four bytes, and therefore no forms.
    TooShort(usize),
    /// The secret with this number is empty.
    Empty(usize),
    /// The searcher for the patterns could not be built.
    Build(BuildError),
}

impl fmt::Display for FormError {
    fn fmt(&self, to: &mut fmt::Formatter<'_>) -> fmt::Result {
        match self {
            FormError::TooShort(number) => write!(to, "secret {number} has fewer than four bytes, and so no forms"),
            FormError::Empty(number) => write!(to, "secret {number} is empty"),
            FormError::Build(error) => error.fmt(to),
        }
    }
}

impl Error for FormError {}

/// Returns the patterns that find a secret in some encoded forms, each pattern once. If the secret
/// appears in a text in one of the forms, by itself or inside other encoded bytes, each character
/// that contains a bit of it is part of an occurrence of a pattern.
///
/// A secret of fewer than four bytes is an error, which calls it secret 0.
///
/// ```
/// use chromesquid::{secret_forms, Form};
///
/// assert_eq!(secret_forms("key/+", &[Form::Hex]).unwrap(), [b"6b65792f2b", b"6B65792F2B"]);
/// ```
pub fn secret_forms<S: AsRef<[u8]>>(secret: S, forms: &[Form]) -> Result<Vec<Vec<u8>>, FormError> {
    let bits = forms.iter().fold(0, |bits, &form| bits | form as u32);
    library::forms(secret.as_ref(), bits).ok_or(FormError::TooShort(0))
}
