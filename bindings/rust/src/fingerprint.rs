//! The fingerprint of what keys are made by.
use crate::calls;
use std::error::Error;
use std::fmt;
use std::str::FromStr;

/// What keys are made by, in one number: the files, the weighting, the depth, how numbers are compared, and the book if
/// there is one. `uca.h` says what text it is the SHA-256 of.
///
/// It is written as 64 lower-case hexadecimal digits, and read from these. It is what `uca fingerprint` prints.
///
/// ```
/// use uca::Fingerprint;
///
/// let kept = "e7f57a6e4d62231e80b6600c0dd402ad409c5ac624c44f4db1e4265ba4627407";
/// let read: Fingerprint = kept.parse()?;
/// assert_eq!(read.to_string(), kept);
/// assert!("e7f5".parse::<Fingerprint>().is_err());
/// # Ok::<(), uca::NoFingerprint>(())
/// ```
#[derive(Clone, Copy, PartialEq, Eq, PartialOrd, Ord, Hash)]
pub struct Fingerprint([u8; 32]);

impl Fingerprint {
    /// The fingerprint of these bytes.
    pub const fn from_bytes(bytes: [u8; 32]) -> Self {
        Self(bytes)
    }

    /// The bytes of the fingerprint.
    pub const fn as_bytes(&self) -> &[u8; 32] {
        &self.0
    }

    /// The fingerprint of compact keys by a book, where this one is that of the whole keys. The bytes of the book are
    /// not judged.
    ///
    /// ```
    /// use uca::Collator;
    /// # let (table, data) = (b"@version 1\n0061 ; [.1C47.0020.0002]\n", b"@data 1\n");
    /// # let book = b"@book 1\n1 1C47\n1 1C48\n";
    ///
    /// let whole = Collator::options().open(table, data)?.fingerprint();
    /// assert_eq!(Collator::options().book(book).open(table, data)?.fingerprint(), whole.with_book(book));
    /// # Ok::<(), uca::OpenError>(())
    /// ```
    pub fn with_book(self, book: &[u8]) -> Self {
        let mut bytes = [0; 32];
        // SAFETY: the pointers and the length are those of bytes that are borrowed for the call, and 32 are written.
        unsafe { calls::uca_compact_fingerprint(self.0.as_ptr(), book.as_ptr(), book.len(), bytes.as_mut_ptr()) };
        Self(bytes)
    }
}

impl fmt::Display for Fingerprint {
    fn fmt(&self, out: &mut fmt::Formatter<'_>) -> fmt::Result {
        self.0.iter().try_for_each(|it| write!(out, "{it:02x}"))
    }
}

impl fmt::Debug for Fingerprint {
    fn fmt(&self, out: &mut fmt::Formatter<'_>) -> fmt::Result {
        write!(out, "Fingerprint({self})")
    }
}

/// A text is not 64 lower-case hexadecimal digits.
#[derive(Clone, Copy, Debug, PartialEq, Eq)]
pub struct NoFingerprint;

impl fmt::Display for NoFingerprint {
    fn fmt(&self, out: &mut fmt::Formatter<'_>) -> fmt::Result {
        out.write_str("a fingerprint has 64 lower-case hexadecimal digits")
    }
}

impl Error for NoFingerprint {}

/// The number of a lower-case hexadecimal digit.
fn digit(byte: u8) -> Result<u8, NoFingerprint> {
    match byte {
        b'0'..=b'9' => Ok(byte - b'0'),
        b'a'..=b'f' => Ok(byte - b'a' + 10),
        _ => Err(NoFingerprint),
    }
}

impl FromStr for Fingerprint {
    type Err = NoFingerprint;

    fn from_str(text: &str) -> Result<Self, NoFingerprint> {
        if text.len() != 64 {
            return Err(NoFingerprint);
        }
        let mut bytes = [0; 32];
        for (byte, digits) in bytes.iter_mut().zip(text.as_bytes().chunks_exact(2)) {
            *byte = 16 * digit(digits[0])? + digit(digits[1])?;
        }
        Ok(Self(bytes))
    }
}
