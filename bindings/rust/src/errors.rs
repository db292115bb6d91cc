//! Why a call fails: each kind of call has errors of its own.
use crate::calls;
use crate::Fingerprint;
use std::error::Error;
use std::fmt;

pub(crate) const OUT_OF_MEMORY: &str = "out of memory";
pub(crate) const OTHER_INTERFACE: &str = "the library of uca that was linked has another interface than this crate";

/// A file that a collator is opened by.
#[derive(Clone, Copy, Debug, PartialEq, Eq, Hash)]
pub enum File {
    /// The table, such as Unicode's `allkeys.txt`.
    Table,
    /// The data file.
    Data,
    /// The book, by which keys are compact.
    Book,
}

impl fmt::Display for File {
    fn fmt(&self, out: &mut fmt::Formatter<'_>) -> fmt::Result {
        out.write_str(match self {
            Self::Table => "table",
            Self::Data => "data file",
            Self::Book => "book",
        })
    }
}

/// Why a line of a file is rejected. `docs/FORMATS.md` of the repository says what each kind means.
#[derive(Clone, Copy, Debug, PartialEq, Eq, Hash)]
#[non_exhaustive]
pub enum FileErrorKind {
    /// The line has none of the forms that the format has.
    Line,
    /// The line stands where it must not stand.
    Order,
    /// A code point is none, or is a surrogate.
    CodePoint,
    /// A weight, or another number, is none.
    Weight,
    /// A key has two rows.
    DuplicateKey,
    /// A range is empty, or meets another one.
    Range,
    /// The file has more than a limit allows.
    Limit,
    /// A run of a certificate has no weights.
    MapEmpty,
    /// A run of a certificate does not come after the one before it, by its old weights or by its new ones.
    MapNotRising,
    /// A run of a certificate has weights that its level cannot map.
    MapOutOfRange,
    /// By a certificate 0020 does not stay at level 2, or 0002 at level 3.
    MapFixed,
    /// A kind of a later library, by its number in `uca.h`.
    Other(u32),
}

impl FileErrorKind {
    pub(crate) fn of(kind: u32) -> Self {
        match kind {
            1 => Self::Line,
            2 => Self::Order,
            3 => Self::CodePoint,
            4 => Self::Weight,
            5 => Self::DuplicateKey,
            6 => Self::Range,
            7 => Self::Limit,
            10 => Self::MapEmpty,
            11 => Self::MapNotRising,
            12 => Self::MapOutOfRange,
            13 => Self::MapFixed,
            other => Self::Other(other),
        }
    }
}

/// The name that `uca` prints, such as `DuplicateKey` or `Map Empty`.
impl fmt::Display for FileErrorKind {
    fn fmt(&self, out: &mut fmt::Formatter<'_>) -> fmt::Result {
        out.write_str(match self {
            Self::Line => "Line",
            Self::Order => "Order",
            Self::CodePoint => "CodePoint",
            Self::Weight => "Weight",
            Self::DuplicateKey => "DuplicateKey",
            Self::Range => "Range",
            Self::Limit => "Limit",
            Self::MapEmpty => "Map Empty",
            Self::MapNotRising => "Map NotRising",
            Self::MapOutOfRange => "Map OutOfRange",
            Self::MapFixed => "Map Fixed",
            Self::Other(number) => return write!(out, "kind {number}"),
        })
    }
}

/// Why a collator is not opened, or its fingerprint is not made.
#[derive(Clone, Debug, PartialEq, Eq)]
#[non_exhaustive]
pub enum OpenError {
    /// A file is rejected. The table is judged first, then the data file, then the book.
    Rejected {
        /// Which file.
        file: File,
        /// The line, from 1 on.
        line: u32,
        /// Why.
        kind: FileErrorKind,
    },
    /// Numbers are to be ordered by value, and the table does not order them. Each of the digits 0 to 9 needs a row of one
    /// element that is not variable. Their primary weights rise, and no other key has a digit.
    Digits {
        /// The row to blame, from 1 on; 0 if a digit has no row.
        row: u32,
    },
    /// The files and settings have another fingerprint than the one that was wanted.
    OtherFiles {
        /// The fingerprint of [`crate::Options::fingerprint`].
        wanted: Fingerprint,
        /// The fingerprint of the files and settings.
        found: Fingerprint,
    },
    /// Memory ran out.
    Memory,
    /// The library that was linked has another interface than this crate.
    Interface,
}

impl fmt::Display for OpenError {
    fn fmt(&self, out: &mut fmt::Formatter<'_>) -> fmt::Result {
        match self {
            Self::Rejected { file, line, kind } => write!(out, "{file}, line {line}: {kind}"),
            Self::Digits { row: 0 } => out.write_str("table: Digits"),
            Self::Digits { row } => write!(out, "table, row {row}: Digits"),
            Self::OtherFiles { wanted, found } => {
                write!(out, "the files and settings have the fingerprint {found}, and not {wanted}")
            }
            Self::Memory => out.write_str(OUT_OF_MEMORY),
            Self::Interface => out.write_str(OTHER_INTERFACE),
        }
    }
}

impl Error for OpenError {}

/// Why a text has no key, or is not compared.
#[derive(Clone, Copy, Debug, PartialEq, Eq, Hash)]
#[non_exhaustive]
pub enum TextError {
    /// The text is not UTF-8.
    Utf8,
    /// The text has more than 1,048,576 code points in Normalization Form D.
    TooLong,
    /// The text has more than 64 non-starters in a row in Normalization Form D.
    LongRun,
    /// Memory ran out. The call may be tried again.
    Memory,
}

impl TextError {
    /// The error of a status. An open collator or upgrade has no other one for a text.
    pub(crate) fn of(status: u32) -> Self {
        match status {
            calls::UTF8 => Self::Utf8,
            calls::TOO_LONG => Self::TooLong,
            calls::LONG_RUN => Self::LongRun,
            calls::MEMORY => Self::Memory,
            other => unreachable!("uca.h has no status {other} for a text"),
        }
    }
}

impl fmt::Display for TextError {
    fn fmt(&self, out: &mut fmt::Formatter<'_>) -> fmt::Result {
        out.write_str(match self {
            Self::Utf8 => "the text is not UTF-8",
            Self::TooLong => "the text has more than 1,048,576 code points in Normalization Form D",
            Self::LongRun => "the text has more than 64 non-starters in a row in Normalization Form D",
            Self::Memory => OUT_OF_MEMORY,
        })
    }
}

impl Error for TextError {}

/// A text that is rejected, and where.
#[derive(Clone, Copy, Debug, PartialEq, Eq, Hash)]
pub struct RejectedText {
    /// Why.
    pub error: TextError,
    /// [`TextError::Utf8`]: the first byte, from 0 on, that is not part of UTF-8. [`TextError::LongRun`]: the index, from 0
    /// on, of the code point of the text in Normalization Form D at which the run begins. With
    /// [`crate::Numbers::ByValue`] it is that of what is read of the text. Otherwise 0.
    pub position: usize,
}

impl fmt::Display for RejectedText {
    fn fmt(&self, out: &mut fmt::Formatter<'_>) -> fmt::Result {
        match self.error {
            TextError::Utf8 => write!(out, "{}: byte {}", self.error, self.position),
            TextError::LongRun => write!(out, "{}: code point {}", self.error, self.position),
            TextError::TooLong | TextError::Memory => self.error.fmt(out),
        }
    }
}

impl Error for RejectedText {}

/// Why bytes are not made another form of a stored key.
#[derive(Clone, Copy, Debug, PartialEq, Eq, Hash)]
#[non_exhaustive]
pub enum StoredKeyError {
    /// The bytes are no key of the collator's settings, or the compact key of no key.
    NoKey,
    /// The collator was opened without a book.
    NoBook,
    /// Memory ran out. The call may be tried again.
    Memory,
}

impl StoredKeyError {
    /// The error of a status. An open collator has no other one for a stored key.
    pub(crate) fn of(status: u32) -> Self {
        match status {
            calls::NO_KEY => Self::NoKey,
            calls::NO_BOOK => Self::NoBook,
            calls::MEMORY => Self::Memory,
            other => unreachable!("uca.h has no status {other} for a stored key"),
        }
    }
}

impl fmt::Display for StoredKeyError {
    fn fmt(&self, out: &mut fmt::Formatter<'_>) -> fmt::Result {
        out.write_str(match self {
            Self::NoKey => "the bytes are no key of this collator",
            Self::NoBook => "the collator has no book",
            Self::Memory => OUT_OF_MEMORY,
        })
    }
}

impl Error for StoredKeyError {}
