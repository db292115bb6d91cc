//! Why an upgrade is not opened.
use crate::errors::{OTHER_INTERFACE, OUT_OF_MEMORY};
use crate::{FileErrorKind, Fingerprint};
use std::error::Error;
use std::fmt;

/// A file that an upgrade is opened by.
#[derive(Clone, Copy, Debug, PartialEq, Eq, Hash)]
pub enum UpgradeFile {
    /// The table that the stored keys were made by.
    OldTable,
    /// The data file that the stored keys were made by.
    OldData,
    /// The table that new keys are made by.
    NewTable,
    /// The data file that new keys are made by.
    NewData,
    /// The file of changes.
    Changes,
    /// The certificate.
    Certificate,
}

impl UpgradeFile {
    pub(crate) fn of(number: u32) -> Self {
        match number {
            1 => Self::OldTable,
            2 => Self::OldData,
            3 => Self::NewTable,
            4 => Self::NewData,
            5 => Self::Changes,
            6 => Self::Certificate,
            other => unreachable!("uca.h has no file {other} of an upgrade"),
        }
    }
}

impl fmt::Display for UpgradeFile {
    fn fmt(&self, out: &mut fmt::Formatter<'_>) -> fmt::Result {
        out.write_str(match self {
            Self::OldTable => "old table",
            Self::OldData => "old data file",
            Self::NewTable => "new table",
            Self::NewData => "new data file",
            Self::Changes => "file of changes",
            Self::Certificate => "certificate",
        })
    }
}

/// A condition of the audit. They are judged in this order. `docs/FORMATS.md` of the repository says more, as
/// `uca audit-changes` prints them.
#[derive(Clone, Copy, Debug, PartialEq, Eq, Hash)]
#[non_exhaustive]
pub enum Condition {
    /// The old table is not well-formed (UTS #10, section 9.2) with the old data file.
    OldIllFormed,
    /// The new table is not well-formed with the new data file.
    NewIllFormed,
    /// A code point outside of the changed ranges has another implicit range.
    RangeChanged,
    /// A weight of an old row that is not listed has no image by the certificate.
    Uncovered,
    /// The new row of an old key that is not listed is not the image of its old row.
    RowChanged,
    /// An old key that is not listed has no new row.
    RowMissing,
    /// A new key that is not listed is no old key.
    RowExtra,
    /// A code point outside of the changed ranges has another class, or is another kind of Han.
    PointChanged,
    /// The tables say different `@variable` settings.
    SettingChanged,
    /// A condition of a later library, by its number in `uca.h`.
    Other(u32),
}

impl Condition {
    pub(crate) fn of(number: u32) -> Self {
        match number {
            1 => Self::OldIllFormed,
            2 => Self::NewIllFormed,
            3 => Self::RangeChanged,
            4 => Self::Uncovered,
            5 => Self::RowChanged,
            6 => Self::RowMissing,
            7 => Self::RowExtra,
            8 => Self::PointChanged,
            9 => Self::SettingChanged,
            other => Self::Other(other),
        }
    }
}

/// The name that `uca audit-changes` prints, such as `RowChanged`.
impl fmt::Display for Condition {
    fn fmt(&self, out: &mut fmt::Formatter<'_>) -> fmt::Result {
        out.write_str(match self {
            Self::OldIllFormed => "OldIllFormed",
            Self::NewIllFormed => "NewIllFormed",
            Self::RangeChanged => "RangeChanged",
            Self::Uncovered => "Uncovered",
            Self::RowChanged => "RowChanged",
            Self::RowMissing => "RowMissing",
            Self::RowExtra => "RowExtra",
            Self::PointChanged => "PointChanged",
            Self::SettingChanged => "SettingChanged",
            Self::Other(number) => return write!(out, "condition {number}"),
        })
    }
}

/// Where a condition of the audit is not met.
#[derive(Clone, Copy, Debug, PartialEq, Eq, Hash)]
#[non_exhaustive]
pub enum Place {
    /// At a row of the old table, from 1 on. Comments and empty lines are no rows.
    OldRow(u32),
    /// At a row of the new table, from 1 on.
    NewRow(u32),
    /// At a code point.
    CodePoint(u32),
}

impl Place {
    pub(crate) fn of(place: u32, number: u32) -> Option<Self> {
        match place {
            1 => Some(Self::OldRow(number)),
            2 => Some(Self::NewRow(number)),
            3 => Some(Self::CodePoint(number)),
            _ => None,
        }
    }
}

/// As `uca audit-changes` prints it, such as `old row 3` or `code point 0324`.
impl fmt::Display for Place {
    fn fmt(&self, out: &mut fmt::Formatter<'_>) -> fmt::Result {
        match self {
            Self::OldRow(number) => write!(out, "old row {number}"),
            Self::NewRow(number) => write!(out, "new row {number}"),
            Self::CodePoint(number) => write!(out, "code point {number:04X}"),
        }
    }
}

/// Why an upgrade is not opened.
#[derive(Clone, Debug, PartialEq, Eq)]
#[non_exhaustive]
pub enum UpgradeError {
    /// A file is rejected. They are judged in the order of [`UpgradeFile`].
    Rejected {
        /// Which file.
        file: UpgradeFile,
        /// The line, from 1 on.
        line: u32,
        /// Why.
        kind: FileErrorKind,
    },
    /// The files are read. Numbers are to be ordered by value, and a table does not order them.
    Digits {
        /// [`UpgradeFile::OldTable`] or [`UpgradeFile::NewTable`].
        file: UpgradeFile,
        /// The row to blame, from 1 on; 0 if a digit has no row.
        row: u32,
    },
    /// The files are read, and the audit rejects them.
    NotMet {
        /// The first condition that is not met.
        condition: Condition,
        /// The first position where it is not met. [`Condition::SettingChanged`] has none.
        place: Option<Place>,
    },
    /// The upgrade is for keys of another fingerprint than the one that was wanted.
    OtherFiles {
        /// The fingerprint of [`crate::UpgradeOptions::fingerprint`].
        wanted: Fingerprint,
        /// The fingerprint of the old files and the settings.
        found: Fingerprint,
    },
    /// Memory ran out.
    Memory,
    /// The library that was linked has another interface than this crate.
    Interface,
}

impl fmt::Display for UpgradeError {
    fn fmt(&self, out: &mut fmt::Formatter<'_>) -> fmt::Result {
        match self {
            Self::Rejected { file, line, kind } => write!(out, "{file}, line {line}: {kind}"),
            Self::Digits { file, row: 0 } => write!(out, "{file}: Digits"),
            Self::Digits { file, row } => write!(out, "{file}, row {row}: Digits"),
            Self::NotMet { condition, place: None } => write!(out, "the audit rejects the upgrade: {condition}"),
            Self::NotMet { condition, place: Some(place) } => {
                write!(out, "the audit rejects the upgrade: {condition} {place}")
            }
            Self::OtherFiles { wanted, found } => {
                write!(out, "the old files and settings have the fingerprint {found}, and not {wanted}")
            }
            Self::Memory => out.write_str(OUT_OF_MEMORY),
            Self::Interface => out.write_str(OTHER_INTERFACE),
        }
    }
}

impl Error for UpgradeError {}
