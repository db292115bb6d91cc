//! Unicode collation (UTS #10): sort keys and comparison of texts, by a table of weights that you choose.
//!
//! ```
//! use uca::{Collator, Weighting};
//!
//! let table = b"@version 1\n0061 ; [.1C47.0020.0002]\n0062 ; [.1C60.0020.0002]\n0301 ; [.0000.0024.0002]\n";
//! let data = b"@data 1\nccc 0301..0301 230\n";
//! let mut collator = Collator::options().weighting(Weighting::NonIgnorable).open(table, data)?;
//!
//! let mut words = vec!["b", "á", "a"];
//! collator.sort(&mut words)?;
//! assert_eq!(words, ["a", "á", "b"]);
//! assert_eq!(collator.key("a")?, [0x1C, 0x47, 0, 0, 0, 0x20, 0, 0, 0, 2]);
//! assert_eq!(collator.compare("a", "á")?.level, 2);
//! # Ok::<(), Box<dyn std::error::Error>>(())
//! ```
//!
//! A program reads the table and the data file by [`std::fs::read`]. The table is Unicode's `allkeys.txt`, or that of
//! a language. [`Collator::of_language`] takes the tag of a language, and has the command `uca-files` find its files.
//!
//! **Keep the fingerprint beside stored keys.** It names the files and the settings that keys are made by. Give it
//! back each time that you open the files for these keys ([`Options::fingerprint`]): other files or settings are an
//! error then.
//!
//! **A new edition of the table makes other keys.** An [`Upgrade`] says which texts need a new key, and makes the new
//! keys of all others from the old ones.
//!
//! **Tables of one's own.** [`tailor`] makes a table from rules and [`audit`] judges it, and [`find_changes`] makes the
//! files of an upgrade. They do what the command `uca` does, over files in memory.
//!
//! **What is proved.** The library for C that does the work has contracts, which are proved: for every table and
//! text, its calls do what `uca.h` says. Nothing is proved of this crate, which is a small layer over these calls.
//! Its tests are `tests/keys.rs`, `tests/upgrades.rs`, `tests/commands.rs` and `tests/languages.rs`, and `tests/header.rs` in the
//! repository.
//!
//! **Processors and systems.** The library is made for `x86_64-unknown-linux-gnu`, and for any processor of x86-64.
mod calls;
mod collator;
mod commands;
mod errors;
mod fingerprint;
mod language;
mod opening;
mod room;
mod sorting;
mod upgrade;
mod upgrade_errors;

pub use collator::{compare_keys, Collator, Comparison, RangeOf};
pub use commands::{audit, audit_changes, find_changes, run, tailor, Changes, CommandError, Run, Tailoring, Verdict};
pub use errors::{File, FileErrorKind, OpenError, RejectedText, StoredKeyError, TextError};
pub use fingerprint::{Fingerprint, NoFingerprint};
pub use language::{Language, LanguageError};
pub use opening::{Depth, Numbers, Options, Weighting};
pub use upgrade::{Upgrade, UpgradeFiles, UpgradeOptions};
pub use upgrade_errors::{Condition, Place, UpgradeError, UpgradeFile};

/// The programs of README.md are compiled with the tests.
#[cfg(doctest)]
#[doc = include_str!("../README.md")]
struct Readme;

/// The version of the library that was linked: major, minor and patch.
///
/// ```
/// assert_eq!(uca::library_version(), (0, 1, 0));
/// ```
pub fn library_version() -> (u32, u32, u32) {
    // SAFETY: the call takes nothing.
    let version = unsafe { calls::uca_version() };
    (version / 1_000_000, version / 1_000 % 1_000, version % 1_000)
}
