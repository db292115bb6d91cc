//! Opening a collator by the tag of a language.
use crate::{Collator, OpenError, Options};
use std::env;
use std::error::Error;
use std::ffi::{OsStr, OsString};
use std::fmt;
use std::fs;
use std::io::{self, Write};
use std::os::unix::ffi::{OsStrExt, OsStringExt};
use std::path::PathBuf;
use std::process::{Command, Output, Stdio};

/// A language by its tag, such as `pl`, `zh` or `de-u-co-phonebk`, whose files the command `uca-files` has.
///
/// It is the program that the environment's `UCA_FILES` names, or else `uca-files`. It keeps what it has made, so the
/// order stays the same. A call waits until this program ends.
#[derive(Clone, Copy, Debug)]
#[must_use]
pub struct Language<'a> {
    tag: &'a str,
    edition: Option<&'a str>,
    has_book: bool,
}

impl<'a> Language<'a> {
    /// The language of this tag.
    pub fn new(tag: &'a str) -> Self {
        Self { tag, edition: None, has_book: false }
    }

    /// Takes the files of this edition, such as `15.0.0-cldr41`. It has to be named where several are kept.
    pub fn edition(self, edition: &'a str) -> Self {
        Self { edition: Some(edition), ..self }
    }

    /// Makes compact keys, by the book of the language. It takes the place of that of [`Options::book`].
    pub fn with_book(self) -> Self {
        Self { has_book: true, ..self }
    }

    /// The paths of the table, the data file, and the book if it is wanted.
    fn paths(self) -> Result<Vec<PathBuf>, LanguageError> {
        if !is_tag(self.tag) {
            return Err(LanguageError::NoTag);
        }
        let program = env::var_os("UCA_FILES").filter(|it| !it.is_empty()).unwrap_or_else(|| "uca-files".into());
        let mut command = Command::new(&program);
        command.stdin(Stdio::null()).args(self.has_book.then_some("--book"));
        command.args(self.edition.map(|it| format!("--edition={it}"))).arg(self.tag);
        match command.output() {
            Ok(ran) => self.paths_of(ran),
            Err(error) => Err(LanguageError::NotRun { program, error }),
        }
    }

    /// What the command printed.
    fn paths_of(self, ran: Output) -> Result<Vec<PathBuf>, LanguageError> {
        if !ran.status.success() {
            return Err(LanguageError::Command(String::from_utf8_lossy(&ran.stderr).trim().to_owned()));
        }
        let lines = ran.stdout.strip_suffix(b"\n").unwrap_or_default().split(|&it| it == b'\n');
        let paths: Vec<_> = lines.map(|it| PathBuf::from(OsStr::from_bytes(it))).collect();
        if paths.len() != 2 + usize::from(self.has_book) || !paths.iter().all(|it| it.is_absolute()) {
            return Err(LanguageError::Output(OsString::from_vec(ran.stdout)));
        }
        // A sentence on the language: that its order is the root's. Where it cannot be written, there are files all the same.
        let _ = io::stderr().write_all(&ran.stderr);
        Ok(paths)
    }
}

impl<'a> From<&'a str> for Language<'a> {
    fn from(tag: &'a str) -> Self {
        Self::new(tag)
    }
}

/// Whether a text can be the tag of a language, so that the command does not take it for a setting.
fn is_tag(text: &str) -> bool {
    let may_be_in_tag = |it: char| it.is_ascii_alphanumeric() || it == '-' || it == '_';
    text.starts_with(|it: char| it.is_ascii_alphanumeric()) && text.chars().all(may_be_in_tag)
}

/// Why there is no collator of a language.
#[derive(Debug)]
#[non_exhaustive]
pub enum LanguageError {
    /// The tag has a character that no tag has, or none.
    NoTag,
    /// The command was not run: it is not installed, and `UCA_FILES` names no other one.
    NotRun {
        /// The command.
        program: OsString,
        /// Why.
        error: io::Error,
    },
    /// The command has no files of the language. This is its sentence.
    Command(String),
    /// The command printed other lines than the paths of the files.
    Output(OsString),
    /// A file cannot be read.
    Read {
        /// Its path.
        path: PathBuf,
        /// Why.
        error: io::Error,
    },
    /// The collator is not opened by the files.
    Open(OpenError),
}

impl fmt::Display for LanguageError {
    fn fmt(&self, out: &mut fmt::Formatter<'_>) -> fmt::Result {
        match self {
            Self::NoTag => out.write_str("the tag of a language has letters, digits and hyphens"),
            Self::NotRun { program, error } => {
                write!(out, "the command {program:?} is not run ({error}): install it, or name it in UCA_FILES")
            }
            Self::Command(sentence) if sentence.is_empty() => {
                out.write_str("the command that finds files ended with an error")
            }
            Self::Command(sentence) => out.write_str(sentence),
            Self::Output(found) => write!(out, "the command that finds files did not print their paths: {found:?}"),
            Self::Read { path, error } => write!(out, "{}: {error}", path.display()),
            Self::Open(error) => error.fmt(out),
        }
    }
}

impl Error for LanguageError {
    fn source(&self) -> Option<&(dyn Error + 'static)> {
        match self {
            Self::NotRun { error, .. } | Self::Read { error, .. } => Some(error),
            Self::Open(error) => Some(error),
            Self::NoTag | Self::Command(_) | Self::Output(_) => None,
        }
    }
}

impl Options<'_> {
    /// Opens a collator of a language: `"pl"`, or [`Language::new`] with an edition or a book. The weighting is that of
    /// the language, unless [`Options::weighting`] names another one.
    ///
    /// ```no_run
    /// use uca::{Collator, Language, Numbers};
    ///
    /// let german = Language::new("de-u-co-phonebk").with_book();
    /// let mut collator = Collator::options().numbers(Numbers::ByValue).open_language(german)?;
    /// # Ok::<(), uca::LanguageError>(())
    /// ```
    ///
    /// # Errors
    ///
    /// [`LanguageError::Command`] has the sentence of the command `uca-files` if it has no files of the language.
    /// [`LanguageError::Open`] has an error of [`Options::open`].
    pub fn open_language<'b>(self, language: impl Into<Language<'b>>) -> Result<Collator, LanguageError> {
        let mut files = Vec::new();
        for path in language.into().paths()? {
            files.push(fs::read(&path).map_err(|error| LanguageError::Read { path, error })?);
        }
        let with_book = match files.get(2) {
            Some(book) => self.book(book),
            None => self,
        };
        with_book.open(&files[0], &files[1]).map_err(LanguageError::Open)
    }
}

impl Collator {
    /// A collator of a language, such as `pl`, `zh` or `de-u-co-phonebk`, by the files that the command `uca-files` has.
    /// [`Options::open_language`] takes settings too.
    ///
    /// ```no_run
    /// let mut collator = uca::Collator::of_language("pl")?;
    /// let mut words = ["żaba", "zebra", "łódź"];
    /// collator.sort(&mut words)?;
    /// assert_eq!(words, ["łódź", "zebra", "żaba"]);
    /// # Ok::<(), Box<dyn std::error::Error>>(())
    /// ```
    ///
    /// # Errors
    ///
    /// Those of [`Options::open_language`].
    pub fn of_language<'b>(language: impl Into<Language<'b>>) -> Result<Self, LanguageError> {
        Self::options().open_language(language)
    }
}
