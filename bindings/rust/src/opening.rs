//! How a collator is opened.
use crate::calls;
use crate::{Collator, File, FileErrorKind, Fingerprint, OpenError};

/// How variable elements, such as spaces and punctuation, are weighted (UTS #10, section 4).
#[derive(Clone, Copy, Debug, Default, PartialEq, Eq, Hash)]
pub enum Weighting {
    /// As the table's line `@variable` says, or else as [`Weighting::Shifted`].
    #[default]
    ByTable = 0,
    /// As all other elements: keys have 3 levels.
    NonIgnorable = 1,
    /// At a fourth level alone: keys have 4 levels.
    Shifted = 2,
}

/// How far texts are compared.
#[derive(Clone, Copy, Debug, Default, PartialEq, Eq, Hash)]
pub enum Depth {
    /// By the levels of weights.
    #[default]
    Weights = 0,
    /// By one more level, that of the code points: only canonically equivalent texts are equal.
    Identical = 1,
}

/// How numbers are compared. A number is a run of the digits U+0030 to U+0039, however long. Signs, points and other
/// digits are no part of it.
#[derive(Clone, Copy, Debug, Default, PartialEq, Eq, Hash)]
pub enum Numbers {
    /// As any other text, digit by digit: `file 10` comes before `file 9`.
    #[default]
    AsText = 0,
    /// By their values: `file 9` comes before `file 10`. `7` and `007` differ at [`Depth::Identical`] alone.
    ///
    /// Before a number is read how many digits it has, without its leading zeros: `file 9` is read as `file 19`, and
    /// `file 10` as `file 210`. The limits of texts are those of what is read. The digits of the table have to rise,
    /// as those of Unicode's table do: [`OpenError::Digits`] otherwise.
    ByValue = 2,
}

/// The settings that a collator is opened by. [`Collator::options`] makes one.
///
/// Without a call of [`Options::fingerprint`] the files may be any. So name it wherever keys are stored.
#[derive(Clone, Copy, Debug, Default)]
#[must_use]
pub struct Options<'a> {
    weighting: Weighting,
    depth: Depth,
    numbers: Numbers,
    book: Option<&'a [u8]>,
    fingerprint: Option<Fingerprint>,
}

impl<'a> Options<'a> {
    /// Weights spaces and punctuation so. It is [`Weighting::ByTable`] otherwise.
    pub fn weighting(self, weighting: Weighting) -> Self {
        Self { weighting, ..self }
    }

    /// Compares texts so far. It is [`Depth::Weights`] otherwise.
    pub fn depth(self, depth: Depth) -> Self {
        Self { depth, ..self }
    }

    /// Compares numbers so. It is [`Numbers::AsText`] otherwise.
    ///
    /// ```
    /// use uca::{Collator, Numbers};
    /// # let digits: String = (0..10).map(|it| format!("003{it} ; [.{:04X}.0020.0002]\n", 0x1C3D + it)).collect();
    /// # let (table, data) = (format!("@version 1\n{digits}"), b"@data 1\n");
    /// # let table = table.as_bytes();
    ///
    /// let mut collator = Collator::options().numbers(Numbers::ByValue).open(table, data)?;
    /// let mut volumes = ["Band 10", "Band 2", "Band 1"];
    /// collator.sort(&mut volumes)?;
    /// assert_eq!(volumes, ["Band 1", "Band 2", "Band 10"]);
    /// # Ok::<(), Box<dyn std::error::Error>>(())
    /// ```
    pub fn numbers(self, numbers: Numbers) -> Self {
        Self { numbers, ..self }
    }

    /// Makes compact keys, by the bytes of a book. Keys are whole otherwise.
    pub fn book(self, book: &'a [u8]) -> Self {
        Self { book: Some(book), ..self }
    }

    /// Opens no other files and settings than those of this fingerprint, which is that of stored keys.
    pub fn fingerprint(self, fingerprint: Fingerprint) -> Self {
        Self { fingerprint: Some(fingerprint), ..self }
    }

    /// Opens a collator by the bytes of a table (`allkeys.txt`) and of a data file. It keeps none of these bytes.
    ///
    /// # Errors
    ///
    /// [`OpenError::Rejected`] names the file, the line, and why. The table is judged first, then the data file, then
    /// the book. [`OpenError::OtherFiles`]: the fingerprint is not the one that was named. [`OpenError::Memory`]:
    /// memory ran out.
    pub fn open(self, table: &[u8], data: &[u8]) -> Result<Collator, OpenError> {
        let found = self.fingerprint_of(table, data)?;
        let (mut opened, mut error) = (calls::Collator::CLOSED, calls::Error::default());
        check(self.open_closed(&mut opened, table, data, &mut error), error)?;
        // From here on an error closes the collator.
        let collator = Collator::of_open(opened, found);
        match self.fingerprint {
            Some(wanted) if wanted != found => Err(OpenError::OtherFiles { wanted, found }),
            _ => Ok(collator),
        }
    }

    /// Opens a closed collator, and returns the status.
    fn open_closed(self, collator: &mut calls::Collator, table: &[u8], data: &[u8], error: &mut calls::Error) -> u32 {
        let (t, d, weighting) = (table.as_ptr(), data.as_ptr(), self.weighting as u32);
        let depth = depth_of(self.depth, self.numbers);
        match self.book {
            // SAFETY: the pointers and lengths are those of slices and values that are borrowed for the call.
            None => unsafe { calls::uca_open(collator, t, table.len(), d, data.len(), weighting, depth, error) },
            Some(book) => {
                let b = book.as_ptr();
                // SAFETY: as above.
                unsafe {
                    calls::uca_open_compact(
                        collator,
                        t,
                        table.len(),
                        d,
                        data.len(),
                        b,
                        book.len(),
                        weighting,
                        depth,
                        error,
                    )
                }
            }
        }
    }

    /// The fingerprint of these files and settings, which a collator of them has. None is opened, and the fingerprint
    /// of [`Options::fingerprint`] is not looked at.
    ///
    /// # Errors
    ///
    /// Those of [`Options::open`], but for a book, which is not judged, and for [`OpenError::OtherFiles`].
    pub fn fingerprint_of(self, table: &[u8], data: &[u8]) -> Result<Fingerprint, OpenError> {
        if !calls::are_those_of_the_library() {
            return Err(OpenError::Interface);
        }
        let (mut bytes, mut error) = ([0; 32], calls::Error::default());
        let (t, d, weighting) = (table.as_ptr(), data.as_ptr(), self.weighting as u32);
        let depth = depth_of(self.depth, self.numbers);
        // SAFETY: the pointers and lengths are those of slices and values that are borrowed for the call, and 32
        // bytes are written.
        let status = unsafe {
            calls::uca_fingerprint(t, table.len(), d, data.len(), weighting, depth, bytes.as_mut_ptr(), &mut error)
        };
        check(status, error)?;
        let whole = Fingerprint::from_bytes(bytes);
        Ok(self.book.map_or(whole, |book| whole.with_book(book)))
    }
}

/// The depth of a call: both settings are parts of one number.
pub(crate) fn depth_of(depth: Depth, numbers: Numbers) -> u32 {
    depth as u32 | numbers as u32
}

/// The error of a call with files.
fn check(status: u32, error: calls::Error) -> Result<(), OpenError> {
    let file = match status {
        calls::OK => return Ok(()),
        calls::TABLE => File::Table,
        calls::DATA => File::Data,
        calls::BOOK => File::Book,
        calls::MEMORY => return Err(OpenError::Memory),
        calls::DIGITS => return Err(OpenError::Digits { row: error.line }),
        // an earlier library, which has no numbers by value
        calls::ARGUMENT => return Err(OpenError::Interface),
        other => unreachable!("uca.h has no status {other} for files of these settings"),
    };
    if error.kind == calls::KIND_MEMORY {
        return Err(OpenError::Memory);
    }
    Err(OpenError::Rejected { file, line: error.line, kind: FileErrorKind::of(error.kind) })
}
