//! From one edition of a table and its data file to the next: which stored keys stay, and what they become.
use crate::calls;
use crate::opening::depth_of;
use crate::room::{append, with, Room};
use crate::{
    Condition, Depth, FileErrorKind, Fingerprint, Numbers, Place, StoredKeyError, TextError, UpgradeError, UpgradeFile,
    Weighting,
};
use std::fmt;

/// The bytes of the six files that an upgrade is opened by.
///
/// `uca changes OLD OLD-DATA NEW NEW-DATA CERTIFICATE > CHANGES` makes the last two of the others.
#[derive(Clone, Copy, Debug)]
pub struct UpgradeFiles<'a> {
    /// The table that the stored keys were made by.
    pub old_table: &'a [u8],
    /// The data file that the stored keys were made by.
    pub old_data: &'a [u8],
    /// The table that new keys are made by.
    pub new_table: &'a [u8],
    /// The data file that new keys are made by.
    pub new_data: &'a [u8],
    /// The file of changes.
    pub changes: &'a [u8],
    /// The certificate.
    pub certificate: &'a [u8],
}

/// The settings that an upgrade is opened by, which are those of the stored keys. [`Upgrade::options`] makes one.
///
/// Without a call of [`UpgradeOptions::fingerprint`] the old files may be any. So name it wherever keys are stored.
#[derive(Clone, Copy, Debug, Default)]
#[must_use]
pub struct UpgradeOptions {
    weighting: Weighting,
    depth: Depth,
    numbers: Numbers,
    fingerprint: Option<Fingerprint>,
}

impl UpgradeOptions {
    /// The weighting that the stored keys were made with. It is [`Weighting::ByTable`] otherwise.
    pub fn weighting(self, weighting: Weighting) -> Self {
        Self { weighting, ..self }
    }

    /// The depth that the stored keys were made with. It is [`Depth::Weights`] otherwise.
    pub fn depth(self, depth: Depth) -> Self {
        Self { depth, ..self }
    }

    /// How numbers were compared when the stored keys were made. It is [`Numbers::AsText`] otherwise.
    pub fn numbers(self, numbers: Numbers) -> Self {
        Self { numbers, ..self }
    }

    /// Opens no upgrade but one for whole keys of this fingerprint, which is kept beside them.
    pub fn fingerprint(self, fingerprint: Fingerprint) -> Self {
        Self { fingerprint: Some(fingerprint), ..self }
    }

    /// Opens an upgrade by the bytes of its six files. It keeps none of these bytes.
    ///
    /// The change that the files mean is audited, as `uca audit-changes` does. What the audit rejects is not opened.
    ///
    /// # Errors
    ///
    /// [`UpgradeError::Rejected`] names the first file that is rejected, the line, and why. [`UpgradeError::NotMet`]
    /// has the first condition of the audit that is not met, and where. [`UpgradeError::OtherFiles`]: the old files
    /// and the settings have another fingerprint than the one that was named. [`UpgradeError::Memory`]: memory ran
    /// out.
    pub fn open(self, files: UpgradeFiles<'_>) -> Result<Upgrade, UpgradeError> {
        if !calls::are_those_of_the_library() {
            return Err(UpgradeError::Interface);
        }
        let (mut opened, mut error) = (calls::Upgrade::CLOSED, calls::UpgradeError::default());
        check(self.open_closed(&mut opened, files, &mut error), &error)?;
        // From here on an error closes the upgrade.
        let upgrade = Upgrade::of_open(opened);
        match self.fingerprint {
            Some(wanted) if wanted != upgrade.old => Err(UpgradeError::OtherFiles { wanted, found: upgrade.old }),
            _ => Ok(upgrade),
        }
    }

    /// Opens a closed upgrade, and returns the status.
    fn open_closed(
        self,
        upgrade: &mut calls::Upgrade,
        files: UpgradeFiles<'_>,
        error: &mut calls::UpgradeError,
    ) -> u32 {
        // SAFETY: the pointers and lengths are those of slices and values that are borrowed for the call.
        unsafe {
            calls::uca_open_upgrade(
                upgrade,
                files.old_table.as_ptr(),
                files.old_table.len(),
                files.old_data.as_ptr(),
                files.old_data.len(),
                files.new_table.as_ptr(),
                files.new_table.len(),
                files.new_data.as_ptr(),
                files.new_data.len(),
                files.changes.as_ptr(),
                files.changes.len(),
                files.certificate.as_ptr(),
                files.certificate.len(),
                self.weighting as u32,
                depth_of(self.depth, self.numbers),
                error,
            )
        }
    }
}

/// The error of a call with the files of an upgrade.
fn check(status: u32, error: &calls::UpgradeError) -> Result<(), UpgradeError> {
    match status {
        calls::OK => Ok(()),
        calls::MEMORY => Err(UpgradeError::Memory),
        // an earlier library, which has no numbers by value
        calls::ARGUMENT => Err(UpgradeError::Interface),
        calls::FILE if error.kind == calls::KIND_MEMORY => Err(UpgradeError::Memory),
        calls::FILE => Err(UpgradeError::Rejected {
            file: UpgradeFile::of(error.file),
            line: error.line,
            kind: FileErrorKind::of(error.kind),
        }),
        calls::DIGITS => Err(UpgradeError::Digits { file: UpgradeFile::of(error.file), row: error.line }),
        calls::NOT_MET => Err(UpgradeError::NotMet {
            condition: Condition::of(error.condition),
            place: Place::of(error.place, error.number),
        }),
        other => unreachable!("uca.h has no status {other} for files of an upgrade with these settings"),
    }
}

/// The step from an old table and its data file to new ones, for stored keys.
///
/// Ask [`Upgrade::affected`] for each stored text. Where it is true, make the key anew, by a collator of the new files.
/// All other keys become the new ones by [`Upgrade::rekey`], without their texts. What comes out is what that collator
/// makes of the texts. In the example, the letter `c` comes between `a` and `b`, and the weight of `b` moves:
///
/// ```
/// use uca::{Collator, Upgrade, UpgradeFiles};
///
/// let data = b"@data 1\n";
/// let files = UpgradeFiles {
///     old_table: b"@version 1\n0061 ; [.1C47.0020.0002]\n0062 ; [.1C60.0020.0002]\n",
///     old_data: data,
///     new_table: b"@version 2\n0061 ; [.1C47.0020.0002]\n0063 ; [.1C60.0020.0002]\n0062 ; [.1C70.0020.0002]\n",
///     new_data: data,
///     changes: b"@changes 1\ntext 0063\n",
///     certificate: b"1 1C47 1C47 0001\n1 1C60 1C70 0001\n2 0020 0020 0001\n3 0002 0002 0001\n",
/// };
/// let mut before = Collator::options().open(files.old_table, files.old_data)?;
/// let mut after = Collator::options().open(files.new_table, files.new_data)?;
/// let mut upgrade = Upgrade::options().fingerprint(before.fingerprint()).open(files)?;
/// assert_eq!(upgrade.new_fingerprint(), after.fingerprint());
///
/// for word in ["a", "b", "c", "ab"] {
///     let stored = before.key(word)?;
///     let key = if upgrade.affected(word)? { Some(after.key(word)?) } else { upgrade.rekey(&stored)? };
///     assert_eq!(key, Some(after.key(word)?));
/// }
/// # Ok::<(), Box<dyn std::error::Error>>(())
/// ```
///
/// It may change threads, but two threads do not use it at once: each call takes `&mut self`.
pub struct Upgrade {
    // It may be moved: uca.h allows that between two calls, if the old bytes are forgotten, as they are in Rust.
    inner: calls::Upgrade,
    old: Fingerprint,
    new: Fingerprint,
    room: Room,
}

// SAFETY: by uca.h an upgrade may change threads between two calls. It is not `Sync`, since calls write to it.
unsafe impl Send for Upgrade {}

impl fmt::Debug for Upgrade {
    fn fmt(&self, out: &mut fmt::Formatter<'_>) -> fmt::Result {
        out.debug_struct("Upgrade")
            .field("old_fingerprint", &self.old)
            .field("new_fingerprint", &self.new)
            .finish_non_exhaustive()
    }
}

impl Upgrade {
    /// The settings to open one by.
    pub fn options() -> UpgradeOptions {
        UpgradeOptions::default()
    }

    fn of_open(mut inner: calls::Upgrade) -> Self {
        let (mut old, mut new) = ([0; 32], [0; 32]);
        // SAFETY: the upgrade and the bytes are borrowed for the call, and 32 bytes of each are written.
        let status = unsafe { calls::uca_upgrade_fingerprints(&mut inner, old.as_mut_ptr(), new.as_mut_ptr()) };
        assert_eq!(status, calls::OK, "an open upgrade has fingerprints");
        let (old, new) = (Fingerprint::from_bytes(old), Fingerprint::from_bytes(new));
        Self { inner, old, new, room: Room::default() }
    }

    /// The fingerprint of the keys that [`Upgrade::rekey`] takes: that of a collator of the old files, without a book.
    /// For compact keys [`Fingerprint::with_book`] makes theirs of it.
    pub fn old_fingerprint(&self) -> Fingerprint {
        self.old
    }

    /// The fingerprint of the keys that [`Upgrade::rekey`] makes: that of a collator of the new files, without a book.
    pub fn new_fingerprint(&self) -> Fingerprint {
        self.new
    }

    /// Whether the key of a text has to be made anew, by a collator of the new files.
    ///
    /// With [`Numbers::ByValue`] what is read of the text is judged: a change of the digit 2 affects `10`, which is
    /// read as `210`.
    ///
    /// # Errors
    ///
    /// [`TextError`] says why the text is rejected, or that memory ran out.
    pub fn affected(&mut self, text: impl AsRef<[u8]>) -> Result<bool, TextError> {
        let (text, mut affected) = (text.as_ref(), 0);
        // SAFETY: the text is borrowed for the call.
        match unsafe { calls::uca_affected(&mut self.inner, text.as_ptr(), text.len(), &mut affected) } {
            calls::OK => Ok(affected != 0),
            status => Err(TextError::of(status)),
        }
    }

    /// The new key of the old key of a text that is not [affected](Upgrade::affected).
    ///
    /// It is `None` if a weight of the key has no image, or the bytes are no key of the weighting and the depth. So a
    /// `None` means that the key was not made by the old files and these settings, or that its text is affected.
    ///
    /// Give it whole keys of [`Upgrade::old_fingerprint`] alone. **No other key is told from these.** That of an
    /// affected text becomes other bytes here, or `None`. Between collators with books, expand the key before
    /// ([`crate::Collator::expand`]), and make it compact after ([`crate::Collator::compact`]).
    ///
    /// # Errors
    ///
    /// [`StoredKeyError::Memory`] alone.
    pub fn rekey(&mut self, key: &[u8]) -> Result<Option<Vec<u8>>, StoredKeyError> {
        image(self.room.written(key.len(), with(calls::uca_rekey, &mut self.inner, key)))
    }

    /// Writes the new key in place of what `new_key` has, and uses its memory again. It is `false` where
    /// [`Upgrade::rekey`] is `None`. Then `new_key` is empty, which is no key.
    ///
    /// # Errors
    ///
    /// [`StoredKeyError::Memory`] alone. Then `new_key` is empty too.
    pub fn rekey_into(&mut self, key: &[u8], new_key: &mut Vec<u8>) -> Result<bool, StoredKeyError> {
        new_key.clear();
        let made = append(new_key, key.len(), with(calls::uca_rekey, &mut self.inner, key));
        Ok(image(made)?.is_some())
    }

    /// Makes the new key in place of the old key, which has as many bytes. It is `false`, and the bytes stay, where
    /// [`Upgrade::rekey`] is `None`.
    ///
    /// # Errors
    ///
    /// [`StoredKeyError::Memory`] alone. Then the bytes stay too.
    pub fn rekey_in_place(&mut self, key: &mut [u8]) -> Result<bool, StoredKeyError> {
        // SAFETY: the key is borrowed for the call, which writes it alone.
        let made = match unsafe { calls::uca_rekey_in_place(&mut self.inner, key.as_mut_ptr(), key.len()) } {
            calls::OK => Ok(()),
            status => Err(status),
        };
        Ok(image(made)?.is_some())
    }
}

impl Drop for Upgrade {
    fn drop(&mut self) {
        // SAFETY: the upgrade is open, and nothing uses it after this.
        unsafe { calls::uca_close_upgrade(&mut self.inner) }
    }
}

/// What was made, or nothing where there is no image.
fn image<T>(made: Result<T, u32>) -> Result<Option<T>, StoredKeyError> {
    match made {
        Ok(made) => Ok(Some(made)),
        Err(calls::NO_IMAGE) => Ok(None),
        Err(status) => Err(StoredKeyError::of(status)),
    }
}
