//! An open collator: keys, ranges of keys, and comparisons.
use crate::calls;
use crate::room::{self, append, with, Room};
use crate::{Fingerprint, OpenError, Options, RejectedText, StoredKeyError, TextError};
use std::cmp::Ordering;
use std::fmt;
use std::ops::Range;

/// Which keys a range has. "The same letters" means that level 1 is the same, as for `cafe`, `Cafe` and `café`. Under
/// [`crate::Weighting::Shifted`] `ca fe` and `c-a-f-e` have these letters too.
#[derive(Clone, Copy, Debug, PartialEq, Eq, Hash)]
pub enum RangeOf {
    /// The keys with the letters of the text: level 1 is the same.
    SameLetters = 1,
    /// The keys with the letters and the accents of the text: levels 1 and 2 are the same.
    SameAccents = 2,
    /// The keys whose level 1 begins with the letters of the text.
    Begins = 3,
}

/// How two texts or two keys compare.
#[derive(Clone, Copy, Debug, PartialEq, Eq, Hash)]
pub struct Comparison {
    /// `Less` if the left one comes first.
    pub order: Ordering,
    /// The first level at which they differ, from 1 on, or 0 if they are equal.
    pub level: u32,
}

impl From<calls::Comparison> for Comparison {
    fn from(found: calls::Comparison) -> Self {
        Self { order: found.order.cmp(&0), level: found.level }
    }
}

/// A table and a data file, by which texts get their sort keys and are compared. With a book, keys are compact.
///
/// It may change threads, but two threads do not use it at once: each call takes `&mut self`. For work side by side,
/// [`Collator::share`] gives each thread one of its own.
pub struct Collator {
    // It may be moved: uca.h allows that between two calls, if the old bytes are forgotten, as they are in Rust.
    inner: calls::Collator,
    fingerprint: Fingerprint,
    room: Room,
}

// SAFETY: by uca.h a collator may change threads between two calls. It is not `Sync`, since calls write to it.
unsafe impl Send for Collator {}

impl fmt::Debug for Collator {
    fn fmt(&self, out: &mut fmt::Formatter<'_>) -> fmt::Result {
        out.debug_struct("Collator").field("fingerprint", &self.fingerprint).finish_non_exhaustive()
    }
}

impl Collator {
    /// The settings to open one by.
    pub fn options<'a>() -> Options<'a> {
        Options::default()
    }

    pub(crate) fn of_open(inner: calls::Collator, fingerprint: Fingerprint) -> Self {
        Self { inner, fingerprint, room: Room::default() }
    }

    /// What keys are made by. Keep it beside stored keys.
    pub fn fingerprint(&self) -> Fingerprint {
        self.fingerprint
    }

    /// One more collator with all that this one keys texts by, for another thread. Both share the table and the data
    /// file, so it takes little time and memory.
    ///
    /// ```no_run
    /// # fn main() -> Result<(), Box<dyn std::error::Error>> {
    /// let mut first = uca::Collator::options().open(&std::fs::read("allkeys.txt")?, &std::fs::read("data.txt")?)?;
    /// let mut other = first.share()?;
    /// let key = std::thread::spawn(move || other.key("Łódź"));
    /// # drop(key);
    /// # Ok(())
    /// # }
    /// ```
    ///
    /// # Errors
    ///
    /// [`OpenError::Memory`] alone.
    pub fn share(&mut self) -> Result<Self, OpenError> {
        let mut inner = calls::Collator::CLOSED;
        // SAFETY: this collator is open, and the other one is closed and another value.
        match unsafe { calls::uca_share(&mut self.inner, &mut inner) } {
            calls::OK => Ok(Self::of_open(inner, self.fingerprint)),
            _ => Err(OpenError::Memory),
        }
    }

    /// The sort key of a text, which is compact if there is a book. Keys of one collator compare as bytes as their
    /// texts do. The text is UTF-8, and may have any code points, also U+0000.
    ///
    /// # Errors
    ///
    /// [`TextError`] says why the text is rejected, or that memory ran out.
    pub fn key(&mut self, text: impl AsRef<[u8]>) -> Result<Vec<u8>, TextError> {
        let text = text.as_ref();
        let call = with(calls::uca_key, &mut self.inner, text);
        self.room.written(room::for_bytes(text), call).map_err(TextError::of)
    }

    /// Writes the sort key of a text in place of what `key` has, and uses its memory again.
    ///
    /// # Errors
    ///
    /// Those of [`Collator::key`]. Then `key` is empty.
    pub fn key_into(&mut self, text: impl AsRef<[u8]>, key: &mut Vec<u8>) -> Result<(), TextError> {
        key.clear();
        self.append_key(text.as_ref(), key)
    }

    /// Writes the first bytes of the sort key of a text: as many as there is room for. The number is how many bytes the
    /// key has. The rest of `out` stays as it was.
    ///
    /// # Errors
    ///
    /// Those of [`Collator::key`]. Then `out` stays as it was.
    pub fn key_beginning(&mut self, text: impl AsRef<[u8]>, out: &mut [u8]) -> Result<usize, TextError> {
        let mut needed = 0;
        match with(calls::uca_key_beginning, &mut self.inner, text.as_ref())(out.as_mut_ptr(), out.len(), &mut needed) {
            calls::OK => Ok(needed),
            status => Err(TextError::of(status)),
        }
    }

    /// How many bytes the sort key of a text of at most `length` bytes has at most. Most keys are far shorter. Without a
    /// book it is 518 times `length`, and 8 more. With one it is twice that, and one more. Where the bound has no room in
    /// a `usize`, it is [`usize::MAX`].
    pub fn key_bound(&mut self, length: usize) -> usize {
        let mut bound = 0;
        // SAFETY: the collator is open, and `bound` belongs to the call alone.
        unsafe { calls::uca_key_bound(&mut self.inner, length, &mut bound) };
        bound
    }

    /// Whether a text is accepted. The error says where it is rejected.
    ///
    /// # Errors
    ///
    /// Those of [`Collator::key`], with a position.
    pub fn check_text(&mut self, text: impl AsRef<[u8]>) -> Result<(), RejectedText> {
        let (text, mut position) = (text.as_ref(), 0);
        // SAFETY: the text is borrowed for the call.
        match unsafe { calls::uca_check_text(&mut self.inner, text.as_ptr(), text.len(), &mut position) } {
            calls::OK => Ok(()),
            status => Err(RejectedText { error: TextError::of(status), position }),
        }
    }

    /// Writes the sort key of a text after what `keys` has. An error leaves `keys` as it was.
    pub(crate) fn append_key(&mut self, text: &[u8], keys: &mut Vec<u8>) -> Result<(), TextError> {
        append(keys, room::for_bytes(text), with(calls::uca_key, &mut self.inner, text)).map_err(TextError::of)
    }

    /// The range of the keys of this collator that a lookup by a text scans. A key is in it if it is not less than
    /// `start`, and less than `end`. So `map.range(range)` of a `BTreeMap` finds what belongs to these keys.
    ///
    /// With [`crate::Numbers::ByValue`] a number is found as a whole: what begins with `Band 1` has `Band 1a`, and not
    /// `Band 10`.
    ///
    /// # Errors
    ///
    /// Those of [`Collator::key`].
    pub fn range(&mut self, text: impl AsRef<[u8]>, of: RangeOf) -> Result<Range<Vec<u8>>, TextError> {
        let text = text.as_ref();
        Ok(self.end(text, of, calls::LOW)?..self.end(text, of, calls::HIGH)?)
    }

    /// The start of a range alone.
    ///
    /// That of [`RangeOf::SameLetters`] is the same for two texts exactly if they have the same letters, and that of
    /// [`RangeOf::SameAccents`] exactly if they have the same letters and accents. So a set of starts takes no second
    /// such text.
    ///
    /// # Errors
    ///
    /// Those of [`Collator::key`].
    pub fn range_start(&mut self, text: impl AsRef<[u8]>, of: RangeOf) -> Result<Vec<u8>, TextError> {
        self.end(text.as_ref(), of, calls::LOW)
    }

    fn end(&mut self, text: &[u8], of: RangeOf, end: u32) -> Result<Vec<u8>, TextError> {
        let inner = &mut self.inner;
        let call = |out: *mut u8, room, needed: &mut usize| {
            // SAFETY: the text is borrowed for the call, and `room` bytes from `out` on belong to the call alone.
            unsafe { calls::uca_range(inner, text.as_ptr(), text.len(), of as u32, end, out, room, needed) }
        };
        self.room.written(room::for_bytes(text), call).map_err(TextError::of)
    }

    /// The compact key of a whole key, by the book.
    ///
    /// # Errors
    ///
    /// [`StoredKeyError::NoKey`]: the bytes are no whole key of the weighting and the depth.
    /// [`StoredKeyError::NoBook`]; [`StoredKeyError::Memory`].
    pub fn compact(&mut self, key: &[u8]) -> Result<Vec<u8>, StoredKeyError> {
        let call = with(calls::uca_compact, &mut self.inner, key);
        self.room.written(room::for_bytes(key), call).map_err(StoredKeyError::of)
    }

    /// Writes the compact key of a whole key in place of what `compact` has, and uses its memory again.
    ///
    /// # Errors
    ///
    /// Those of [`Collator::compact`]. Then `compact` is empty.
    pub fn compact_into(&mut self, key: &[u8], compact: &mut Vec<u8>) -> Result<(), StoredKeyError> {
        compact.clear();
        let call = with(calls::uca_compact, &mut self.inner, key);
        append(compact, room::for_bytes(key), call).map_err(StoredKeyError::of)
    }

    /// The whole key of a compact key, by the book.
    ///
    /// # Errors
    ///
    /// [`StoredKeyError::NoKey`]: no whole key has this compact key. [`StoredKeyError::NoBook`];
    /// [`StoredKeyError::Memory`].
    pub fn expand(&mut self, key: &[u8]) -> Result<Vec<u8>, StoredKeyError> {
        let call = with(calls::uca_expand, &mut self.inner, key);
        self.room.written(room::for_bytes(key), call).map_err(StoredKeyError::of)
    }

    /// Writes the whole key of a compact key in place of what `whole` has, and uses its memory again.
    ///
    /// # Errors
    ///
    /// Those of [`Collator::expand`]. Then `whole` is empty.
    pub fn expand_into(&mut self, key: &[u8], whole: &mut Vec<u8>) -> Result<(), StoredKeyError> {
        whole.clear();
        let call = with(calls::uca_expand, &mut self.inner, key);
        append(whole, room::for_bytes(key), call).map_err(StoredKeyError::of)
    }

    /// How two texts compare, without keys. A book changes nothing here.
    ///
    /// # Errors
    ///
    /// [`TextError`] says why the left text is rejected, or else the right one, or that memory ran out.
    pub fn compare(&mut self, left: impl AsRef<[u8]>, right: impl AsRef<[u8]>) -> Result<Comparison, TextError> {
        let (left, right, mut found) = (left.as_ref(), right.as_ref(), calls::Comparison::default());
        // SAFETY: the texts are borrowed for the call.
        match unsafe {
            calls::uca_compare(&mut self.inner, left.as_ptr(), left.len(), right.as_ptr(), right.len(), &mut found)
        } {
            calls::OK => Ok(found.into()),
            status => Err(TextError::of(status)),
        }
    }

    /// The order of any bytes, for what has to place each row of a table. Texts are in their order, as
    /// [`Collator::compare`] says. All bytes that it rejects come after them, in the order of bytes.
    ///
    /// # Errors
    ///
    /// [`TextError::Memory`] alone.
    pub fn order(&mut self, left: impl AsRef<[u8]>, right: impl AsRef<[u8]>) -> Result<Ordering, TextError> {
        let (left, right, mut order) = (left.as_ref(), right.as_ref(), 0);
        // SAFETY: the bytes are borrowed for the call.
        match unsafe {
            calls::uca_order(&mut self.inner, left.as_ptr(), left.len(), right.as_ptr(), right.len(), &mut order)
        } {
            calls::OK => Ok(order.cmp(&0)),
            status => Err(TextError::of(status)),
        }
    }
}

impl Drop for Collator {
    fn drop(&mut self) {
        // SAFETY: the collator is open, and nothing uses it after this.
        unsafe { calls::uca_close(&mut self.inner) }
    }
}

/// How two whole keys of so many levels compare: 3, one more under [`crate::Weighting::Shifted`], and one more at
/// [`crate::Depth::Identical`]. Compact keys are compared as bytes instead, and so are whole keys where the level
/// does not matter.
///
/// ```
/// let (small, capital) = ([0x1C, 0x47, 0, 0, 0, 0x20, 0, 0, 0, 2], [0x1C, 0x47, 0, 0, 0, 0x20, 0, 0, 0, 8]);
/// let found = uca::compare_keys(&small, &capital, 3);
/// assert!(found.order.is_lt());
/// assert_eq!(found.level, 3);
/// ```
pub fn compare_keys(left: &[u8], right: &[u8], levels: u8) -> Comparison {
    let mut found = calls::Comparison::default();
    // SAFETY: the keys are borrowed for the call.
    unsafe { calls::uca_compare_keys(left.as_ptr(), left.len(), right.as_ptr(), right.len(), levels, &mut found) };
    found.into()
}
