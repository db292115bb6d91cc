//! Sorting by keys that are made once for each text.
use crate::{Collator, TextError};

impl Collator {
    /// Sorts texts. Equal ones keep their order.
    ///
    /// # Errors
    ///
    /// [`TextError`] says why a text is rejected, or that memory ran out. Then all texts are where they were.
    pub fn sort<T: AsRef<[u8]>>(&mut self, texts: &mut [T]) -> Result<(), TextError> {
        self.sort_by_text(texts, |it| it)
    }

    /// Sorts values by a text of each. Equal ones keep their order.
    ///
    /// ```
    /// # let table = b"@version 1\n0061 ; [.1C47.0020.0002]\n0062 ; [.1C60.0020.0002]\n";
    /// # let mut collator = uca::Collator::options().open(table, b"@data 1\n")?;
    /// let mut people = vec![("b", 1930), ("a", 1950), ("a", 1940)];
    /// collator.sort_by_text(&mut people, |(name, _)| *name)?;
    /// assert_eq!(people, [("a", 1950), ("a", 1940), ("b", 1930)]);
    /// # Ok::<(), Box<dyn std::error::Error>>(())
    /// ```
    ///
    /// The text of a value is one that the value has. Where you make it, such as by `format!`, make keys by
    /// [`Collator::key`], and sort by these.
    ///
    /// # Errors
    ///
    /// Those of [`Collator::sort`].
    pub fn sort_by_text<T, B: AsRef<[u8]> + ?Sized>(
        &mut self,
        values: &mut [T],
        text: impl Fn(&T) -> &B,
    ) -> Result<(), TextError> {
        let keys = Keys::of(self, values.iter().map(|it| text(it).as_ref()))?;
        let mut places = Vec::new();
        places.try_reserve_exact(values.len()).map_err(|_| TextError::Memory)?;
        places.extend(0..values.len());
        // without memory of its own, and places make it stable
        places.sort_unstable_by(|&one, &other| keys.at(one).cmp(keys.at(other)).then(one.cmp(&other)));
        arrange(values, &mut places);
        Ok(())
    }
}

/// The keys of some texts, one after another.
struct Keys {
    bytes: Vec<u8>,
    ends: Vec<usize>,
}

impl Keys {
    fn of<'a>(collator: &mut Collator, texts: impl ExactSizeIterator<Item = &'a [u8]>) -> Result<Self, TextError> {
        let mut found = Self { bytes: Vec::new(), ends: Vec::new() };
        found.ends.try_reserve_exact(texts.len()).map_err(|_| TextError::Memory)?;
        for text in texts {
            collator.append_key(text, &mut found.bytes)?;
            found.ends.push(found.bytes.len());
        }
        Ok(found)
    }

    /// The key of the text at this place.
    fn at(&self, place: usize) -> &[u8] {
        let start = if place == 0 { 0 } else { self.ends[place - 1] };
        &self.bytes[start..self.ends[place]]
    }
}

/// Puts the value that was at `from[i]` to `i`, for each `i`.
fn arrange<T>(values: &mut [T], from: &mut [usize]) {
    for first in 0..values.len() {
        let mut place = first;
        while from[place] != first {
            let next = from[place];
            values.swap(place, next);
            from[place] = place;
            place = next;
        }
        from[place] = place;
    }
}
