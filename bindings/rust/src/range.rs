//! Ranges of keys, and the pairs in them.
use crate::ffi::{Lease, Page};
use crate::{Error, Handle, MAX_KEY};
use std::alloc::{handle_alloc_error, Layout};
use std::fmt;
use std::iter::FusedIterator;
use std::ops::{self, Bound, RangeBounds};

/// A key of at most 240 bytes, in its place.
#[derive(Clone, Copy)]
pub(crate) struct Key {
    bytes: [u8; MAX_KEY],
    length: usize,
}

impl Key {
    /// The key that comes after no other.
    pub(crate) const LEAST: Key = Key {
        bytes: [0; MAX_KEY],
        length: 0,
    };
    /// The key that no other comes after.
    pub(crate) const GREATEST: Key = Key {
        bytes: [0xff; MAX_KEY],
        length: MAX_KEY,
    };

    /// These bytes, or the first 240.
    fn new(bytes: &[u8]) -> Key {
        let mut key = Key::LEAST;
        for (to, from) in key.bytes.iter_mut().zip(bytes) {
            *to = *from;
            key.length += 1;
        }
        key
    }

    pub(crate) fn bytes(&self) -> &[u8] {
        self.bytes.get(..self.length).unwrap_or_default()
    }

    /// The greatest key that begins with this one.
    fn filled(mut self) -> Key {
        self.bytes.iter_mut().skip(self.length).for_each(|byte| *byte = 0xff);
        self.length = MAX_KEY;
        self
    }

    /// The least key above this one.
    fn after(mut self) -> Option<Key> {
        if let Some(byte) = self.bytes.get_mut(self.length) {
            *byte = 0;
            self.length += 1;
            return Some(self);
        }
        let last = self.bytes.iter().rposition(|byte| *byte != 0xff)?;
        *self.bytes.get_mut(last)? += 1;
        self.length = last + 1;
        Some(self)
    }

    /// The greatest key below this one.
    fn before(mut self) -> Option<Key> {
        let last = self.length.checked_sub(1)?;
        match self.bytes.get_mut(last)? {
            0 => {
                self.length = last;
                Some(self)
            }
            byte => {
                *byte -= 1;
                Some(self.filled())
            }
        }
    }
}

/// A range of keys, as `..`, `"a".."b"`, `&from..=&upto`, or a pair of bounds, or a reference to one: what `RangeBounds` is for other maps.
pub trait KeyRange {
    /// Its bounds, as bytes.
    fn key_bounds(&self) -> (Bound<&[u8]>, Bound<&[u8]>);
}

impl<R: KeyRange + ?Sized> KeyRange for &R {
    fn key_bounds(&self) -> (Bound<&[u8]>, Bound<&[u8]>) {
        (**self).key_bounds()
    }
}

impl KeyRange for ops::RangeFull {
    fn key_bounds(&self) -> (Bound<&[u8]>, Bound<&[u8]>) {
        (Bound::Unbounded, Bound::Unbounded)
    }
}

fn as_bytes<K: AsRef<[u8]>>(bound: Bound<&K>) -> Bound<&[u8]> {
    match bound {
        Bound::Included(key) => Bound::Included(key.as_ref()),
        Bound::Excluded(key) => Bound::Excluded(key.as_ref()),
        Bound::Unbounded => Bound::Unbounded,
    }
}

macro_rules! key_ranges {
    ($($of:ty),*) => { $(
        impl<K: AsRef<[u8]>> KeyRange for $of {
            fn key_bounds(&self) -> (Bound<&[u8]>, Bound<&[u8]>) {
                (as_bytes(self.start_bound()), as_bytes(self.end_bound()))
            }
        }
    )* };
}

key_ranges!(
    ops::Range<K>,
    ops::RangeInclusive<K>,
    ops::RangeFrom<K>,
    ops::RangeTo<K>,
    ops::RangeToInclusive<K>,
    (Bound<K>, Bound<K>)
);

/// The least and the greatest key that a range may have, or `None` if it has none.
pub(crate) fn ends(range: &impl KeyRange) -> Option<(Key, Key)> {
    let (from, upto) = range.key_bounds();
    let from = match from {
        Bound::Unbounded => Key::LEAST,
        Bound::Included(key) if key.len() <= MAX_KEY => Key::new(key),
        // Above a key that is too long are those above its first 240 bytes.
        Bound::Included(key) | Bound::Excluded(key) => Key::new(key).after()?,
    };
    let upto = match upto {
        Bound::Unbounded => Key::GREATEST,
        Bound::Excluded(key) if key.len() <= MAX_KEY => Key::new(key).before()?,
        Bound::Included(key) | Bound::Excluded(key) => Key::new(key),
    };
    if from.bytes() <= upto.bytes() {
        Some((from, upto))
    } else {
        None
    }
}

/// The least and the greatest key that may begin with a prefix, or `None` if none does.
fn ends_of_prefix(prefix: &[u8]) -> Option<(Key, Key)> {
    let least = Key::new(prefix);
    if prefix.len() <= MAX_KEY {
        Some((least, least.filled()))
    } else {
        None
    }
}

/// How many keys there are between these ends.
fn count_between(handle: &Handle, ends: Option<(Key, Key)>) -> usize {
    ends.map_or(0, |(from, upto)| handle.lease().count(from.bytes(), upto.bytes()))
}

/// How many keys a range has.
pub(crate) fn count(handle: &Handle, keys: &impl KeyRange) -> usize {
    count_between(handle, ends(keys))
}

/// How many keys begin with a prefix.
pub(crate) fn count_prefix(handle: &Handle, prefix: &[u8]) -> usize {
    count_between(handle, ends_of_prefix(prefix))
}

/// The values of a range, by a scan with room for some more keys than there were, and for twice as many as long as that has more.
pub(crate) fn values(handle: &Handle, keys: &impl KeyRange) -> Result<Vec<u64>, Error> {
    let (from, upto) = match ends(keys) {
        Some(both) => both,
        None => return Ok(Vec::new()),
    };
    let mut limit = handle.lease().count(from.bytes(), upto.bytes()) + LARGEST_PAGE;
    loop {
        match handle.lease().values(from.bytes(), upto.bytes(), limit)? {
            (values, false) => return Ok(values),
            _ => limit = limit.saturating_mul(2),
        }
    }
}

/// How many pairs are asked for at first, for who takes one or two, and at most.
const SMALLEST_PAGE: usize = 8;
const LARGEST_PAGE: usize = 128;

/// The keys of a range that are still to be asked for.
pub(crate) struct Left {
    ends: Option<(Key, Key)>,
    page: usize,
}

impl Left {
    pub(crate) fn new(ends: Option<(Key, Key)>) -> Left {
        Left {
            ends,
            page: SMALLEST_PAGE,
        }
    }

    pub(crate) fn is_empty(&self) -> bool {
        self.ends.is_none()
    }

    /// Lists the first pairs, or the last ones, in a page that has none left, if there are any.
    pub(crate) fn list(&mut self, lease: &Lease, is_first: bool, page: &mut Page) -> Result<(), Error> {
        let (from, upto) = match self.ends {
            Some(both) => both,
            None => return Ok(()),
        };
        let more = if is_first {
            lease.scan(from.bytes(), upto.bytes(), self.page, page)?
        } else {
            lease.scan_last(from.bytes(), upto.bytes(), self.page, page)?
        };
        let last = page.last().filter(|_| more).map(Key::new);
        self.ends = if is_first {
            last.and_then(Key::after).map(|next| (next, upto))
        } else {
            last.and_then(Key::before).map(|next| (from, next))
        };
        self.ends = self.ends.filter(|(from, upto)| from.bytes() <= upto.bytes());
        self.page = LARGEST_PAGE.min(self.page * 2);
        Ok(())
    }
}

/// The pairs of a range of keys, in order from either end: see [`Handle::range`].
pub struct Range<'a> {
    handle: &'a Handle,
    left: Left,
    front: Page,
    back: Page,
}

impl<'a> Range<'a> {
    pub(crate) fn new(handle: &'a Handle, keys: &impl KeyRange) -> Self {
        Range::between(handle, ends(keys))
    }

    pub(crate) fn prefix(handle: &'a Handle, prefix: &[u8]) -> Self {
        Range::between(handle, ends_of_prefix(prefix))
    }

    fn between(handle: &'a Handle, ends: Option<(Key, Key)>) -> Self {
        Range {
            handle,
            left: Left::new(ends),
            front: Page::default(),
            back: Page::default(),
        }
    }

    /// The page with the least pair that is left, if there is one.
    fn least(&mut self) -> Result<&mut Page, Error> {
        if self.front.is_empty() {
            self.left.list(self.handle.lease(), true, &mut self.front)?;
        }
        Ok(if self.front.is_empty() {
            &mut self.back
        } else {
            &mut self.front
        })
    }

    /// The page with the greatest pair that is left, if there is one.
    fn greatest(&mut self) -> Result<&mut Page, Error> {
        if self.back.is_empty() {
            self.left.list(self.handle.lease(), false, &mut self.back)?;
        }
        Ok(if self.back.is_empty() {
            &mut self.front
        } else {
            &mut self.back
        })
    }

    /// [`next`](Iterator::next) without a copy of the key, which lies in the range until its next call.
    ///
    /// ```
    /// let handle = hot::Hot::with_capacity(10, 8, 1)?.handle()?;
    /// handle.extend([("a", 1), ("b", 2), ("c", 3)])?;
    /// let mut pairs = handle.range("b"..);
    /// while let Some((key, value)) = pairs.next_ref() {
    ///     println!("{} {value}", String::from_utf8_lossy(key));
    /// }
    /// # Ok::<(), hot::Error>(())
    /// ```
    pub fn next_ref(&mut self) -> Option<(&[u8], u64)> {
        self.try_next_ref().unwrap_or_else(|why| out_of_memory(why))
    }

    /// [`next_back`](DoubleEndedIterator::next_back) in the same way.
    pub fn next_back_ref(&mut self) -> Option<(&[u8], u64)> {
        self.try_next_back_ref().unwrap_or_else(|why| out_of_memory(why))
    }

    /// [`next_ref`](Range::next_ref), which returns [`Error::NoMemory`] where that would end the program. The pair comes with a later call.
    pub fn try_next_ref(&mut self) -> Result<Option<(&[u8], u64)>, Error> {
        self.least().map(|page| page.take(true))
    }

    /// [`next_back_ref`](Range::next_back_ref) in the same way.
    pub fn try_next_back_ref(&mut self) -> Result<Option<(&[u8], u64)>, Error> {
        self.greatest().map(|page| page.take(false))
    }

    /// [`next`](Iterator::next) in the same way.
    pub fn try_next(&mut self) -> Result<Option<(Vec<u8>, u64)>, Error> {
        self.least()?.take_copy(true)
    }

    /// [`next_back`](DoubleEndedIterator::next_back) in the same way.
    pub fn try_next_back(&mut self) -> Result<Option<(Vec<u8>, u64)>, Error> {
        self.greatest()?.take_copy(false)
    }
}

impl Iterator for Range<'_> {
    type Item = (Vec<u8>, u64);
    fn next(&mut self) -> Option<Self::Item> {
        self.try_next().unwrap_or_else(|why| out_of_memory(why))
    }
}

impl DoubleEndedIterator for Range<'_> {
    fn next_back(&mut self) -> Option<Self::Item> {
        self.try_next_back().unwrap_or_else(|why| out_of_memory(why))
    }
}

impl FusedIterator for Range<'_> {}

impl fmt::Debug for Range<'_> {
    fn fmt(&self, to: &mut fmt::Formatter<'_>) -> fmt::Result {
        to.debug_struct("Range").finish_non_exhaustive()
    }
}

/// Ends the program as Rust's collections do: a look-up or a scan is refused only where there is no memory.
pub(crate) fn out_of_memory(_why: Error) -> ! {
    handle_alloc_error(Layout::new::<(Key, u64)>())
}
