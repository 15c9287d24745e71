//! An ordered map from keys of up to 240 bytes to `u64`, in memory, which many threads read and change at once with no lock around it.
//!
//! [`Hot`] is the index, which all threads share. Calls are made by a [`Handle`], of which each thread has its own. The number of handles is fixed
//! when the index is made, and so is the room for keys, unless it grows ([`Hot::growing`]). The names are those of `BTreeMap`, where the
//! meaning is the same. A [`Map`] has values of any type, and needs no handles.
//!
//! ```
//! use hot::Hot;
//!
//! let index = Hot::with_capacity(1000, 16, 2)?;
//! std::thread::scope(|scope| {
//!     for (key, value) in [("ash", 1), ("oak", 2)] {
//!         let index = &index;
//!         scope.spawn(move || index.handle()?.insert(key, value));
//!     }
//! });
//! let handle = index.handle()?;
//! assert_eq!(handle.get("oak"), Some(2));
//! assert_eq!(handle.range("a".."b").next(), Some((b"ash".to_vec(), 1)));
//! # Ok::<(), hot::Error>(())
//! ```
#![deny(missing_docs, unsafe_code, unsafe_op_in_unsafe_fn)]
#![deny(clippy::unwrap_used, clippy::expect_used, clippy::panic, clippy::indexing_slicing)]
mod error;
mod ffi;
mod growing;
mod key;
pub mod map;
mod range;

pub use error::{CompareExchangeError, Error, LoadError, TryInsertError};
pub use growing::{Growing, User};
pub use key::{key_of, values_of, FromKey, ToKey};
pub use map::Map;
pub use range::{KeyRange, Range};

use ffi::{Index, Lease, Room, Seen, Taken};
use std::fmt;
use std::sync::Arc;

/// The code of the README, which `cargo test` runs.
#[cfg(doctest)]
#[doc = include_str!("../README.md")]
struct Readme;

/// The greatest length of a key, in bytes. A longer key is never there: a look-up doesn't find it, and a bound of a range is what it
/// is for any other map. No call inserts it.
pub const MAX_KEY: usize = 240;

/// How many keys are looked up by one call of the library, as `hot.h` advises.
const MANY: usize = 256;

/// How many handles an index has room for that is collected from pairs.
const COLLECTED: usize = 64;

/// How many records of each size an index has: `hot_stock`.
#[repr(C)]
#[derive(Clone, Copy, Debug, Default, PartialEq, Eq, Hash)]
pub struct Stock {
    /// Node records.
    pub nodes: u32,
    /// Leaf records for keys of up to 8 bytes.
    pub short_leaves: u32,
    /// Leaf records for keys of up to 24 bytes.
    pub medium_leaves: u32,
    /// Leaf records for keys of up to 56 bytes.
    pub large_leaves: u32,
    /// Leaf records for keys of up to 88 bytes.
    pub wide_leaves: u32,
    /// Leaf records for keys of any length.
    pub long_leaves: u32,
}

impl Stock {
    /// A stock for so many keys of at most `longest` bytes: `hot_stock_for_keys`.
    pub fn for_keys(keys: usize, longest: usize) -> Result<Stock, Error> {
        let keys = u32::try_from(keys).map_err(|_| Error::OutOfRange)?;
        Ok(ffi::stock_for_keys(keys, longest))
    }

    /// A stock that is always enough for so many keys of at most `longest` bytes, whatever they are, in an index of so many handles:
    /// `hot_stock_for_any_keys`.
    pub fn for_any_keys(keys: usize, longest: usize, handles: usize) -> Result<Stock, Error> {
        let keys = u32::try_from(keys).map_err(|_| Error::OutOfRange)?;
        Ok(ffi::stock_for_any_keys(keys, longest, handles))
    }

    /// How many bytes the records and pins of an index with this stock and so many handles have. A page of them takes memory
    /// once something is written there. The lists of handles are not counted.
    pub fn bytes(&self, handles: usize) -> Result<usize, Error> {
        let (status, bytes) = ffi::stock_bytes(self, handles);
        Error::check(status).map(|_| bytes)
    }
}

/// How many records of one size are in each state: `hot_states`.
#[repr(C)]
#[derive(Clone, Copy, Debug, Default, PartialEq, Eq, Hash)]
pub struct States {
    /// Ready for use.
    pub free: u32,
    /// Claimed by a change, and not ready yet.
    pub held: u32,
    /// In use.
    pub live: u32,
    /// Retired, and not given back yet.
    pub obsolete: u32,
}

/// How many records of each size are in each state: `hot_counts`.
#[repr(C)]
#[derive(Clone, Copy, Debug, Default, PartialEq, Eq, Hash)]
pub struct Census {
    /// Node records.
    pub nodes: States,
    /// Leaf records for keys of up to 8 bytes.
    pub short_leaves: States,
    /// Leaf records for keys of up to 24 bytes.
    pub medium_leaves: States,
    /// Leaf records for keys of up to 56 bytes.
    pub large_leaves: States,
    /// Leaf records for keys of up to 88 bytes.
    pub wide_leaves: States,
    /// Leaf records for keys of any length.
    pub long_leaves: States,
    /// How many bytes records and pins take.
    pub bytes: usize,
}

/// How often tries to change an index were refused: `hot_refusals`. A change tries again as long as another is in its way or holds records
/// back, and each try counts.
#[repr(C)]
#[derive(Clone, Copy, Debug, Default, PartialEq, Eq, Hash)]
pub struct Stats {
    /// Another call was in the way.
    pub busy: u64,
    /// Too few records were free, but by a count some may come back.
    pub held_back: u64,
    /// Too few records were free, and by a count none comes back.
    pub full: u64,
}

/// What an index takes of memory, in bytes, with all of its handles: `hot_memory`.
#[repr(C)]
#[derive(Clone, Copy, Debug, Default, PartialEq, Eq, Hash)]
pub struct Memory {
    /// Once all records and handles have been used.
    pub most: usize,
    /// Now: a page that was only read may count, too.
    pub now: usize,
}

/// An index. Clones are the same index.
#[derive(Clone)]
pub struct Hot {
    index: Arc<Index>,
}

impl Hot {
    /// Makes an empty index with room for so many keys of at most `longest` bytes, and for 1 to 1,024 handles at a time: if these are
    /// several, for 256 keys each at least, and 8 at most. What isn't used takes no memory.
    pub fn with_capacity(keys: usize, longest: usize, handles: usize) -> Result<Hot, Error> {
        let least = if handles > 1 { 256 * handles.min(8) } else { 0 };
        Hot::with_stock(&Stock::for_keys(keys.max(least), longest)?, handles)
    }

    /// Makes an empty index with these records, and room for 1 to 1,024 handles at a time.
    pub fn with_stock(stock: &Stock, handles: usize) -> Result<Hot, Error> {
        let index = Arc::new(Index::open(stock, handles)?);
        Ok(Hot { index })
    }

    /// Makes an index of these pairs, whose keys rise, with these records and room for 1 to 1,024 handles at a time. Where a pair is refused no
    /// index is made: [`Error::NotRising`] if its key is not above the one before, or what a change returns.
    ///
    /// ```
    /// use hot::{Error, Hot, LoadError, Stock};
    ///
    /// let stock = Stock::for_keys(10, 8)?;
    /// let index = Hot::from_sorted_iter(&stock, 1, [("ash", 1), ("oak", 2)])?;
    /// assert_eq!(index.handle()?.get("oak"), Some(2));
    /// let falls = Hot::from_sorted_iter(&stock, 1, [("oak", 1), ("ash", 2)]);
    /// assert_eq!(falls.err(), Some(LoadError { error: Error::NotRising, count: 1 }));
    /// # Ok::<(), Box<dyn std::error::Error>>(())
    /// ```
    pub fn from_sorted_iter<K: AsRef<[u8]>>(
        stock: &Stock,
        handles: usize,
        pairs: impl IntoIterator<Item = (K, u64)>,
    ) -> Result<Hot, LoadError> {
        Hot::loaded(Index::load(&Room::Fixed(stock), handles, pairs.into_iter()))
    }

    /// Makes an empty index that grows, for keys of which nobody can say how many there will be, with room for 1 to 1,023 handles at a time. It
    /// begins small, and its calls are those of any other. It commits `most` bytes of records at most, except nodes for removals.
    ///
    /// ```
    /// let index = hot::Hot::growing(usize::MAX, 2)?;
    /// let handle = index.handle()?;
    /// for number in 0..5000u64 {
    ///     handle.insert(number.to_be_bytes(), number)?;
    /// }
    /// handle.clear_range(10u64.to_be_bytes()..)?;
    /// drop(handle);
    /// index.trim()?;
    /// let handle = index.handle()?;
    /// assert_eq!((handle.len(), handle.census().bytes < 100_000), (10, true));
    /// # Ok::<(), hot::Error>(())
    /// ```
    pub fn growing(most: usize, handles: usize) -> Result<Hot, Error> {
        Hot::growing_with(None, most, handles)
    }

    pub(crate) fn growing_with(stock: Option<&Stock>, most: usize, handles: usize) -> Result<Hot, Error> {
        let index = Arc::new(Index::growing(stock, most, handles)?);
        Ok(Hot { index })
    }

    /// Makes an index that grows of these pairs, whose keys rise, as [`Hot::from_sorted_iter`] makes one.
    pub fn growing_from_sorted_iter<K: AsRef<[u8]>>(
        most: usize,
        handles: usize,
        pairs: impl IntoIterator<Item = (K, u64)>,
    ) -> Result<Hot, LoadError> {
        Hot::loaded(Index::load(&Room::Grows(most), handles, pairs.into_iter()))
    }

    fn loaded(index: Result<Index, (Error, usize)>) -> Result<Hot, LoadError> {
        let index = Arc::new(index.map_err(|(error, count)| LoadError { error, count })?);
        Ok(Hot { index })
    }

    /// Has nothing to do: an index that grows commits records as it needs them. [`Error::NotGrowing`] if it doesn't grow.
    pub fn grow(&self) -> Result<(), Error> {
        Error::check(self.index.grow()).map(|_| ())
    }

    /// Gives back the memory that the keys of an index that grows don't need, while no handle is open: it makes the table anew.
    /// [`Error::NotGrowing`] if it doesn't grow.
    pub fn trim(&self) -> Result<(), Error> {
        Error::check(self.index.trim()).map(|_| ())
    }

    /// Whether it is time for [`Hot::grow`]: it never is.
    pub fn is_filling(&self) -> bool {
        self.index.is_filling()
    }

    /// Opens a handle, at any time and from any thread. It is closed when it is dropped. [`Error::NoHandle`] if all are open.
    pub fn handle(&self) -> Result<Handle, Error> {
        let lease = self.index.lease()?;
        Ok(Handle { lease })
    }

    /// How many handles the index has room for.
    pub fn handles(&self) -> usize {
        self.index.handles()
    }

    /// How often tries were refused since the index was made, through any handle: exact while nobody changes the index. A try that found a
    /// record free after it had collected counts nowhere.
    pub fn stats(&self) -> Stats {
        self.index.stats()
    }

    /// What the index takes of memory. It asks the system which pages are there: a few tenths of a millisecond for 1 GB.
    pub fn bytes(&self) -> Memory {
        self.index.bytes()
    }
}

/// Makes an index that grows, with room for 64 handles at a time. Of pairs with the same key the last one counts.
///
/// It panics where a key has more than [`MAX_KEY`] bytes; [`Handle::extend`] returns why.
///
/// ```
/// let index: hot::Hot = [("oak", 1), ("ash", 2)].into_iter().collect();
/// assert_eq!(index.handle()?.get("oak"), Some(1));
/// # Ok::<(), hot::Error>(())
/// ```
impl<K: AsRef<[u8]>> FromIterator<(K, u64)> for Hot {
    fn from_iter<I: IntoIterator<Item = (K, u64)>>(pairs: I) -> Hot {
        Hot::growing(usize::MAX, COLLECTED)
            .and_then(|index| index.handle()?.extend(pairs).map(|_| index))
            .unwrap_or_else(|why| refused(why))
    }
}

/// [`Handle::extend`] for what takes an `Extend`. It panics where that returns an error.
impl<K: AsRef<[u8]>> Extend<(K, u64)> for &Handle {
    fn extend<I: IntoIterator<Item = (K, u64)>>(&mut self, pairs: I) {
        Handle::extend(self, pairs).unwrap_or_else(|why| refused(why));
    }
}

/// Ends a call that returns no error, as it would end for Rust's collections.
#[allow(clippy::panic)]
fn refused(why: Error) -> ! {
    match why {
        Error::NoMemory => range::out_of_memory(why),
        _ => panic!("{why}"),
    }
}

/// All that a handle had seen when [`Handle::stamp`] made it. Any thread may have it, and clones of it.
#[derive(Clone)]
pub struct Moment {
    seen: Seen,
}

impl fmt::Debug for Moment {
    fn fmt(&self, to: &mut fmt::Formatter<'_>) -> fmt::Result {
        to.debug_struct("Moment").finish_non_exhaustive()
    }
}

/// A moment by which something was out of the index, when [`Handle::retired`] made it. Any thread may have it, and clones of it.
#[derive(Clone)]
pub struct Retirement {
    taken: Taken,
}

impl fmt::Debug for Retirement {
    fn fmt(&self, to: &mut fmt::Formatter<'_>) -> fmt::Result {
        to.debug_struct("Retirement").finish_non_exhaustive()
    }
}

/// A handle's section, until it is dropped: [`Handle::enter`].
#[must_use = "the section is left when this is dropped"]
pub struct Section<'a> {
    handle: &'a Handle,
}

impl Drop for Section<'_> {
    fn drop(&mut self) {
        self.handle.lease.leave();
    }
}

impl fmt::Debug for Section<'_> {
    fn fmt(&self, to: &mut fmt::Formatter<'_>) -> fmt::Result {
        to.debug_struct("Section").finish_non_exhaustive()
    }
}

impl fmt::Debug for Hot {
    fn fmt(&self, to: &mut fmt::Formatter<'_>) -> fmt::Result {
        to.debug_struct("Hot")
            .field("handles", &self.handles())
            .finish_non_exhaustive()
    }
}

/// The right to use an index, for one thread at a time: it is `Send`, and not `Sync`.
///
/// ```compile_fail
/// fn is_shared<T: Sync>() {}
/// is_shared::<hot::Handle>();
/// ```
///
/// A change waits while changes of other threads are in its way. A call that needs memory and finds none ends the program, as Rust's
/// collections do, where it does not return an [`Error`].
pub struct Handle {
    lease: Lease,
}

impl Handle {
    pub(crate) fn lease(&self) -> &Lease {
        &self.lease
    }

    /// The index.
    pub fn index(&self) -> Hot {
        Hot {
            index: Arc::clone(self.lease.index()),
        }
    }

    /// The key's value.
    pub fn get(&self, key: impl AsRef<[u8]>) -> Option<u64> {
        match self.lease.get(key.as_ref()) {
            (ffi::FOUND, value) => Some(value),
            _ => None,
        }
    }

    /// Whether the key is there.
    pub fn contains_key(&self, key: impl AsRef<[u8]>) -> bool {
        self.get(key).is_some()
    }

    /// The value of each key, at its place. Each is of a moment of its own within the call.
    pub fn get_many<K: AsRef<[u8]>>(&self, keys: &[K]) -> Result<Vec<Option<u64>>, Error> {
        let (mut found, mut short) = (Vec::new(), Vec::new());
        short
            .try_reserve_exact(MANY.min(keys.len()))
            .map_err(|_| Error::NoMemory)?;
        for key in keys.iter().map(AsRef::as_ref) {
            // A key that is too long ends the keys that are looked up together, and isn't found.
            let is_short = key.len() <= MAX_KEY;
            if short.len() == MANY || !is_short {
                self.lease.get_many(&short, &mut found)?;
                short.clear();
            }
            if is_short {
                short.push(key);
            } else {
                found.try_reserve(1).map_err(|_| Error::NoMemory)?;
                found.push(None);
            }
        }
        self.lease.get_many(&short, &mut found)?;
        Ok(found)
    }

    /// Gives the key the value, and returns the one that it had.
    ///
    /// ```
    /// let handle = hot::Hot::with_capacity(10, 8, 1)?.handle()?;
    /// assert_eq!(handle.insert("oak", 1), Ok(None));
    /// assert_eq!(handle.insert("oak", 2), Ok(Some(1)));
    /// # Ok::<(), hot::Error>(())
    /// ```
    pub fn insert(&self, key: impl AsRef<[u8]>, value: u64) -> Result<Option<u64>, Error> {
        let (status, had) = self.lease.upsert(key.as_ref(), value);
        Ok(if Error::check(status)? == ffi::WAS {
            Some(had)
        } else {
            None
        })
    }

    /// Gives the key the value if it is absent.
    ///
    /// ```
    /// use hot::TryInsertError::Occupied;
    ///
    /// let handle = hot::Hot::with_capacity(10, 8, 1)?.handle()?;
    /// assert_eq!(handle.try_insert("oak", 1), Ok(()));
    /// assert_eq!(handle.try_insert("oak", 2), Err(Occupied(1)));
    /// # Ok::<(), hot::Error>(())
    /// ```
    pub fn try_insert(&self, key: impl AsRef<[u8]>, value: u64) -> Result<(), TryInsertError> {
        let (status, had) = self.lease.insert(key.as_ref(), value);
        match Error::check(status)? {
            ffi::INSERTED => Ok(()),
            _ => Err(TryInsertError::Occupied(had)),
        }
    }

    /// Gives each key its value, in turn. The first that is refused ends it; those before it are there.
    pub fn extend<K: AsRef<[u8]>>(&self, pairs: impl IntoIterator<Item = (K, u64)>) -> Result<(), Error> {
        pairs
            .into_iter()
            .try_for_each(|(key, value)| self.insert(key, value).map(|_| ()))
    }

    /// Removes the key, and returns its value.
    pub fn remove(&self, key: impl AsRef<[u8]>) -> Result<Option<u64>, Error> {
        match self.lease.remove(key.as_ref()) {
            (ffi::REMOVED, had) => Ok(Some(had)),
            (ffi::KEY_TOO_LONG, _) => Ok(None),
            (status, _) => Error::check(status).map(|_| None),
        }
    }

    /// Gives the key the value `new` if it has the value `current`, which is returned.
    ///
    /// ```
    /// use hot::CompareExchangeError::{Absent, Differs};
    ///
    /// let handle = hot::Hot::with_capacity(10, 8, 1)?.handle()?;
    /// assert_eq!(handle.compare_exchange("oak", 1, 2), Err(Absent));
    /// handle.insert("oak", 1)?;
    /// assert_eq!(handle.compare_exchange("oak", 1, 2), Ok(1));
    /// assert_eq!(handle.compare_exchange("oak", 1, 3), Err(Differs(2)));
    /// # Ok::<(), hot::Error>(())
    /// ```
    pub fn compare_exchange(&self, key: impl AsRef<[u8]>, current: u64, new: u64) -> Result<u64, CompareExchangeError> {
        expected(self.lease.exchange(key.as_ref(), current, new), current)
    }

    /// Removes the key if it has the value `current`, which is returned.
    pub fn remove_if(&self, key: impl AsRef<[u8]>, current: u64) -> Result<u64, CompareExchangeError> {
        expected(self.lease.remove_if(key.as_ref(), current), current)
    }

    /// Gives the key the value that `change` makes of the one that it has, or removes it where that is `None`, and returns the one that
    /// it had. `change` is called again as long as other threads change the key meanwhile.
    ///
    /// ```
    /// let handle = hot::Hot::with_capacity(10, 8, 1)?.handle()?;
    /// for _ in 0..3 {
    ///     handle.fetch_update("oak", |had| Some(had.unwrap_or(0) + 1))?;
    /// }
    /// assert_eq!(handle.get("oak"), Some(3));
    /// # Ok::<(), hot::Error>(())
    /// ```
    pub fn fetch_update(
        &self,
        key: impl AsRef<[u8]>,
        mut change: impl FnMut(Option<u64>) -> Option<u64>,
    ) -> Result<Option<u64>, Error> {
        let key = key.as_ref();
        let mut had = self.get(key);
        loop {
            let new = change(had);
            let made = match (had, new) {
                _ if had == new => return Ok(had),
                (Some(old), Some(new)) => self.compare_exchange(key, old, new),
                (Some(old), None) => self.remove_if(key, old),
                (None, _) => match self.try_insert(key, new.unwrap_or_default()) {
                    Ok(()) => return Ok(None),
                    Err(TryInsertError::Occupied(now)) => Err(CompareExchangeError::Differs(now)),
                    Err(TryInsertError::Refused(why)) => return Err(why),
                },
            };
            had = match made {
                Ok(_) => return Ok(had),
                Err(CompareExchangeError::Differs(now)) => Some(now),
                Err(CompareExchangeError::Absent) => None,
                Err(CompareExchangeError::Refused(why)) => return Err(why),
            };
        }
    }

    /// Adds to the value of a key that is there, wrapping around, and returns the one before; `None` if the key is absent.
    ///
    /// ```
    /// let handle = hot::Hot::with_capacity(10, 8, 1)?.handle()?;
    /// assert_eq!(handle.add("oak", 2), Ok(None));
    /// handle.insert("oak", 1)?;
    /// assert_eq!(handle.add("oak", 2), Ok(Some(1)));
    /// assert_eq!(handle.get("oak"), Some(3));
    /// # Ok::<(), hot::Error>(())
    /// ```
    pub fn add(&self, key: impl AsRef<[u8]>, delta: u64) -> Result<Option<u64>, Error> {
        match self.lease.add(key.as_ref(), delta) {
            (ffi::WAS, had) => Ok(Some(had)),
            (ffi::KEY_TOO_LONG, _) => Ok(None),
            (status, _) => Error::check(status).map(|_| None),
        }
    }

    /// Adds to the key's value, wrapping around, and returns the one before. A key that is absent gets the value `delta`, and `None` is
    /// returned.
    ///
    /// ```
    /// let handle = hot::Hot::with_capacity(10, 8, 1)?.handle()?;
    /// assert_eq!(handle.fetch_add("oak", 1), Ok(None));
    /// assert_eq!(handle.fetch_add("oak", 2), Ok(Some(1)));
    /// assert_eq!(handle.get("oak"), Some(3));
    /// # Ok::<(), hot::Error>(())
    /// ```
    pub fn fetch_add(&self, key: impl AsRef<[u8]>, delta: u64) -> Result<Option<u64>, Error> {
        match self.lease.add_or_insert(key.as_ref(), delta) {
            (ffi::WAS, had) => Ok(Some(had)),
            (status, _) => Error::check(status).map(|_| None),
        }
    }

    /// A moment that tells of all that this handle has seen. The first one of an index takes one of its handles for good, and is refused
    /// with [`Error::NoHandle`] where none is left.
    ///
    /// ```
    /// let index = hot::Hot::with_capacity(10, 8, 3)?;
    /// let (writer, reader) = (index.handle()?, index.handle()?);
    /// writer.insert("oak", 1)?;
    /// let moment = writer.stamp()?;
    /// std::thread::scope(|scope| {
    ///     scope.spawn(move || {
    ///         reader.follow(&moment)?;
    ///         assert_eq!(reader.get("oak"), Some(1));
    ///         Ok::<(), hot::Error>(())
    ///     });
    /// });
    /// # Ok::<(), hot::Error>(())
    /// ```
    pub fn stamp(&self) -> Result<Moment, Error> {
        self.lease.stamp().map(|seen| Moment { seen })
    }

    /// Lets this handle see all that the moment tells of: its later calls come after those that had returned by then. A moment of another
    /// index is refused with [`Error::OtherIndex`].
    pub fn follow(&self, moment: &Moment) -> Result<(), Error> {
        Error::check(self.lease.follow(&moment.seen)).map(|_| ())
    }

    /// Lets both handles see all that either has seen. A handle of another index is refused with [`Error::OtherIndex`].
    pub fn meet(&self, other: &Handle) -> Result<(), Error> {
        Error::check(self.lease.meet(&other.lease)).map(|_| ())
    }

    /// Enters the handle's section. What its calls find there may be followed until the section is dropped, where all who take values out
    /// wait for [`Handle::is_past`] before they free what these stand for. The section borrows the handle, whose calls go on as ever.
    /// A second one at a time is refused with [`Error::Inside`].
    ///
    /// ```
    /// let index = hot::Hot::with_capacity(100, 8, 2)?;
    /// let (reader, writer) = (index.handle()?, index.handle()?);
    /// let rows = std::sync::Mutex::new(vec![Some("a row")]);
    /// writer.insert("key", 0)?;
    /// let section = reader.enter()?;
    /// assert_eq!(reader.get("key"), Some(0)); // row 0 stays while the section is there
    /// writer.remove("key")?;
    /// let moment = writer.retired();
    /// assert!(!writer.is_past(&moment)?);
    /// drop(section);
    /// assert!(writer.is_past(&moment)?);
    /// rows.lock().unwrap()[0] = None;
    /// # Ok::<(), hot::Error>(())
    /// ```
    pub fn enter(&self) -> Result<Section<'_>, Error> {
        Error::check(self.lease.enter()).map(|_| Section { handle: self })
    }

    /// The moment of the call, which is made behind the change that took a value out.
    pub fn retired(&self) -> Retirement {
        Retirement {
            taken: self.lease.retired(),
        }
    }

    /// Whether each section that was open at the moment has been left since. It waits for none. A moment of another index is refused with
    /// [`Error::OtherIndex`].
    pub fn is_past(&self, moment: &Retirement) -> Result<bool, Error> {
        Error::check(self.lease.is_past(&moment.taken)).map(|status| status != ffi::NOT_PAST)
    }

    /// The pairs whose keys are in a range, in order from either end, fetched page by page. The handle may be used meanwhile. Each pair
    /// was there at some moment, and no key is missing that was there all along. A range whose start is above its end is empty.
    ///
    /// ```
    /// let handle = hot::Hot::with_capacity(10, 8, 1)?.handle()?;
    /// handle.extend([("a", 1), ("b", 2), ("c", 3)])?;
    /// let values = |pairs: hot::Range| pairs.map(|(_, value)| value).collect::<Vec<_>>();
    /// assert_eq!(values(handle.range("a"..="b")), [1, 2]);
    /// assert_eq!(values(handle.range("b"..)), [2, 3]);
    /// assert_eq!(handle.range(.."c").next_back(), Some((b"b".to_vec(), 2)));
    /// # Ok::<(), hot::Error>(())
    /// ```
    pub fn range(&self, keys: impl KeyRange) -> Range<'_> {
        Range::new(self, &keys)
    }

    /// How many keys a range has: [`range`](Handle::range)`.count()`, but few of the keys are read.
    pub fn count_range(&self, keys: impl KeyRange) -> usize {
        range::count(self, &keys)
    }

    /// How many keys begin with these bytes: [`prefix`](Handle::prefix)`.count()`, but few of the keys are read.
    ///
    /// ```
    /// let handle = hot::Hot::with_capacity(10, 8, 1)?.handle()?;
    /// handle.extend([("a", 1), ("ab", 2), ("b", 3)])?;
    /// assert_eq!(handle.count_prefix("a"), 2);
    /// # Ok::<(), hot::Error>(())
    /// ```
    pub fn count_prefix(&self, prefix: impl AsRef<[u8]>) -> usize {
        range::count_prefix(self, prefix.as_ref())
    }

    /// The pairs whose keys begin with these bytes, in the same way.
    pub fn prefix(&self, prefix: impl AsRef<[u8]>) -> Range<'_> {
        Range::prefix(self, prefix.as_ref())
    }

    /// All pairs, in the same way.
    pub fn iter(&self) -> Range<'_> {
        self.range(..)
    }

    /// All keys, in the same way.
    pub fn keys(&self) -> impl DoubleEndedIterator<Item = Vec<u8>> + '_ {
        self.iter().map(|(key, _)| key)
    }

    /// The values of all keys, in the order of the keys.
    pub fn values(&self) -> impl DoubleEndedIterator<Item = u64> + '_ {
        self.iter().map(|(_, value)| value)
    }

    /// The values of the keys of a range, in the order of the keys: those of [`range`](Handle::range) by one scan, which copies no key. Each
    /// is of a moment of its own. Records that other threads retire meanwhile can't be used again until it ends.
    ///
    /// ```
    /// let handle = hot::Hot::with_capacity(10, 8, 1)?.handle()?;
    /// handle.extend([("a", 1), ("b", 2), ("c", 3)])?;
    /// assert_eq!(handle.values_range("b"..)?, [2, 3]);
    /// # Ok::<(), hot::Error>(())
    /// ```
    pub fn values_range(&self, keys: impl KeyRange) -> Result<Vec<u64>, Error> {
        range::values(self, &keys)
    }

    /// The pair with the least key.
    pub fn first_key_value(&self) -> Option<(Vec<u8>, u64)> {
        self.lease
            .first(range::Key::LEAST.bytes())
            .unwrap_or_else(|why| range::out_of_memory(why))
    }

    /// The pair with the greatest key.
    pub fn last_key_value(&self) -> Option<(Vec<u8>, u64)> {
        self.lease
            .last(range::Key::GREATEST.bytes())
            .unwrap_or_else(|why| range::out_of_memory(why))
    }

    /// Removes the pair with the least key, and returns it.
    pub fn pop_first(&self) -> Result<Option<(Vec<u8>, u64)>, Error> {
        self.pop_first_in(..)
    }

    /// Removes the pair with the greatest key, and returns it.
    pub fn pop_last(&self) -> Result<Option<(Vec<u8>, u64)>, Error> {
        self.pop_last_in(..)
    }

    /// Removes the first pair whose key is in a range, and returns it. No two calls get the same pair. No key of the range comes before it
    /// that was there all along; one that another thread puts in meanwhile may.
    ///
    /// ```
    /// let handle = hot::Hot::with_capacity(10, 8, 1)?.handle()?;
    /// handle.extend([("a", 1), ("b", 2), ("c", 3)])?;
    /// assert_eq!(handle.pop_first_in("b"..), Ok(Some((b"b".to_vec(), 2))));
    /// assert_eq!(handle.pop_first_in("b".."c"), Ok(None));
    /// # Ok::<(), hot::Error>(())
    /// ```
    pub fn pop_first_in(&self, keys: impl KeyRange) -> Result<Option<(Vec<u8>, u64)>, Error> {
        match range::ends(&keys) {
            Some((from, upto)) => self.lease.pop_first(from.bytes(), upto.bytes()),
            None => Ok(None),
        }
    }

    /// Removes the last pair whose key is in a range in the same way.
    pub fn pop_last_in(&self, keys: impl KeyRange) -> Result<Option<(Vec<u8>, u64)>, Error> {
        match range::ends(&keys) {
            Some((from, upto)) => self.lease.pop_last(from.bytes(), upto.bytes()),
            None => Ok(None),
        }
    }

    /// Removes all keys, page by page. A key that another thread puts in meanwhile may stay. If it is refused, some keys are left.
    pub fn clear(&self) -> Result<(), Error> {
        self.clear_range(..)
    }

    /// Removes the keys of a range in the same way.
    pub fn clear_range(&self, keys: impl KeyRange) -> Result<(), Error> {
        match range::ends(&keys) {
            Some((from, upto)) => Error::check(self.lease.clear_range(from.bytes(), upto.bytes())).map(|_| ()),
            None => Ok(()),
        }
    }

    /// Gives each key its value in the index of another handle, page by page. If it is refused, the rest isn't copied.
    pub fn copy_to(&self, other: &Handle) -> Result<(), Error> {
        Error::check(self.lease.copy_to(&other.lease)).map(|_| ())
    }

    /// How many keys there are: exact while nobody changes the index.
    pub fn len(&self) -> usize {
        self.lease.len()
    }

    /// Whether there is no key.
    pub fn is_empty(&self) -> bool {
        self.first_key_value().is_none()
    }

    /// How many records of each size are in each state. Each is counted as it was when its turn came.
    pub fn census(&self) -> Census {
        self.lease.census()
    }
}

/// What came of a call that expects a value.
fn expected((status, had): (ffi::Status, u64), current: u64) -> Result<u64, CompareExchangeError> {
    match status {
        ffi::EXCHANGED | ffi::REMOVED => Ok(current),
        ffi::DIFFERS => Err(CompareExchangeError::Differs(had)),
        ffi::ABSENT | ffi::KEY_TOO_LONG => Err(CompareExchangeError::Absent),
        _ => Err(Error::check(status).err().unwrap_or(Error::Unexpected(status)).into()),
    }
}

impl<'a> IntoIterator for &'a Handle {
    type Item = (Vec<u8>, u64);
    type IntoIter = Range<'a>;
    fn into_iter(self) -> Range<'a> {
        self.iter()
    }
}

impl fmt::Debug for Handle {
    fn fmt(&self, to: &mut fmt::Formatter<'_>) -> fmt::Result {
        let text = |key: Vec<u8>| key.escape_ascii().to_string();
        to.debug_map()
            .entries(self.iter().map(|(key, value)| (text(key), value)))
            .finish()
    }
}
