//! `hot.h`, and over it calls that are safe: no other module has unsafe code but `map`, for its values.
#![allow(unsafe_code)]
use crate::{Census, Error, Memory, Stats, Stock, MAX_KEY};
use std::any::Any;
use std::cell::UnsafeCell;
use std::ffi::CStr;
use std::ops::Range;
use std::os::raw::{c_char, c_int, c_void};
use std::panic::{catch_unwind, resume_unwind, AssertUnwindSafe};
use std::ptr;
use std::sync::Arc;

/// How a call came out.
pub(crate) type Status = u32;
pub(crate) const DONE: Status = 0;
pub(crate) const FOUND: Status = 1;
pub(crate) const ABSENT: Status = 2;
pub(crate) const INSERTED: Status = 3;
pub(crate) const EXISTS: Status = 4;
pub(crate) const WAS: Status = 6;
pub(crate) const REMOVED: Status = 7;
pub(crate) const FULL_NODES: Status = 9;
pub(crate) const FULL_LEAVES: Status = 10;
pub(crate) const KEY_TOO_LONG: Status = 11;
pub(crate) const OUT_OF_RANGE: Status = 14;
pub(crate) const NO_MEMORY: Status = 15;
pub(crate) const EXCHANGED: Status = 16;
pub(crate) const DIFFERS: Status = 17;
pub(crate) const NO_HANDLE: Status = 19;
pub(crate) const OTHER_INDEX: Status = 20;
pub(crate) const OLD_PROCESSOR: Status = 21;
pub(crate) const INSIDE: Status = 22;
pub(crate) const NOT_PAST: Status = 24;
pub(crate) const NOT_RISING: Status = 25;
pub(crate) const FIXED: Status = 26;

/// What only the library sees.
#[repr(C)]
struct RawIndex {
    fields: [u8; 0],
}

#[repr(C)]
struct RawHandle {
    tag: u32,
    slot: *mut c_void,
    place: *mut c_void,
}

impl RawHandle {
    const CLOSED: RawHandle = RawHandle {
        tag: 0,
        slot: ptr::null_mut(),
        place: ptr::null_mut(),
    };
}

#[repr(C)]
struct RawMoment {
    index: *mut RawIndex,
}

#[repr(C)]
struct RawRetirement {
    index: *mut RawIndex,
    number: u64,
}

#[repr(C)]
struct RawPair {
    key: [u8; MAX_KEY],
    length: u32,
    value: u64,
}

const NO_PAIR: RawPair = RawPair {
    key: [0; MAX_KEY],
    length: 0,
    value: 0,
};

#[repr(C)]
#[derive(Clone, Copy)]
struct RawHead {
    length: u8,
    value: u64,
}

#[repr(C)]
struct RawLookup {
    key: *const u8,
    length: usize,
    value: u64,
    status: Status,
}

type PackedScan = unsafe extern "C" fn(
    *mut RawHandle,
    *const u8,
    usize,
    *const u8,
    usize,
    *mut u8,
    usize,
    *mut RawHead,
    usize,
    *mut usize,
    *mut u32,
) -> Status;

type Pop = unsafe extern "C" fn(*mut RawHandle, *const u8, usize, *const u8, usize, *mut RawPair) -> Status;

type Source = unsafe extern "C" fn(*mut c_void, *mut *const u8, *mut usize, *mut u64) -> c_int;

extern "C" {
    fn hot_status_text(status: Status) -> *const c_char;
    fn hot_open_index(stock: *const Stock, handles: usize, index: *mut *mut RawIndex) -> Status;
    fn hot_load(
        stock: *const Stock,
        handles: usize,
        next: Source,
        context: *mut c_void,
        index: *mut *mut RawIndex,
        count: *mut usize,
    ) -> Status;
    fn hot_open_growing(stock: *const Stock, most: usize, handles: usize, index: *mut *mut RawIndex) -> Status;
    fn hot_load_growing(
        most: usize,
        handles: usize,
        next: Source,
        context: *mut c_void,
        index: *mut *mut RawIndex,
        count: *mut usize,
    ) -> Status;
    fn hot_grow(index: *mut RawIndex) -> Status;
    fn hot_trim(index: *mut RawIndex) -> Status;
    fn hot_is_filling(index: *mut RawIndex) -> c_int;
    fn hot_close_index(index: *mut RawIndex) -> Status;
    fn hot_open(index: *mut RawIndex, handle: *mut RawHandle) -> Status;
    fn hot_close(handle: *mut RawHandle) -> Status;
    fn hot_stock_for_keys(keys: u32, longest: usize, stock: *mut Stock);
    fn hot_stock_for_any_keys(keys: u32, longest: usize, handles: usize, stock: *mut Stock);
    fn hot_stock_bytes(stock: *const Stock, handles: usize, bytes: *mut usize) -> Status;
    fn hot_get(handle: *mut RawHandle, key: *const u8, length: usize, value: *mut u64) -> Status;
    fn hot_get_many(handle: *mut RawHandle, lookups: *mut RawLookup, count: usize) -> Status;
    fn hot_insert(handle: *mut RawHandle, key: *const u8, length: usize, value: u64, had: *mut u64) -> Status;
    fn hot_upsert(handle: *mut RawHandle, key: *const u8, length: usize, value: u64, had: *mut u64) -> Status;
    fn hot_remove(handle: *mut RawHandle, key: *const u8, length: usize, had: *mut u64) -> Status;
    fn hot_exchange(
        handle: *mut RawHandle,
        key: *const u8,
        length: usize,
        expected: u64,
        value: u64,
        had: *mut u64,
    ) -> Status;
    fn hot_remove_if(handle: *mut RawHandle, key: *const u8, length: usize, expected: u64, had: *mut u64) -> Status;
    fn hot_add(handle: *mut RawHandle, key: *const u8, length: usize, delta: u64, had: *mut u64) -> Status;
    fn hot_add_or_insert(handle: *mut RawHandle, key: *const u8, length: usize, delta: u64, had: *mut u64) -> Status;
    fn hot_scan_packed(
        handle: *mut RawHandle,
        from: *const u8,
        from_length: usize,
        upto: *const u8,
        upto_length: usize,
        bytes: *mut u8,
        room: usize,
        heads: *mut RawHead,
        limit: usize,
        count: *mut usize,
        more: *mut u32,
    ) -> Status;
    fn hot_scan_packed_reverse(
        handle: *mut RawHandle,
        from: *const u8,
        from_length: usize,
        upto: *const u8,
        upto_length: usize,
        bytes: *mut u8,
        room: usize,
        heads: *mut RawHead,
        limit: usize,
        count: *mut usize,
        more: *mut u32,
    ) -> Status;
    fn hot_count(
        handle: *mut RawHandle,
        from: *const u8,
        from_length: usize,
        upto: *const u8,
        upto_length: usize,
        count: *mut usize,
    ) -> Status;
    fn hot_scan_values(
        handle: *mut RawHandle,
        from: *const u8,
        from_length: usize,
        upto: *const u8,
        upto_length: usize,
        values: *mut u64,
        limit: usize,
        count: *mut usize,
        more: *mut u32,
    ) -> Status;
    fn hot_first(handle: *mut RawHandle, from: *const u8, length: usize, pair: *mut RawPair) -> Status;
    fn hot_last(handle: *mut RawHandle, upto: *const u8, length: usize, pair: *mut RawPair) -> Status;
    fn hot_pop_first(
        handle: *mut RawHandle,
        from: *const u8,
        from_length: usize,
        upto: *const u8,
        upto_length: usize,
        pair: *mut RawPair,
    ) -> Status;
    fn hot_pop_last(
        handle: *mut RawHandle,
        from: *const u8,
        from_length: usize,
        upto: *const u8,
        upto_length: usize,
        pair: *mut RawPair,
    ) -> Status;
    fn hot_clear_range(
        handle: *mut RawHandle,
        from: *const u8,
        from_length: usize,
        upto: *const u8,
        upto_length: usize,
    ) -> Status;
    fn hot_copy(from: *mut RawHandle, to: *mut RawHandle) -> Status;
    fn hot_census(handle: *mut RawHandle, counts: *mut Census) -> Status;
    fn hot_len(handle: *mut RawHandle, count: *mut usize) -> Status;
    fn hot_stats(index: *const RawIndex, stats: *mut Stats);
    fn hot_bytes(index: *const RawIndex, bytes: *mut Memory);
    fn hot_meet(one: *mut RawHandle, other: *mut RawHandle) -> Status;
    fn hot_stamp(handle: *mut RawHandle, moment: *mut RawMoment) -> Status;
    fn hot_follow(handle: *mut RawHandle, moment: *const RawMoment) -> Status;
    fn hot_enter(handle: *mut RawHandle) -> Status;
    fn hot_leave(handle: *mut RawHandle) -> Status;
    fn hot_retired(handle: *mut RawHandle, moment: *mut RawRetirement) -> Status;
    fn hot_is_past(handle: *mut RawHandle, moment: *const RawRetirement) -> Status;
}

/// A status in words.
pub(crate) fn text(status: Status) -> &'static str {
    // SAFETY: the text is static, and ends with a zero byte.
    unsafe { CStr::from_ptr(hot_status_text(status)) }
        .to_str()
        .unwrap_or("not a status")
}

pub(crate) fn stock_for_keys(keys: u32, longest: usize) -> Stock {
    let mut stock = Stock::default();
    // SAFETY: it writes a stock.
    unsafe { hot_stock_for_keys(keys, longest, &mut stock) };
    stock
}

pub(crate) fn stock_for_any_keys(keys: u32, longest: usize, handles: usize) -> Stock {
    let mut stock = Stock::default();
    // SAFETY: it writes a stock.
    unsafe { hot_stock_for_any_keys(keys, longest, handles, &mut stock) };
    stock
}

pub(crate) fn stock_bytes(stock: &Stock, handles: usize) -> (Status, usize) {
    let mut bytes = 0;
    // SAFETY: it reads a stock and writes a number.
    let status = unsafe { hot_stock_bytes(stock, handles, &mut bytes) };
    (status, bytes)
}

/// The pairs that a load takes, the key of the last one, and the panic that ended them.
struct Sorted<I, K> {
    left: I,
    key: Option<K>,
    panic: Option<Box<dyn Any + Send>>,
}

impl<K: AsRef<[u8]>, I: Iterator<Item = (K, u64)>> Sorted<I, K> {
    /// The next pair. Its key is there until the next call.
    fn take(&mut self) -> Option<(&[u8], u64)> {
        let (key, value) = self.left.next()?;
        let kept: &K = self.key.insert(key);
        Some((kept.as_ref(), value))
    }

    /// What the library calls. A panic doesn't cross it.
    unsafe extern "C" fn next(context: *mut c_void, key: *mut *const u8, length: *mut usize, value: *mut u64) -> c_int {
        // SAFETY: these are the pairs of `Index::load`, which waits.
        let pairs = unsafe { &mut *context.cast::<Self>() };
        let taken = catch_unwind(AssertUnwindSafe(|| {
            pairs.take().map(|(its, number)| (its.as_ptr(), its.len(), number))
        }));
        match taken {
            Ok(Some(pair)) => {
                // SAFETY: there is room for each.
                unsafe { (*key, *length, *value) = pair };
                1
            }
            Ok(None) => 0,
            Err(panic) => {
                pairs.panic = Some(panic);
                0
            }
        }
    }
}

/// What takes the next one of such pairs.
fn next_of<K: AsRef<[u8]>, I: Iterator<Item = (K, u64)>>(_: &Sorted<I, K>) -> Source {
    Sorted::<I, K>::next
}

/// The room of an index that is loaded: this stock, or as much as its pairs need, in tables of at most so many bytes.
pub(crate) enum Room<'a> {
    Fixed(&'a Stock),
    Grows(usize),
}

/// An index, which is there as long as each of its handles.
pub(crate) struct Index {
    at: *mut RawIndex,
    handles: usize,
}

// SAFETY: any thread may open a handle, at any time, and the last one that has the index frees it.
unsafe impl Send for Index {}
unsafe impl Sync for Index {}

impl Index {
    /// Makes an index with room for so many handles.
    pub(crate) fn open(stock: &Stock, handles: usize) -> Result<Index, Error> {
        let mut at = ptr::null_mut();
        // SAFETY: it reads a stock, and writes a pointer.
        Error::check(unsafe { hot_open_index(stock, handles, &mut at) })?;
        Ok(Index { at, handles })
    }

    /// Makes an index that grows, which commits at most so many bytes, and this stock at first, or a small one.
    pub(crate) fn growing(stock: Option<&Stock>, most: usize, handles: usize) -> Result<Index, Error> {
        let (stock, mut at) = (stock.map_or(ptr::null(), |it| ptr::addr_of!(*it)), ptr::null_mut());
        // SAFETY: it reads a stock, if there is one, and writes a pointer.
        Error::check(unsafe { hot_open_growing(stock, most, handles, &mut at) })?;
        Ok(Index { at, handles })
    }

    /// Has nothing to do for an index that grows.
    pub(crate) fn grow(&self) -> Status {
        // SAFETY: the index is there, and any thread may make the call.
        unsafe { hot_grow(self.at) }
    }

    /// Gives the memory back that its keys don't need, while no handle is open.
    pub(crate) fn trim(&self) -> Status {
        // SAFETY: the index is there, and any thread may make the call.
        unsafe { hot_trim(self.at) }
    }

    /// Whether it is time to grow: it never is.
    pub(crate) fn is_filling(&self) -> bool {
        // SAFETY: the index is there, and any thread may make the call.
        unsafe { hot_is_filling(self.at) != 0 }
    }

    /// Makes an index of these pairs, whose keys rise, with room for so many handles; or returns why one was refused, and how many came before.
    pub(crate) fn load<K: AsRef<[u8]>>(
        room: &Room<'_>,
        handles: usize,
        pairs: impl Iterator<Item = (K, u64)>,
    ) -> Result<Index, (Error, usize)> {
        let mut pairs = Sorted {
            left: pairs,
            key: None,
            panic: None,
        };
        let (next, mut at, mut count) = (next_of(&pairs), ptr::null_mut(), 0);
        let context = ptr::addr_of_mut!(pairs).cast();
        // SAFETY: it reads a stock, if there is one, hands `next` the pairs, which nothing else uses meanwhile, and writes a pointer and a number.
        let status = unsafe {
            match *room {
                Room::Fixed(stock) => hot_load(stock, handles, next, context, &mut at, &mut count),
                Room::Grows(most) => hot_load_growing(most, handles, next, context, &mut at, &mut count),
            }
        };
        let index = (!at.is_null()).then(|| Index { at, handles });
        if let Some(panic) = pairs.panic {
            drop(index);
            resume_unwind(panic);
        }
        let checked = Error::check(status).map_err(|why| (why, count));
        checked.and_then(|_| index.ok_or((Error::Unexpected(status), count)))
    }

    /// How many handles may be open at a time.
    pub(crate) fn handles(&self) -> usize {
        self.handles
    }

    /// How often tries were refused.
    pub(crate) fn stats(&self) -> Stats {
        let mut stats = Stats::default();
        // SAFETY: the index is there, and it writes three numbers.
        unsafe { hot_stats(self.at, &mut stats) };
        stats
    }

    /// What the index takes of memory.
    pub(crate) fn bytes(&self) -> Memory {
        let mut bytes = Memory::default();
        // SAFETY: the index is there, and it writes two numbers.
        unsafe { hot_bytes(self.at, &mut bytes) };
        bytes
    }

    /// Opens a handle.
    pub(crate) fn lease(self: &Arc<Index>) -> Result<Lease, Error> {
        let mut one = Vec::new();
        one.try_reserve_exact(1).map_err(|_| Error::NoMemory)?;
        one.push(UnsafeCell::new(RawHandle::CLOSED));
        let handle = one.into_boxed_slice();
        // SAFETY: the handle is zeroed, and stays where it is until it is closed.
        Error::check(unsafe { hot_open(self.at, UnsafeCell::raw_get(handle.as_ptr())) })?;
        Ok(Lease {
            index: Arc::clone(self),
            handle,
        })
    }
}

impl Drop for Index {
    fn drop(&mut self) {
        // SAFETY: all handles are closed, since an open one keeps the index.
        unsafe { hot_close_index(self.at) };
    }
}

/// What a handle had seen, of an index that is there as long as it. The library's moment has no more than the index.
#[derive(Clone)]
pub(crate) struct Seen {
    index: Arc<Index>,
}

/// The number of a moment, of an index that is there as long as it.
#[derive(Clone)]
pub(crate) struct Taken {
    index: Arc<Index>,
    number: u64,
}

/// An open handle, of one thread at a time: it is not `Sync`, since it has cells.
pub(crate) struct Lease {
    index: Arc<Index>,
    handle: Box<[UnsafeCell<RawHandle>]>,
}

// SAFETY: any thread may use or close a handle once the last call with it has returned.
unsafe impl Send for Lease {}

impl Drop for Lease {
    fn drop(&mut self) {
        // SAFETY: the handle is open, and no call with it is under way. A section that was forgotten ends with its handle, which it borrows.
        unsafe {
            hot_leave(self.raw());
            hot_close(self.raw());
        }
    }
}

// SAFETY of each call: the handle is open, and this thread's for the time of the call, since a lease isn't `Sync`. A key is there as
// long as the call, and its pointer is not null, since it is a slice's. What the call writes is borrowed for it, and as large as said.
impl Lease {
    fn raw(&self) -> *mut RawHandle {
        UnsafeCell::raw_get(self.handle.as_ptr())
    }

    pub(crate) fn index(&self) -> &Arc<Index> {
        &self.index
    }

    pub(crate) fn get(&self, key: &[u8]) -> (Status, u64) {
        let mut value = 0;
        let status = unsafe { hot_get(self.raw(), key.as_ptr(), key.len(), &mut value) };
        (status, value)
    }

    /// Looks up keys that are all short enough, and adds their values to what was found. Nothing is added if it is refused.
    pub(crate) fn get_many(&self, keys: &[&[u8]], found: &mut Vec<Option<u64>>) -> Result<(), Error> {
        let mut lookups = Vec::new();
        lookups.try_reserve_exact(keys.len()).map_err(|_| Error::NoMemory)?;
        found.try_reserve(keys.len()).map_err(|_| Error::NoMemory)?;
        lookups.extend(keys.iter().map(|key| RawLookup {
            key: key.as_ptr(),
            length: key.len(),
            value: 0,
            status: ABSENT,
        }));
        Error::check(unsafe { hot_get_many(self.raw(), lookups.as_mut_ptr(), lookups.len()) })?;
        found.extend(
            lookups
                .iter()
                .map(|it| if it.status == FOUND { Some(it.value) } else { None }),
        );
        Ok(())
    }

    pub(crate) fn insert(&self, key: &[u8], value: u64) -> (Status, u64) {
        let mut had = 0;
        let status = unsafe { hot_insert(self.raw(), key.as_ptr(), key.len(), value, &mut had) };
        (status, had)
    }

    pub(crate) fn upsert(&self, key: &[u8], value: u64) -> (Status, u64) {
        let mut had = 0;
        let status = unsafe { hot_upsert(self.raw(), key.as_ptr(), key.len(), value, &mut had) };
        (status, had)
    }

    pub(crate) fn remove(&self, key: &[u8]) -> (Status, u64) {
        let mut had = 0;
        let status = unsafe { hot_remove(self.raw(), key.as_ptr(), key.len(), &mut had) };
        (status, had)
    }

    pub(crate) fn exchange(&self, key: &[u8], expected: u64, value: u64) -> (Status, u64) {
        let mut had = 0;
        let status = unsafe { hot_exchange(self.raw(), key.as_ptr(), key.len(), expected, value, &mut had) };
        (status, had)
    }

    pub(crate) fn remove_if(&self, key: &[u8], expected: u64) -> (Status, u64) {
        let mut had = 0;
        let status = unsafe { hot_remove_if(self.raw(), key.as_ptr(), key.len(), expected, &mut had) };
        (status, had)
    }

    /// Lists the first pairs from one key to another, at most `limit`, in a page that has none left: whether there are more.
    pub(crate) fn scan(&self, from: &[u8], upto: &[u8], limit: usize, page: &mut Page) -> Result<bool, Error> {
        page.falls = false;
        self.list(hot_scan_packed, from, upto, limit, page)
    }

    /// Lists the last pairs in the same way.
    pub(crate) fn scan_last(&self, from: &[u8], upto: &[u8], limit: usize, page: &mut Page) -> Result<bool, Error> {
        page.falls = true;
        self.list(hot_scan_packed_reverse, from, upto, limit, page)
    }

    fn list(&self, call: PackedScan, from: &[u8], upto: &[u8], limit: usize, page: &mut Page) -> Result<bool, Error> {
        // Room for pairs of middling keys, and for one of any length: with less than that a call would not get on.
        make_room(&mut page.bytes, limit * 32 + MAX_KEY, 0)?;
        make_room(&mut page.heads, limit, RawHead { length: 0, value: 0 })?;
        let (mut count, mut more) = (0, 0);
        Error::check(unsafe {
            call(
                self.raw(),
                from.as_ptr(),
                from.len(),
                upto.as_ptr(),
                upto.len(),
                page.bytes.as_mut_ptr(),
                page.bytes.len(),
                page.heads.as_mut_ptr(),
                page.heads.len(),
                &mut count,
                &mut more,
            )
        })?;
        let lengths = page.heads.iter().take(count).map(|head| usize::from(head.length));
        page.place = 0..lengths.sum();
        page.left = 0..count;
        Ok(more != 0)
    }

    /// How many keys there are from one key to another.
    pub(crate) fn count(&self, from: &[u8], upto: &[u8]) -> usize {
        let mut count = 0;
        unsafe {
            hot_count(
                self.raw(),
                from.as_ptr(),
                from.len(),
                upto.as_ptr(),
                upto.len(),
                &mut count,
            )
        };
        count
    }

    /// The first values from one key to another, at most `limit`, and whether there are more.
    pub(crate) fn values(&self, from: &[u8], upto: &[u8], limit: usize) -> Result<(Vec<u64>, bool), Error> {
        let mut values = room(limit, 0)?;
        let (mut count, mut more) = (0, 0);
        Error::check(unsafe {
            hot_scan_values(
                self.raw(),
                from.as_ptr(),
                from.len(),
                upto.as_ptr(),
                upto.len(),
                values.as_mut_ptr(),
                values.len(),
                &mut count,
                &mut more,
            )
        })?;
        values.truncate(count);
        Ok((values, more != 0))
    }

    /// The first pair from a key on.
    pub(crate) fn first(&self, from: &[u8]) -> Result<Option<(Vec<u8>, u64)>, Error> {
        let mut pair = NO_PAIR;
        let status = Error::check(unsafe { hot_first(self.raw(), from.as_ptr(), from.len(), &mut pair) })?;
        if status == FOUND {
            pair.copy().map(Some)
        } else {
            Ok(None)
        }
    }

    /// The last pair up to a key.
    pub(crate) fn last(&self, upto: &[u8]) -> Result<Option<(Vec<u8>, u64)>, Error> {
        let mut pair = NO_PAIR;
        let status = Error::check(unsafe { hot_last(self.raw(), upto.as_ptr(), upto.len(), &mut pair) })?;
        if status == FOUND {
            pair.copy().map(Some)
        } else {
            Ok(None)
        }
    }

    /// Removes the first pair from one key to another.
    pub(crate) fn pop_first(&self, from: &[u8], upto: &[u8]) -> Result<Option<(Vec<u8>, u64)>, Error> {
        self.pop(hot_pop_first, from, upto)
    }

    /// Removes the last pair from one key to another.
    pub(crate) fn pop_last(&self, from: &[u8], upto: &[u8]) -> Result<Option<(Vec<u8>, u64)>, Error> {
        self.pop(hot_pop_last, from, upto)
    }

    fn pop(&self, call: Pop, from: &[u8], upto: &[u8]) -> Result<Option<(Vec<u8>, u64)>, Error> {
        // Once the pair is removed, no memory may be missing.
        let mut key = room(MAX_KEY, 0)?;
        let mut pair = NO_PAIR;
        let (start, end) = (from.as_ptr(), upto.as_ptr());
        let status = Error::check(unsafe { call(self.raw(), start, from.len(), end, upto.len(), &mut pair) })?;
        if status != REMOVED {
            return Ok(None);
        }
        key.copy_from_slice(&pair.key);
        key.truncate(pair.length as usize);
        Ok(Some((key, pair.value)))
    }

    /// Removes all keys from one to another.
    pub(crate) fn clear_range(&self, from: &[u8], upto: &[u8]) -> Status {
        unsafe { hot_clear_range(self.raw(), from.as_ptr(), from.len(), upto.as_ptr(), upto.len()) }
    }

    pub(crate) fn add(&self, key: &[u8], delta: u64) -> (Status, u64) {
        let mut had = 0;
        let status = unsafe { hot_add(self.raw(), key.as_ptr(), key.len(), delta, &mut had) };
        (status, had)
    }

    pub(crate) fn add_or_insert(&self, key: &[u8], delta: u64) -> (Status, u64) {
        let mut had = 0;
        let status = unsafe { hot_add_or_insert(self.raw(), key.as_ptr(), key.len(), delta, &mut had) };
        (status, had)
    }

    pub(crate) fn len(&self) -> usize {
        let mut count = 0;
        unsafe { hot_len(self.raw(), &mut count) };
        count
    }

    /// The other lease may be this one, too.
    pub(crate) fn copy_to(&self, other: &Lease) -> Status {
        unsafe { hot_copy(self.raw(), other.raw()) }
    }

    /// The other lease may be this one, since the library is handed pointers.
    pub(crate) fn meet(&self, other: &Lease) -> Status {
        unsafe { hot_meet(self.raw(), other.raw()) }
    }

    pub(crate) fn stamp(&self) -> Result<Seen, Error> {
        let mut moment = RawMoment { index: ptr::null_mut() };
        Error::check(unsafe { hot_stamp(self.raw(), &mut moment) })?;
        Ok(Seen {
            index: Arc::clone(&self.index),
        })
    }

    pub(crate) fn follow(&self, seen: &Seen) -> Status {
        let moment = RawMoment { index: seen.index.at };
        unsafe { hot_follow(self.raw(), &moment) }
    }

    pub(crate) fn enter(&self) -> Status {
        unsafe { hot_enter(self.raw()) }
    }

    pub(crate) fn leave(&self) -> Status {
        unsafe { hot_leave(self.raw()) }
    }

    /// The number of the moment of the call.
    pub(crate) fn moment(&self) -> u64 {
        let mut moment = RawRetirement {
            index: ptr::null_mut(),
            number: 0,
        };
        unsafe { hot_retired(self.raw(), &mut moment) };
        moment.number
    }

    pub(crate) fn retired(&self) -> Taken {
        Taken {
            index: Arc::clone(&self.index),
            number: self.moment(),
        }
    }

    pub(crate) fn is_past(&self, taken: &Taken) -> Status {
        self.is_past_in(&taken.index, taken.number)
    }

    /// Whether a moment of this index is past.
    pub(crate) fn is_moment_past(&self, number: u64) -> bool {
        self.is_past_in(&self.index, number) == DONE
    }

    fn is_past_in(&self, index: &Index, number: u64) -> Status {
        let moment = RawRetirement {
            index: index.at,
            number,
        };
        unsafe { hot_is_past(self.raw(), &moment) }
    }

    pub(crate) fn census(&self) -> Census {
        let mut counts = Census::default();
        unsafe { hot_census(self.raw(), &mut counts) };
        counts
    }
}

/// Pairs that were listed and not taken yet. Their keys lie one behind another, in the order in which they were listed.
#[derive(Default)]
pub(crate) struct Page {
    bytes: Vec<u8>,
    heads: Vec<RawHead>,
    falls: bool,
    /// Which of the heads are left, and where their keys lie.
    left: Range<usize>,
    place: Range<usize>,
}

impl Page {
    pub(crate) fn is_empty(&self) -> bool {
        self.left.is_empty()
    }

    /// The key that was listed last.
    pub(crate) fn last(&self) -> Option<&[u8]> {
        self.at(self.falls)
            .map(|(place, _)| self.bytes.get(place).unwrap_or_default())
    }

    /// Where the least key that is left lies, or the greatest one, and its value.
    fn at(&self, is_least: bool) -> Option<(Range<usize>, u64)> {
        let heads = self.heads.get(self.left.clone())?;
        if is_least != self.falls {
            let head = heads.first()?;
            Some((
                self.place.start..self.place.start + usize::from(head.length),
                head.value,
            ))
        } else {
            let head = heads.last()?;
            Some((self.place.end - usize::from(head.length)..self.place.end, head.value))
        }
    }

    /// Takes the least pair that is left, or the greatest one.
    pub(crate) fn take(&mut self, is_least: bool) -> Option<(&[u8], u64)> {
        let (place, value) = self.at(is_least)?;
        if is_least != self.falls {
            self.left.start += 1;
            self.place.start = place.end;
        } else {
            self.left.end -= 1;
            self.place.end = place.start;
        }
        Some((self.bytes.get(place)?, value))
    }

    /// The same with a key of its own. A pair for which there is no memory stays.
    pub(crate) fn take_copy(&mut self, is_least: bool) -> Result<Option<(Vec<u8>, u64)>, Error> {
        let mut key = Vec::new();
        if let Some((place, _)) = self.at(is_least) {
            key.try_reserve_exact(place.len()).map_err(|_| Error::NoMemory)?;
        }
        Ok(self.take(is_least).map(|(bytes, value)| {
            key.extend_from_slice(bytes);
            (key, value)
        }))
    }
}

impl RawPair {
    fn copy(&self) -> Result<(Vec<u8>, u64), Error> {
        let key = self.key.get(..self.length as usize).unwrap_or_default();
        Ok((copy(key)?, self.value))
    }
}

/// A list of so many items that are to be written.
fn room<T: Clone>(count: usize, item: T) -> Result<Vec<T>, Error> {
    let mut list = Vec::new();
    make_room(&mut list, count, item)?;
    Ok(list)
}

/// Gives a list so many items that are to be written.
fn make_room<T: Clone>(list: &mut Vec<T>, count: usize, item: T) -> Result<(), Error> {
    list.try_reserve_exact(count.saturating_sub(list.len()))
        .map_err(|_| Error::NoMemory)?;
    list.resize(count, item);
    Ok(())
}

fn copy(key: &[u8]) -> Result<Vec<u8>, Error> {
    let mut copied = Vec::new();
    copied.try_reserve_exact(key.len()).map_err(|_| Error::NoMemory)?;
    copied.extend_from_slice(key);
    Ok(copied)
}
