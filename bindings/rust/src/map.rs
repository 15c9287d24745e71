//! Maps of objects: an index whose values are addresses.
#![allow(unsafe_code)]
use crate::ffi::{self, Lease, Page};
use crate::range::{self, Left};
use crate::{key_of, refused, Error, Handle, Hot, ToKey};
use std::borrow::Borrow;
use std::cell::Cell;
use std::collections::VecDeque;
use std::fmt;
use std::iter::FusedIterator;
use std::ops::{Bound, RangeBounds};
use std::sync::{Arc, Mutex, MutexGuard, TryLockError};
use std::thread;

/// How many calls there may be at a time; others wait for their turn.
const PLACES: usize = 64;

thread_local! {
    /// The place of a thread's last call. It keeps to that until another thread meets it there.
    static LAST: Cell<usize> = const { Cell::new(0) };
}

/// An ordered map from keys to values of any type, for all threads at once. Its calls are those of crossbeam's `SkipMap`: they take `&self`, and
/// what they find is an [`Entry`], which keeps its value, also when another thread has replaced or removed it. Changes return a `Result`.
///
/// A value that is out of the map is dropped once no call can have just found it and no entry has it: at once, by a later change, or with the map.
/// A key is what its [`ToKey`] says, of at most [`MAX_KEY`](crate::MAX_KEY) bytes; so a key that is looked up by a borrowed form of it is one that has
/// the same bytes, as a `str` has those of a `String`. Only a map whose keys and values are `Send` and `Sync` is so, too. No call may be made in the
/// child of a fork.
///
/// ```
/// use hot::Map;
///
/// let map = Map::new()?;
/// std::thread::scope(|scope| {
///     for (key, value) in [("ash", vec![1]), ("oak", vec![2, 3])] {
///         let map = &map;
///         scope.spawn(move || map.insert(key.to_string(), value).map(|entry| entry.value().len()).unwrap());
///     }
/// });
/// let oak = map.get("oak").unwrap();
/// map.remove("oak")?;
/// assert_eq!((oak.value().len(), map.len()), (2, 1));
/// assert_eq!(map.range("a".to_string()..).next().unwrap().key(), "ash");
/// assert_eq!(format!("{map:?}"), "{\"ash\": [1]}");
/// # Ok::<(), hot::Error>(())
/// ```
///
/// ```compile_fail
/// fn is_shared<T: Sync>() {}
/// is_shared::<hot::Map<u64, std::rc::Rc<u64>>>();
/// ```
pub struct Map<K, V> {
    hot: Hot,
    places: Vec<Place<K, V>>,
}

/// A place for one call at a time, on a cache line of its own.
#[repr(align(64))]
struct Place<K, V>(Mutex<Turn<K, V>>);

/// What a call has.
struct Turn<K, V> {
    handle: Option<Handle>,
    /// What is out of the map, oldest first, with the moment of that. A call may still have found it.
    out: VecDeque<(u64, Arc<Node<K, V>>)>,
    count: usize,
}

impl<K, V> Turn<K, V> {
    /// Takes what no call can have any more.
    fn collect(out: &mut VecDeque<(u64, Arc<Node<K, V>>)>, lease: &Lease, gone: &mut Vec<Arc<Node<K, V>>>) {
        while out.front().map_or(false, |(moment, _)| lease.is_moment_past(*moment)) {
            gone.extend(out.pop_front().map(|(_, node)| node));
        }
    }
}

/// A key with its value. Its address is the key's value in the index, as long as the map is one of its owners.
struct Node<K, V> {
    key: K,
    value: V,
}

impl<K, V> Node<K, V> {
    fn address(node: &Arc<Self>) -> u64 {
        Arc::as_ptr(node) as usize as u64
    }

    /// Makes the map an owner.
    fn give(node: &Arc<Self>) -> u64 {
        Arc::into_raw(Arc::clone(node)) as usize as u64
    }

    /// Takes from the map what it was given.
    ///
    /// # Safety
    /// The address came out of the index, or did not go into it, and nobody else takes it.
    unsafe fn take(address: u64) -> Arc<Self> {
        // SAFETY: `give` made the address, and the map is still an owner.
        unsafe { Arc::from_raw(address as usize as *const Self) }
    }

    /// One more owner of what a call found.
    ///
    /// # Safety
    /// The call found it in its section, which is still open. So the map is still an owner.
    unsafe fn share(address: u64) -> Arc<Self> {
        // SAFETY: `give` made the address, and the map is still an owner.
        unsafe {
            Arc::increment_strong_count(address as usize as *const Self);
            Arc::from_raw(address as usize as *const Self)
        }
    }
}

/// What came of a change: what the call returns, and what it took out of the map.
type Made<K, V, T> = Result<(T, Option<Arc<Node<K, V>>>), Error>;

/// That a node was exchanged, or the one that the key has instead, if any.
type Exchanged<K, V> = Result<(), Option<Arc<Node<K, V>>>>;

impl<K, V> Map<K, V> {
    /// Makes an empty map. It is an index that grows: [`Hot::growing`].
    pub fn new() -> Result<Map<K, V>, Error> {
        Map::within(usize::MAX)
    }

    /// Makes an empty map, of whose index no table has more than `most` bytes. Values don't count.
    pub fn within(most: usize) -> Result<Map<K, V>, Error> {
        let turn = || Turn {
            handle: None,
            out: VecDeque::new(),
            count: 0,
        };
        Ok(Map {
            hot: Hot::growing(most, PLACES)?,
            places: (0..PLACES).map(|_| Place(Mutex::new(turn()))).collect(),
        })
    }

    fn try_take(&self, place: usize) -> Option<MutexGuard<'_, Turn<K, V>>> {
        match self.places.get(place)?.0.try_lock() {
            Ok(turn) => Some(turn),
            Err(TryLockError::Poisoned(turn)) => Some(turn.into_inner()),
            Err(TryLockError::WouldBlock) => None,
        }
    }

    /// Waits for a place, and returns it.
    fn take(&self) -> MutexGuard<'_, Turn<K, V>> {
        let first = LAST.with(Cell::get);
        loop {
            for place in (first..PLACES).chain(0..first) {
                if let Some(turn) = self.try_take(place) {
                    LAST.with(|last| last.set(place));
                    return turn;
                }
            }
            thread::yield_now();
        }
    }

    /// Makes a call.
    fn call<T>(&self, call: impl FnOnce(&Handle) -> Result<T, Error>) -> Result<T, Error> {
        let mut turn = self.take();
        match &mut turn.handle {
            Some(handle) => call(handle),
            none => call(none.insert(self.hot.handle()?)),
        }
    }

    /// Makes a change, and keeps what it took out until it can go. Now and then it looks after what another place keeps.
    fn change<T>(&self, call: impl FnOnce(&Handle) -> Made<K, V, T>) -> Result<T, Error> {
        // Values are dropped once the place is given back: they may make calls.
        let mut gone = Vec::new();
        let mut turn = self.take();
        let turn = &mut *turn;
        let handle = match &mut turn.handle {
            Some(handle) => handle,
            none => none.insert(self.hot.handle()?),
        };
        let (made, out) = call(handle)?;
        if let Some(node) = out {
            let lease = handle.lease();
            turn.out.push_back((lease.moment(), node));
            Turn::collect(&mut turn.out, lease, &mut gone);
            turn.count += 1;
            if turn.count % 16 == 0 {
                if let Some(mut other) = self.try_take(turn.count / 16 % PLACES) {
                    Turn::collect(&mut other.out, lease, &mut gone);
                }
            }
        }
        Ok(made)
    }

    fn find(&self, key: &[u8]) -> Option<Arc<Node<K, V>>> {
        let found = self.call(|handle| {
            let _section = handle.enter()?;
            // SAFETY: it is found in the section.
            Ok(handle.get(key).map(|at| unsafe { Node::share(at) }))
        });
        found.unwrap_or_else(|why| refused(why))
    }

    /// Gives a key another node than the one that it had, or returns the one that it has instead, if any.
    fn exchange(&self, key: &[u8], had: &Arc<Node<K, V>>, new: &Arc<Node<K, V>>) -> Result<Exchanged<K, V>, Error> {
        self.change(|handle| {
            let _section = handle.enter()?;
            let (old, given) = (Node::address(had), Node::give(new));
            // SAFETY: the address is out of the index by this call, or is found in the section, or did not go into the index.
            unsafe {
                match handle.lease().exchange(key, old, given) {
                    (ffi::EXCHANGED, _) => Ok((Ok(()), Some(Node::take(old)))),
                    (status, now) => {
                        drop(Node::<K, V>::take(given));
                        let now = (Error::check(status)? == ffi::DIFFERS).then(|| Node::share(now));
                        Ok((Err(now), None))
                    }
                }
            }
        })
    }
}

impl<K: ToKey, V> Map<K, V> {
    fn entry(&self, node: Arc<Node<K, V>>) -> Entry<'_, K, V> {
        Entry { map: self, node }
    }

    /// Gives the key the value, in place of another one.
    pub fn insert(&self, key: K, value: V) -> Result<Entry<'_, K, V>, Error> {
        let bytes = key_of(&key);
        let node = Arc::new(Node { key, value });
        self.change(|handle| {
            let given = Node::give(&node);
            let (status, had) = handle.lease().upsert(&bytes, given);
            // SAFETY: the address is out of the index by this call, or did not go into it.
            unsafe {
                match Error::check(status) {
                    Ok(ffi::WAS) => Ok(((), Some(Node::take(had)))),
                    Ok(_) => Ok(((), None)),
                    Err(why) => {
                        drop(Node::<K, V>::take(given));
                        Err(why)
                    }
                }
            }
        })?;
        Ok(self.entry(node))
    }

    /// Finds the key, or gives it the value if it is absent.
    ///
    /// ```
    /// let map = hot::Map::new()?;
    /// assert_eq!(map.get_or_insert(1u64, "one")?.value(), &"one");
    /// assert_eq!(map.get_or_insert(1u64, "uno")?.value(), &"one");
    /// # Ok::<(), hot::Error>(())
    /// ```
    pub fn get_or_insert(&self, key: K, value: V) -> Result<Entry<'_, K, V>, Error> {
        let bytes = key_of(&key);
        let node = Arc::new(Node { key, value });
        let found = self.call(|handle| {
            let _section = handle.enter()?;
            let given = Node::give(&node);
            let (status, had) = handle.lease().insert(&bytes, given);
            // SAFETY: the address did not go into the index, or is found in the section.
            unsafe {
                if status == ffi::INSERTED {
                    return Ok(None);
                }
                drop(Node::<K, V>::take(given));
                Error::check(status).map(|_| Some(Node::share(had)))
            }
        })?;
        Ok(self.entry(found.unwrap_or(node)))
    }

    /// Gives a key that is there the value that `change` makes of the one that it has; `None` if the key is absent. `change` is called again as
    /// long as other threads change the key meanwhile.
    ///
    /// ```
    /// let map = hot::Map::new()?;
    /// map.insert("oak".to_string(), vec![1])?;
    /// map.update("oak", |had| [&had[..], &[2]].concat())?;
    /// assert_eq!(map.get("oak").unwrap().value(), &[1, 2]);
    /// # Ok::<(), hot::Error>(())
    /// ```
    pub fn update<Q>(&self, key: &Q, mut change: impl FnMut(&V) -> V) -> Result<Option<Entry<'_, K, V>>, Error>
    where
        K: Borrow<Q> + Clone,
        Q: ToKey + ?Sized,
    {
        let bytes = key_of(key);
        let mut had = self.find(&bytes);
        while let Some(old) = had {
            let new = Arc::new(Node {
                key: old.key.clone(),
                value: change(&old.value),
            });
            had = match self.exchange(&bytes, &old, &new)? {
                Ok(()) => return Ok(Some(self.entry(new))),
                Err(now) => now,
            };
        }
        Ok(None)
    }

    /// Removes the key, and returns what it had.
    pub fn remove<Q>(&self, key: &Q) -> Result<Option<Entry<'_, K, V>>, Error>
    where
        K: Borrow<Q>,
        Q: ToKey + ?Sized,
    {
        let bytes = key_of(key);
        let out = self.change(|handle| match handle.lease().remove(&bytes) {
            (ffi::REMOVED, had) => {
                // SAFETY: the address is out of the index by this call.
                let node = unsafe { Node::take(had) };
                Ok((Some(Arc::clone(&node)), Some(node)))
            }
            (ffi::KEY_TOO_LONG, _) => Ok((None, None)),
            (status, _) => Error::check(status).map(|_| (None, None)),
        })?;
        Ok(out.map(|node| self.entry(node)))
    }

    /// The key with its value.
    pub fn get<Q>(&self, key: &Q) -> Option<Entry<'_, K, V>>
    where
        K: Borrow<Q>,
        Q: ToKey + ?Sized,
    {
        self.find(&key_of(key)).map(|node| self.entry(node))
    }

    /// Whether the key is there.
    pub fn contains_key<Q>(&self, key: &Q) -> bool
    where
        K: Borrow<Q>,
        Q: ToKey + ?Sized,
    {
        let bytes = key_of(key);
        self.call(|handle| Ok(handle.contains_key(&bytes)))
            .unwrap_or_else(|why| refused(why))
    }

    /// All keys with their values, in order from either end, fetched page by page: no key is missing that was there all along.
    pub fn iter(&self) -> Iter<'_, K, V> {
        Iter::between(self, (Bound::Unbounded, Bound::Unbounded))
    }

    /// Those of a range of keys in the same way. A range whose start is above its end is empty.
    ///
    /// ```
    /// let map = hot::Map::new()?;
    /// for number in [-5i32, 0, 7] {
    ///     map.insert(number, number.to_string())?;
    /// }
    /// let found: Vec<_> = map.range(-5..7).rev().map(|entry| *entry.key()).collect();
    /// assert_eq!(found, [0, -5]);
    /// # Ok::<(), hot::Error>(())
    /// ```
    pub fn range<Q, R>(&self, range: R) -> Iter<'_, K, V>
    where
        K: Borrow<Q>,
        R: RangeBounds<Q>,
        Q: ToKey + ?Sized,
    {
        Iter::between(self, (bound(range.start_bound()), bound(range.end_bound())))
    }

    /// The least key with its value.
    pub fn front(&self) -> Option<Entry<'_, K, V>> {
        self.iter().next()
    }

    /// The greatest key with its value.
    pub fn back(&self) -> Option<Entry<'_, K, V>> {
        self.iter().next_back()
    }

    /// Removes all keys, one by one. One that another thread puts in meanwhile may stay.
    pub fn clear(&self) -> Result<(), Error> {
        self.iter().try_for_each(|entry| entry.remove().map(|_| ()))
    }

    /// How many keys there are: exact while nobody changes the map.
    pub fn len(&self) -> usize {
        self.call(|handle| Ok(handle.len())).unwrap_or_else(|why| refused(why))
    }

    /// Whether there is no key.
    pub fn is_empty(&self) -> bool {
        self.front().is_none()
    }
}

fn bound<Q: ToKey + ?Sized>(of: Bound<&Q>) -> Bound<Vec<u8>> {
    match of {
        Bound::Included(key) => Bound::Included(key_of(key)),
        Bound::Excluded(key) => Bound::Excluded(key_of(key)),
        Bound::Unbounded => Bound::Unbounded,
    }
}

/// Drops all values.
impl<K, V> Drop for Map<K, V> {
    fn drop(&mut self) {
        let mut last = None;
        for place in &mut self.places {
            let turn = place.0.get_mut().unwrap_or_else(|turn| turn.into_inner());
            turn.out.clear();
            last = last.or(turn.handle.take());
        }
        // Without a handle nothing was put in.
        if let Some(handle) = last {
            let mut pairs = handle.iter();
            while let Some((_, address)) = pairs.next_ref() {
                // SAFETY: nobody else has the map, which goes.
                drop(unsafe { Node::<K, V>::take(address) });
            }
        }
    }
}

impl<K: ToKey + fmt::Debug, V: fmt::Debug> fmt::Debug for Map<K, V> {
    fn fmt(&self, to: &mut fmt::Formatter<'_>) -> fmt::Result {
        let mut map = to.debug_map();
        for entry in self {
            map.entry(entry.key(), entry.value());
        }
        map.finish()
    }
}

impl<'a, K: ToKey, V> IntoIterator for &'a Map<K, V> {
    type Item = Entry<'a, K, V>;
    type IntoIter = Iter<'a, K, V>;
    fn into_iter(self) -> Iter<'a, K, V> {
        self.iter()
    }
}

/// A key with its value, which stay as they are as long as the entry is there.
pub struct Entry<'a, K, V> {
    map: &'a Map<K, V>,
    node: Arc<Node<K, V>>,
}

impl<K, V> Entry<'_, K, V> {
    /// The key.
    pub fn key(&self) -> &K {
        &self.node.key
    }

    /// The value.
    pub fn value(&self) -> &V {
        &self.node.value
    }
}

impl<K: ToKey, V> Entry<'_, K, V> {
    /// Removes the key if it still has this value, and returns whether it did.
    pub fn remove(&self) -> Result<bool, Error> {
        let (bytes, address) = (key_of(&self.node.key), Node::address(&self.node));
        self.map
            .change(|handle| match handle.lease().remove_if(&bytes, address) {
                // SAFETY: the address is out of the index by this call.
                (ffi::REMOVED, _) => Ok((true, Some(unsafe { Node::take(address) }))),
                (status, _) => Error::check(status).map(|_| (false, None)),
            })
    }
}

impl<K, V> Clone for Entry<'_, K, V> {
    fn clone(&self) -> Self {
        Entry {
            map: self.map,
            node: Arc::clone(&self.node),
        }
    }
}

impl<K: fmt::Debug, V: fmt::Debug> fmt::Debug for Entry<'_, K, V> {
    fn fmt(&self, to: &mut fmt::Formatter<'_>) -> fmt::Result {
        to.debug_tuple("Entry").field(self.key()).field(self.value()).finish()
    }
}

/// Keys with their values, in order from either end: see [`Map::range`]. It keeps those of a page that come next.
pub struct Iter<'a, K, V> {
    map: &'a Map<K, V>,
    left: Left,
    page: Page,
    /// What comes next from the front, and from the back.
    front: VecDeque<Arc<Node<K, V>>>,
    back: VecDeque<Arc<Node<K, V>>>,
}

impl<'a, K, V> Iter<'a, K, V> {
    fn between(map: &'a Map<K, V>, keys: (Bound<Vec<u8>>, Bound<Vec<u8>>)) -> Self {
        Iter {
            map,
            left: Left::new(range::ends(&keys)),
            page: Page::default(),
            front: VecDeque::new(),
            back: VecDeque::new(),
        }
    }

    /// The nodes of the next page from the front, or from the back.
    fn fetch(&mut self, is_front: bool) -> VecDeque<Arc<Node<K, V>>> {
        let (left, page) = (&mut self.left, &mut self.page);
        let mut found = VecDeque::new();
        if left.is_empty() {
            return found;
        }
        let listed = self.map.call(|handle| {
            let _section = handle.enter()?;
            left.list(handle.lease(), is_front, page)?;
            while let Some((_, address)) = page.take(is_front) {
                // SAFETY: it is found in the section.
                found.push_back(unsafe { Node::share(address) });
            }
            Ok(())
        });
        listed.unwrap_or_else(|why| refused(why));
        found
    }

    fn entry(&self, node: Option<Arc<Node<K, V>>>) -> Option<Entry<'a, K, V>> {
        node.map(|node| Entry { map: self.map, node })
    }
}

impl<'a, K, V> Iterator for Iter<'a, K, V> {
    type Item = Entry<'a, K, V>;
    fn next(&mut self) -> Option<Self::Item> {
        if self.front.is_empty() {
            self.front = self.fetch(true);
        }
        let node = self.front.pop_front().or_else(|| self.back.pop_back());
        self.entry(node)
    }
}

impl<K, V> DoubleEndedIterator for Iter<'_, K, V> {
    fn next_back(&mut self) -> Option<Self::Item> {
        if self.back.is_empty() {
            self.back = self.fetch(false);
        }
        let node = self.back.pop_front().or_else(|| self.front.pop_back());
        self.entry(node)
    }
}

impl<K, V> FusedIterator for Iter<'_, K, V> {}

impl<K, V> fmt::Debug for Iter<'_, K, V> {
    fn fmt(&self, to: &mut fmt::Formatter<'_>) -> fmt::Result {
        to.debug_struct("Iter").finish_non_exhaustive()
    }
}
