//! A B-tree under a reader-writer lock, both of Rust's standard library, with calls for C of the form of hot.h: `bench/index.c` measures
//! it beside the index.

use std::collections::btree_map::Entry;
use std::collections::BTreeMap;
use std::ops::Bound;
use std::slice;
use std::sync::RwLock;

/// The map that all threads share.
type Tree = RwLock<BTreeMap<Box<[u8]>, u64>>;

/// The head of a listed pair, as `hot_head` of hot.h.
#[repr(C)]
pub struct Head {
    length: u8,
    value: u64,
}

/// Writes the value that a key had, if it had one. Answers 1 if it did, else 0.
unsafe fn tell(value: Option<u64>, had: *mut u64) -> i32 {
    if let Some(value) = value {
        *had = value;
    }
    i32::from(value.is_some())
}

#[no_mangle]
pub extern "C" fn tree_create() -> *mut Tree {
    Box::into_raw(Box::default())
}

#[no_mangle]
pub unsafe extern "C" fn tree_destroy(tree: *mut Tree) {
    drop(Box::from_raw(tree));
}

#[no_mangle]
pub unsafe extern "C" fn tree_get(
    tree: &Tree,
    key: *const u8,
    length: usize,
    had: *mut u64,
) -> i32 {
    let key = slice::from_raw_parts(key, length);
    let value = tree.read().unwrap().get(key).copied();
    tell(value, had)
}

/// A key that is there keeps its value.
#[no_mangle]
pub unsafe extern "C" fn tree_insert(
    tree: &Tree,
    key: *const u8,
    length: usize,
    value: u64,
    had: *mut u64,
) -> i32 {
    let key = slice::from_raw_parts(key, length).into();
    let before = match tree.write().unwrap().entry(key) {
        Entry::Occupied(entry) => Some(*entry.get()),
        Entry::Vacant(entry) => {
            entry.insert(value);
            None
        }
    };
    tell(before, had)
}

#[no_mangle]
pub unsafe extern "C" fn tree_upsert(
    tree: &Tree,
    key: *const u8,
    length: usize,
    value: u64,
    had: *mut u64,
) -> i32 {
    let key = slice::from_raw_parts(key, length);
    let mut map = tree.write().unwrap();
    let before = match map.get_mut(key) {
        Some(place) => Some(std::mem::replace(place, value)),
        None => map.insert(key.into(), value),
    };
    tell(before, had)
}

#[no_mangle]
pub unsafe extern "C" fn tree_remove(
    tree: &Tree,
    key: *const u8,
    length: usize,
    had: *mut u64,
) -> i32 {
    let key = slice::from_raw_parts(key, length);
    let before = tree.write().unwrap().remove(key);
    tell(before, had)
}

/// Lists the first pairs from a key on, packed as by `hot_scan_packed`: the bytes have room for `limit` keys. Answers how many.
#[no_mangle]
pub unsafe extern "C" fn tree_scan(
    tree: &Tree,
    from: *const u8,
    length: usize,
    mut bytes: *mut u8,
    heads: *mut Head,
    limit: usize,
) -> usize {
    let from = Bound::Included(slice::from_raw_parts(from, length));
    let mut count = 0;
    for (key, value) in tree
        .read()
        .unwrap()
        .range::<[u8], _>((from, Bound::Unbounded))
        .take(limit)
    {
        bytes.copy_from_nonoverlapping(key.as_ptr(), key.len());
        bytes = bytes.add(key.len());
        heads.add(count).write(Head {
            length: key.len() as u8,
            value: *value,
        });
        count += 1;
    }
    count
}
