//! The index beside a `BTreeMap`: random calls, also by threads at once, random ranges from both ends, and the edges of keys.
use hot::{CompareExchangeError, Error, Handle, Hot, KeyRange, Stats, Stock, TryInsertError, MAX_KEY};
use std::collections::BTreeMap;
use std::ops::Bound;
use std::thread;

type Model = BTreeMap<Vec<u8>, u64>;

/// Random numbers, and what all keys begin with.
struct Random(u64, &'static [u8]);

impl Random {
    fn below(&mut self, limit: u64) -> u64 {
        self.0 ^= self.0 << 13;
        self.0 ^= self.0 >> 7;
        self.0 ^= self.0 << 17;
        self.0 % limit
    }

    /// Few letters and all lengths, so that there are prefixes, equal keys and long ones.
    fn key(&mut self) -> Vec<u8> {
        let room = MAX_KEY as u64 - self.1.len() as u64;
        let length = match self.below(20) {
            0 => room,
            1 => room - 1,
            2 => self.below(60),
            _ => self.below(5),
        };
        let mut key = self.1.to_vec();
        key.extend((0..length).map(|_| [0, 1, b'a', 0xfe, 0xff][self.below(5) as usize]));
        key
    }

    fn bound(&mut self) -> Bound<Vec<u8>> {
        match self.below(5) {
            0 => Bound::Unbounded,
            1 | 2 => Bound::Included(self.key()),
            _ => Bound::Excluded(self.key()),
        }
    }
}

fn within(key: &[u8], keys: &impl KeyRange) -> bool {
    let (from, upto) = keys.key_bounds();
    let is_above = match from {
        Bound::Unbounded => true,
        Bound::Included(from) => key >= from,
        Bound::Excluded(from) => key > from,
    };
    is_above
        && match upto {
            Bound::Unbounded => true,
            Bound::Included(upto) => key <= upto,
            Bound::Excluded(upto) => key < upto,
        }
}

fn listed(model: &Model, holds: impl Fn(&[u8]) -> bool) -> Vec<(Vec<u8>, u64)> {
    model
        .iter()
        .filter(|(key, _)| holds(key))
        .map(|(key, value)| (key.clone(), *value))
        .collect()
}

fn change(handle: &Handle, model: &mut Model, random: &mut Random) {
    let (key, value, new) = (random.key(), random.below(3), random.below(3));
    let had = model.get(&key).copied();
    let wanted = match had {
        None => Err(CompareExchangeError::Absent),
        Some(had) if had == value => Ok(had),
        Some(had) => Err(CompareExchangeError::Differs(had)),
    };
    match random.below(9) {
        0 | 1 => {
            model.entry(key.clone()).or_insert(value);
            assert_eq!(
                handle.try_insert(&key, value),
                had.map_or(Ok(()), |had| Err(TryInsertError::Occupied(had)))
            );
        }
        2 => assert_eq!(handle.insert(&key, value), Ok(model.insert(key, value))),
        3 => assert_eq!(handle.remove(&key), Ok(model.remove(&key))),
        4 => {
            assert_eq!(handle.compare_exchange(&key, value, new), wanted);
            if wanted.is_ok() {
                model.insert(key, new);
            }
        }
        5 => {
            assert_eq!(handle.remove_if(&key, value), wanted);
            if wanted.is_ok() {
                model.remove(&key);
            }
        }
        6 => {
            assert_eq!(handle.add(&key, new), Ok(had));
            model.entry(key).and_modify(|value| *value += new);
        }
        7 => {
            assert_eq!(handle.fetch_add(&key, new), Ok(had));
            *model.entry(key).or_insert(0) += new;
        }
        _ => {
            let turn = |had: Option<u64>| {
                if had == Some(2) {
                    None
                } else {
                    Some(had.unwrap_or(value) + 1)
                }
            };
            assert_eq!(handle.fetch_update(&key, turn), Ok(had));
            match turn(had) {
                Some(new) => model.insert(key, new),
                None => model.remove(&key),
            };
        }
    }
}

/// Takes a range from both ends, in a random order, up to where they meet.
fn check_range(handle: &Handle, model: &Model, random: &mut Random) {
    let keys = (random.bound(), random.bound());
    let wanted = listed(model, |key| within(key, &keys));
    assert_eq!(handle.count_range(keys.clone()), wanted.len());
    let values: Vec<_> = wanted.iter().map(|(_, value)| *value).collect();
    assert_eq!(handle.values_range(keys.clone()), Ok(values));
    let (mut range, mut front, mut back) = (handle.range(keys), Vec::new(), Vec::new());
    loop {
        let is_forward = random.below(3) > 0;
        match if is_forward { range.next() } else { range.next_back() } {
            Some(pair) if is_forward => front.push(pair),
            Some(pair) => back.push(pair),
            None => break,
        }
    }
    front.extend(back.into_iter().rev());
    assert_eq!(front, wanted);
}

/// The same, and now and then without a copy of the key. The bounds are borrowed.
fn check_range_by_reference(handle: &Handle, model: &Model, random: &mut Random) {
    let keys = (random.bound(), random.bound());
    let mut wanted = listed(model, |key| within(key, &keys)).into_iter();
    let mut range = handle.range(&keys);
    loop {
        let own = |(key, value): (&[u8], u64)| (key.to_vec(), value);
        let (found, expected) = match random.below(4) {
            0 => (range.next(), wanted.next()),
            1 => (range.next_back(), wanted.next_back()),
            2 => (range.next_ref().map(own), wanted.next()),
            _ => (range.next_back_ref().map(own), wanted.next_back()),
        };
        assert_eq!(found, expected);
        if found.is_none() {
            break;
        }
    }
    assert_eq!(handle.count_range(&keys), listed(model, |key| within(key, &keys)).len());
}

/// Takes a pair from an end of a range, or now and then all pairs of a range.
fn check_taking(handle: &Handle, model: &mut Model, random: &mut Random) {
    let keys = (random.bound(), random.bound());
    let mut wanted = listed(model, |key| within(key, &keys));
    match random.below(20) {
        0 => assert_eq!(handle.clear_range(keys), Ok(())),
        kind => {
            let taken = if kind % 2 == 0 {
                wanted.truncate(1);
                handle.pop_first_in(keys)
            } else {
                wanted.drain(..wanted.len().saturating_sub(1));
                handle.pop_last_in(keys)
            };
            assert_eq!(taken, Ok(wanted.first().cloned()));
        }
    }
    for (key, _) in wanted {
        model.remove(&key);
    }
}

fn check_look_ups(handle: &Handle, model: &Model, random: &mut Random) {
    let keys: Vec<_> = (0..random.below(600)).map(|_| random.key()).collect();
    let wanted: Vec<_> = keys.iter().map(|key| model.get(key).copied()).collect();
    assert_eq!(handle.get_many(&keys), Ok(wanted.clone()));
    assert!(keys.iter().zip(wanted).all(|(key, value)| handle.get(key) == value));
    let prefix = random.key();
    let wanted = listed(model, |key| key.starts_with(&prefix));
    assert_eq!(handle.count_prefix(&prefix), wanted.len());
    assert!(handle.prefix(&prefix).eq(wanted.clone()));
    assert!(handle.prefix(&prefix).rev().eq(wanted.into_iter().rev()));
    let copy = |(key, value): (&Vec<u8>, &u64)| (key.clone(), *value);
    assert_eq!(handle.first_key_value(), model.iter().next().map(copy));
    assert_eq!(handle.last_key_value(), model.iter().next_back().map(copy));
}

#[test]
fn random_calls_return_what_a_btree_map_does() {
    for seed in 1..=10 {
        let mut random = Random(0x9e37_79b9_7f4a_7c15_u64.wrapping_mul(seed), &[]);
        let handle = Hot::with_capacity(2000, MAX_KEY, 1).unwrap().handle().unwrap();
        let mut model = Model::new();
        for round in 0..2000 {
            change(&handle, &mut model, &mut random);
            if round % 8 == 0 {
                check_range(&handle, &model, &mut random);
                check_range_by_reference(&handle, &model, &mut random);
                check_look_ups(&handle, &model, &mut random);
                check_taking(&handle, &mut model, &mut random);
            }
        }
        assert_eq!(handle.len(), model.len());
        assert!(handle.keys().eq(model.keys().cloned()) && handle.values().eq(model.values().copied()));
        let (least, greatest) = (handle.pop_first().unwrap(), handle.pop_last().unwrap());
        assert_eq!(least.map(|(key, value)| model.remove(&key) == Some(value)), Some(true));
        assert_eq!(
            greatest.map(|(key, value)| model.remove(&key) == Some(value)),
            Some(true)
        );
        assert!((&handle).into_iter().eq(model));
        assert_eq!((handle.clear(), handle.pop_last(), handle.len()), (Ok(()), Ok(None), 0));
    }
}

/// Each thread has keys of its own, beside which those of the others come and go.
#[test]
fn random_calls_of_threads_at_once() {
    let hot = Hot::with_capacity(8000, MAX_KEY, 4).unwrap();
    thread::scope(|scope| {
        for begin in [b"b", b"c", b"d", b"e"] {
            let handle = hot.handle().unwrap();
            scope.spawn(move || {
                let mut random = Random(u64::from(begin[0]), begin);
                let mut model = Model::new();
                for round in 0..2000 {
                    change(&handle, &mut model, &mut random);
                    if round % 16 == 0 {
                        assert!(handle.prefix(begin).eq(model.clone()));
                        assert!(handle.prefix(begin).rev().eq(model.clone().into_iter().rev()));
                    }
                }
            });
        }
    });
}

#[test]
fn keys_that_are_too_long() {
    let handle = Hot::with_capacity(10, MAX_KEY, 1).unwrap().handle().unwrap();
    handle.extend([(vec![7; MAX_KEY], 1), (vec![8], 2)]).unwrap();
    let long = vec![7; MAX_KEY + 1];
    assert_eq!(handle.get(&long), None);
    assert_eq!(handle.remove(&long), Ok(None));
    assert_eq!(handle.remove_if(&long, 1), Err(CompareExchangeError::Absent));
    assert_eq!(handle.add(&long, 1), Ok(None));
    assert_eq!(handle.fetch_add(&long, 1), Err(Error::KeyTooLong));
    assert_eq!(handle.insert(&long, 1), Err(Error::KeyTooLong));
    assert_eq!(
        handle.try_insert(&long, 1),
        Err(TryInsertError::Refused(Error::KeyTooLong))
    );
    assert_eq!(handle.extend([(&[1][..], 3), (&long, 4)]), Err(Error::KeyTooLong));
    assert_eq!(Error::KeyTooLong.to_string(), "a key is too long");
    assert_eq!(
        handle.get_many(&[&long[..], &[8], &long, &[1]]),
        Ok(vec![None, Some(2), None, Some(3)])
    );
    assert_eq!(
        (
            handle.range(&long..).count(),
            handle.range(..&long).count(),
            handle.range(..=&long).count()
        ),
        (1, 2, 2)
    );
    assert_eq!((handle.prefix(&long).count(), handle.count_prefix(&long)), (0, 0));
}

#[test]
fn an_index_is_collected() {
    let model: Model = (0..3000u64)
        .map(|n| (n.wrapping_mul(0x9e37_79b9_7f4a_7c15).to_be_bytes().to_vec(), n))
        .collect();
    let index: Hot = model
        .clone()
        .into_iter()
        .rev()
        .chain([(vec![7], 1), (vec![7], 2)])
        .collect();
    let handle = index.handle().unwrap();
    assert_eq!(
        (handle.remove([7]), handle.len(), index.handles()),
        (Ok(Some(2)), 3000, 64)
    );
    assert!(handle.iter().eq(model));
    Extend::extend(&mut &handle, [("", 1), ("", 2)]);
    assert_eq!(handle.pop_first(), Ok(Some((vec![], 2))));
    let mut borrowed = index.handle().unwrap();
    let still: &mut Handle = &mut borrowed;
    assert_eq!(still.extend([("c", 3)]), Ok(())); // the one that returns why
    let long = std::panic::catch_unwind(|| [([7; MAX_KEY + 1], 1)].into_iter().collect::<Hot>());
    let said = long.unwrap_err().downcast::<String>().unwrap();
    assert_eq!(*said, Error::KeyTooLong.to_string());
}

#[test]
fn an_insertion_becomes_an_error() {
    fn put(handle: &Handle, key: &[u8]) -> Result<(), Error> {
        handle.try_insert(key, 1)?;
        Ok(())
    }
    let handle = Hot::with_capacity(10, 8, 1).unwrap().handle().unwrap();
    assert_eq!((put(&handle, b"a"), put(&handle, b"a")), (Ok(()), Err(Error::Occupied)));
    assert_eq!(put(&handle, &[1; MAX_KEY + 1]), Err(Error::KeyTooLong));
    assert_eq!(Error::Occupied.to_string(), "the key exists");
}

#[test]
fn a_full_index_says_so_and_goes_on_when_a_key_is_gone() {
    let stock = Stock {
        nodes: 100,
        short_leaves: 10,
        ..Stock::default()
    };
    let handle = Hot::with_stock(&stock, 1).unwrap().handle().unwrap();
    let held = (0..20)
        .take_while(|n: &u64| handle.insert(n.to_be_bytes(), *n) == Ok(None))
        .count();
    assert_eq!((held, handle.insert("another", 0)), (10, Err(Error::FullLeaves)));
    assert_eq!(handle.insert("longer than any of them", 0), Err(Error::KeyTooLong));
    let full_alone = Stats {
        full: 2,
        ..Stats::default()
    };
    assert_eq!(handle.index().stats(), full_alone);
    let bytes = handle.index().bytes();
    assert!(bytes.now > 0 && bytes.now <= bytes.most);
    assert_eq!(handle.remove(3u64.to_be_bytes()), Ok(Some(3)));
    assert_eq!(handle.insert("another", 99), Ok(None));
    assert_eq!((handle.len(), handle.census().short_leaves.live), (10, 10));
}

#[test]
fn numbers_out_of_range() {
    for handles in [0, 1025, usize::MAX] {
        assert_eq!(Hot::with_capacity(10, 8, handles).err(), Some(Error::OutOfRange));
    }
    assert_eq!(Hot::with_capacity(usize::MAX, 8, 1).err(), Some(Error::OutOfRange));
    assert_eq!(Hot::with_stock(&Stock::default(), 1).err(), Some(Error::OutOfRange));
    assert_eq!(Stock::default().bytes(1), Err(Error::OutOfRange));
    assert_eq!(Stock::for_any_keys(usize::MAX, 8, 1), Err(Error::OutOfRange));
    assert!(Stock::for_keys(1000, 8).unwrap().bytes(1).unwrap() > 1000 * 32);
    assert!(Stock::for_any_keys(1000, 8, 1).unwrap().bytes(1).unwrap() > 1000 * (32 + 464));
}

#[test]
fn handles_are_given_back() {
    let hot = Hot::with_capacity(10, 8, 2).unwrap();
    let (one, two) = (hot.handle().unwrap(), hot.handle().unwrap());
    assert_eq!((hot.handles(), hot.handle().err()), (2, Some(Error::NoHandle)));
    drop(two);
    let two = one.index().handle().unwrap();
    drop((hot, one));
    // The index is there as long as a handle.
    two.insert("a", 1).unwrap();
    assert_eq!(
        format!("{two:?} {:?}", two.index()),
        r#"{"a": 1} Hot { handles: 2, .. }"#
    );
}

#[test]
fn moments_are_of_one_index() {
    let index = Hot::with_capacity(10, 8, 2).unwrap();
    let (one, two) = (index.handle().unwrap(), index.handle().unwrap());
    let other = Hot::with_capacity(10, 8, 2).unwrap().handle().unwrap();
    assert_eq!((one.meet(&two), one.meet(&one)), (Ok(()), Ok(())));
    assert_eq!(one.meet(&other), Err(Error::OtherIndex));
    assert_eq!(one.stamp().err(), Some(Error::NoHandle));
    drop(two);
    let moment = one.stamp().unwrap();
    assert_eq!(one.follow(&moment.clone()), Ok(()));
    assert_eq!(other.follow(&moment), Err(Error::OtherIndex));
    assert_eq!(index.handle().err(), Some(Error::NoHandle));
    drop((index, one));
    // The index is there as long as a moment.
    assert_eq!(other.follow(&moment), Err(Error::OtherIndex));
}

#[test]
fn a_range_goes_on_while_its_handle_changes_the_index() {
    let handle = Hot::with_capacity(1000, 8, 1).unwrap().handle().unwrap();
    handle.extend((0..1000u64).map(|n| (n.to_be_bytes(), n))).unwrap();
    for (key, _) in &handle {
        handle.remove(key).unwrap();
    }
    assert!(handle.is_empty());
}
