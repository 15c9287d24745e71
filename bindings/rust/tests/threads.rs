//! Threads of `std::thread::scope`, each with a handle of its own.
use hot::{key_of, Error, Growing, Hot, Stock};
use std::sync::atomic::{AtomicBool, AtomicU32, Ordering};
use std::thread;

#[test]
fn counters_lose_nothing() -> Result<(), Error> {
    let hot = Hot::with_capacity(100, 8, 4)?;
    thread::scope(|scope| {
        for of in 0..4u64 {
            let handle = hot.handle().unwrap();
            scope.spawn(move || {
                for n in 0..5000 {
                    let key = ((n * 7 + of) % 10).to_be_bytes();
                    handle.fetch_add(key, 1).unwrap();
                    handle.fetch_update(key, |had| Some(had.unwrap_or(0) + 1)).unwrap();
                    handle.add(key, 1).unwrap();
                }
            });
        }
    });
    let handle = hot.handle()?;
    assert_eq!((handle.values().sum::<u64>(), handle.len()), (60_000, 10));
    Ok(())
}

/// A thread with a small stack makes an index and opens its handles.
#[test]
fn a_small_stack_is_enough() -> Result<(), Error> {
    let small = thread::Builder::new().stack_size(64 << 10);
    let work = small.spawn(|| {
        let index = Hot::with_capacity(1_000, 8, 2)?;
        let (one, other) = (index.handle()?, index.handle()?);
        one.insert(b"a", 1)?;
        Ok::<_, Error>(other.get(b"a"))
    });
    assert_eq!(work.unwrap().join().unwrap()?, Some(1));
    Ok(())
}

/// Two threads put keys in, and two find each key that was put in.
#[test]
fn an_index_grows_while_threads_read() -> Result<(), Error> {
    const MANY: u32 = 4000;
    let stock = Stock {
        nodes: 4,
        short_leaves: 20,
        ..Stock::default()
    };
    let index = Growing::with_stock(&stock, 4)?;
    let written = [AtomicU32::new(0), AtomicU32::new(0)];
    thread::scope(|scope| {
        for (of, written) in (0..2u8).zip(&written) {
            let (mut writer, mut reader) = (index.user().unwrap(), index.user().unwrap());
            scope.spawn(move || {
                for number in 0..MANY {
                    let key = key_of((number, of));
                    let made = writer.change(|handle| handle.insert(&key, number.into()));
                    assert_eq!(made, Ok(None));
                    written.store(number + 1, Ordering::SeqCst);
                }
            });
            scope.spawn(move || {
                let mut turn = 0;
                loop {
                    let count = written.load(Ordering::SeqCst);
                    match turn % count.max(1) {
                        _ if count == 0 => thread::yield_now(),
                        number => assert_eq!(reader.read().unwrap().get(key_of((number, of))), Some(number.into())),
                    }
                    if count == MANY {
                        break;
                    }
                    turn += 1;
                }
            });
        }
    });
    let mut user = index.user()?;
    assert_eq!(user.read()?.len(), 2 * MANY as usize);
    assert_eq!(user.change(|handle| handle.insert("longer than 8", 1)), Ok(None));
    assert_eq!(index.clone().user().map(|_| ()), Ok(()));
    assert_eq!(Growing::with_stock(&stock, 1024).err(), Some(Error::OutOfRange));
    Ok(())
}

/// A closure that makes a change runs once, also where the index grows for it. An index that may not be larger is full, and one that doesn't
/// grow says so.
#[test]
fn each_change_runs_once() -> Result<(), Error> {
    let stock = Stock {
        nodes: 4,
        short_leaves: 20,
        ..Stock::default()
    };
    let (mut user, mut runs) = (Growing::with_stock(&stock, 1)?.user()?, 0);
    for number in 0..1000u32 {
        user.change(|handle| {
            runs += 1;
            handle.insert(key_of(number), 1)
        })?;
    }
    assert_eq!(runs, 1000);
    let bounded = Hot::growing_from_sorted_iter(100_000, 1, (0..100u32).map(|number| (key_of(number), 1)))?;
    let handle = bounded.handle()?;
    assert_eq!((handle.len(), bounded.is_filling()), (100, false));
    let pairs = (100..10_000u32).map(|number| (key_of(number), 1));
    assert!(matches!(handle.extend(pairs), Err(why) if why.is_full()) && handle.len() > 500);
    handle.clear()?;
    assert!(bounded.trim().is_err());
    drop(handle);
    bounded.trim()?;
    let handle = bounded.handle()?;
    assert!(handle.is_empty() && handle.census().bytes < 25_000);
    let fixed = Hot::with_capacity(10, 8, 1)?;
    assert_eq!(
        (fixed.grow(), fixed.trim()),
        (Err(Error::NotGrowing), Err(Error::NotGrowing))
    );
    Ok(())
}

#[test]
fn readers_see_all_that_stays() -> Result<(), Error> {
    let hot = Hot::with_capacity(2000, 8, 4)?;
    let writer = hot.handle()?;
    writer.extend((0..1000u64).map(|n| ((2 * n).to_be_bytes(), 2 * n)))?;
    let ends = AtomicBool::new(false);
    thread::scope(|scope| {
        for _ in 0..3 {
            let (reader, ends) = (hot.handle().unwrap(), &ends);
            scope.spawn(move || loop {
                let is_last = ends.load(Ordering::Relaxed);
                let is_even = |(key, _): &(Vec<u8>, u64)| key[7] % 2 == 0;
                assert_eq!(reader.iter().filter(is_even).count(), 1000);
                assert_eq!(reader.iter().rev().filter(is_even).count(), 1000);
                let keys: Vec<_> = reader.keys().collect();
                assert!(keys.windows(2).all(|pair| pair[0] < pair[1]));
                let values = reader.values_range(..).unwrap();
                assert!(values.windows(2).all(|pair| pair[0] < pair[1]));
                assert_eq!(values.iter().filter(|value| *value % 2 == 0).count(), 1000);
                if is_last {
                    break;
                }
            });
        }
        for n in 0..20_000u64 {
            let odd = 2 * (n % 900) + 1;
            if n / 900 % 2 == 0 {
                writer.insert(odd.to_be_bytes(), odd)
            } else {
                writer.remove(odd.to_be_bytes())
            }
            .unwrap();
        }
        ends.store(true, Ordering::Relaxed);
    });
    Ok(())
}

#[test]
fn a_handle_goes_from_thread_to_thread() -> Result<(), Error> {
    let hot = Hot::with_capacity(100, 8, 1)?;
    for n in 0..10u64 {
        let handle = hot.handle()?;
        thread::spawn(move || handle.insert(n.to_be_bytes(), n))
            .join()
            .unwrap()?;
    }
    assert_eq!(hot.handle()?.len(), 10);
    Ok(())
}
