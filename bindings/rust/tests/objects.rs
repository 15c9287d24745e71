//! Maps of objects: random calls beside a `BTreeMap`, what entries keep, what is refused, and threads that read what others replace and remove.
use hot::{map::Iter, Error, Map};
use std::collections::BTreeMap;
use std::sync::atomic::{AtomicU64, AtomicUsize, Ordering};
use std::sync::Arc;
use std::thread;
use std::time::Instant;

const THERE: u64 = 0x1234_5678_90ab_cdef;

/// A value that tells whether it is there, and counts those that are.
struct Watched {
    canary: AtomicU64,
    number: u64,
    alive: Arc<AtomicUsize>,
}

impl Watched {
    fn new(number: u64, alive: &Arc<AtomicUsize>) -> Watched {
        alive.fetch_add(1, Ordering::Relaxed);
        Watched {
            canary: AtomicU64::new(THERE),
            number,
            alive: Arc::clone(alive),
        }
    }

    fn number(&self) -> u64 {
        assert_eq!(self.canary.load(Ordering::Relaxed), THERE);
        self.number
    }
}

impl Drop for Watched {
    fn drop(&mut self) {
        assert_eq!(self.canary.swap(0, Ordering::Relaxed), THERE);
        self.alive.fetch_sub(1, Ordering::Relaxed);
    }
}

/// Numbers without order, each as often as another.
struct Random(u64);

impl Random {
    fn below(&mut self, limit: u64) -> u64 {
        self.0 = self
            .0
            .wrapping_mul(6364136223846793005)
            .wrapping_add(1442695040888963407);
        (self.0 >> 33) % limit
    }

    fn key(&mut self) -> (i32, String) {
        let text = ["\0", "a", "b\u{7f}"][self.below(3) as usize].repeat(self.below(4) as usize);
        (self.below(7) as i32 - 3, text)
    }
}

fn numbers<K: Clone>(iter: Iter<'_, K, Watched>) -> Vec<(K, u64)> {
    iter.map(|entry| (entry.key().clone(), entry.value().number()))
        .collect()
}

type Mixed = Map<(i32, String), Watched>;
type Tree = BTreeMap<(i32, String), u64>;

fn change(map: &Mixed, beside: &mut Tree, random: &mut Random, alive: &Arc<AtomicUsize>) -> Result<(), Error> {
    let (key, number) = (random.key(), random.below(100));
    let had = beside.get(&key).copied();
    match random.below(5) {
        0 => {
            let entry = map.get_or_insert(key.clone(), Watched::new(number, alive))?;
            assert_eq!((entry.key(), entry.value().number()), (&key, had.unwrap_or(number)));
            beside.entry(key).or_insert(number);
        }
        1 => {
            let entry = map.insert(key.clone(), Watched::new(number, alive))?;
            assert_eq!((entry.key(), entry.value().number()), (&key, number));
            beside.insert(key, number);
        }
        2 => {
            let made = map.update(&key, |old| Watched::new(old.number() + number, alive))?;
            assert_eq!(made.map(|entry| entry.value().number()), had.map(|had| had + number));
            beside.entry(key).and_modify(|had| *had += number);
        }
        3 => {
            assert_eq!(map.remove(&key)?.map(|entry| entry.value().number()), had);
            beside.remove(&key);
        }
        _ => {
            if let Some(entry) = map.get(&key) {
                assert!(entry.remove()? && !entry.remove()? && Some(entry.value().number()) == had);
            }
            beside.remove(&key);
        }
    }
    Ok(())
}

#[test]
fn random_calls_are_as_with_a_tree() -> Result<(), Error> {
    let alive = Arc::default();
    let (map, mut beside, mut random) = (Map::new()?, BTreeMap::new(), Random(1));
    for turn in 0..10_000 {
        change(&map, &mut beside, &mut random, &alive)?;
        let other = random.key();
        assert_eq!(
            (map.len(), map.contains_key(&other)),
            (beside.len(), beside.contains_key(&other))
        );
        if turn % 20 == 0 {
            compare(&map, &beside, &mut random);
        }
    }
    assert_eq!(alive.load(Ordering::Relaxed), beside.len());
    map.clear()?;
    assert!(map.is_empty() && alive.load(Ordering::Relaxed) == 0);
    Ok(())
}

fn compare(map: &Mixed, beside: &Tree, random: &mut Random) {
    let copied = |(key, number): (&(i32, String), &u64)| (key.clone(), *number);
    assert_eq!(numbers(map.iter()), beside.iter().map(copied).collect::<Vec<_>>());
    let (one, other) = (random.key(), random.key());
    let (from, upto) = (one.clone().min(other.clone()), one.max(other));
    let wanted: Vec<_> = beside.range(from.clone()..=upto.clone()).map(copied).collect();
    assert_eq!(numbers(map.range(&from..=&upto)), wanted);
    let (mut iter, mut ends) = (map.range(from..=upto), (Vec::new(), Vec::new()));
    while let Some(entry) = iter.next() {
        ends.0.push((entry.key().clone(), entry.value().number()));
        ends.1.extend(
            iter.next_back()
                .map(|entry| (entry.key().clone(), entry.value().number())),
        );
    }
    ends.0.extend(ends.1.into_iter().rev());
    assert_eq!(ends.0, wanted);
}

#[test]
fn entries_keep_their_values() -> Result<(), Error> {
    let alive = Arc::<AtomicUsize>::default();
    let count = || alive.load(Ordering::Relaxed);
    let map = Map::new()?;
    for number in 0..1000u64 {
        map.insert(number, Watched::new(number, &alive))?;
    }
    let (kept, copy) = (map.get(&7).unwrap(), map.get(&7).unwrap().clone());
    assert!(map.remove(&7)?.is_some() && map.remove(&8)?.is_some() && count() == 999);
    drop(kept);
    assert_eq!((copy.value().number(), count()), (7, 999));
    drop(copy);
    assert_eq!(count(), 998);
    // An entry whose value was replaced meanwhile doesn't remove the other one.
    let old = map.get(&9).unwrap();
    map.insert(9, Watched::new(90, &alive))?;
    assert!(!old.remove()? && map.get(&9).unwrap().value().number() == 90 && old.value().number() == 9);
    // All entries at a time, beyond the keys.
    let all: Vec<_> = map.iter().collect();
    map.clear()?;
    assert_eq!((all.len(), map.len(), count()), (998, 0, 999));
    assert!(all.iter().skip(8).all(|entry| entry.value().number() == *entry.key()));
    drop((all, old));
    assert_eq!(count(), 0);
    map.insert(1, Watched::new(1, &alive))?;
    drop(map);
    assert_eq!(count(), 0);
    Ok(())
}

#[test]
fn what_is_refused_changes_nothing() -> Result<(), Error> {
    let alive = Arc::default();
    let new = |number| Watched::new(number, &alive);
    let map = Map::within(100_000)?;
    let (longest, too_long) = ("a".repeat(238), "a".repeat(239));
    assert_eq!(map.insert(too_long.clone(), new(1)).err(), Some(Error::KeyTooLong));
    assert_eq!(
        map.get_or_insert(too_long.clone(), new(1)).err(),
        Some(Error::KeyTooLong)
    );
    assert!(map.get(&too_long).is_none() && map.remove(&too_long)?.is_none() && !map.contains_key(&too_long));
    assert!(map.update(&too_long, |_| new(2))?.is_none());
    map.insert(longest.clone(), new(3))?;
    assert!(map.range(too_long..).next().is_none() && map.range("aa".to_string()..).count() == 1);
    let panics = thread::scope(|scope| {
        scope
            .spawn(|| map.update(&longest, |_| panic!("as asked")).is_ok())
            .join()
    });
    assert!(panics.is_err() && map.get(&longest).unwrap().value().number() == 3);
    let why = (0..).find_map(|number: u64| map.insert(number.to_string(), new(number)).err());
    assert!(why.map_or(false, Error::is_full));
    assert!(map.len() > 500 && map.len() == alive.load(Ordering::Relaxed));
    map.clear()?;
    assert_eq!(map.insert(longest, new(1)).map(|_| map.len()), Ok(1));
    Ok(())
}

/// A value that removes another one when it is dropped.
struct Chained<'a>(&'a AtomicUsize, std::sync::Weak<Map<u32, Chained<'a>>>, u32);

impl Drop for Chained<'_> {
    fn drop(&mut self) {
        self.0.fetch_add(1, Ordering::Relaxed);
        if let Some(map) = self.1.upgrade() {
            map.remove(&self.2).unwrap();
        }
    }
}

#[test]
fn a_drop_may_make_calls() -> Result<(), Error> {
    let dropped = AtomicUsize::new(0);
    let map = Arc::new(Map::new()?);
    for number in 0..100 {
        map.insert(number, Chained(&dropped, Arc::downgrade(&map), number + 1))?;
    }
    drop(map.remove(&50)?);
    assert_eq!((map.len(), dropped.load(Ordering::Relaxed)), (50, 50));
    drop(map);
    assert_eq!(dropped.load(Ordering::Relaxed), 100);
    Ok(())
}

/// Few keys, so that threads meet at them.
const KEYS: u64 = 3;
const TURNS: u64 = 60_000;

fn write(map: &Map<u64, Watched>, alive: &Arc<AtomicUsize>, seed: u64) -> Result<(), Error> {
    let mut random = Random(seed);
    for _ in 0..TURNS {
        let key = random.below(KEYS);
        match random.below(5) {
            0 => drop(map.get_or_insert(key, Watched::new(key, alive))?),
            1 => drop(map.insert(key, Watched::new(key, alive))?),
            2 => drop(map.update(&key, |had| Watched::new(had.number() + KEYS, alive))?),
            3 => drop(map.remove(&key)?),
            _ => drop(map.get(&key).map(|entry| entry.remove()).transpose()?),
        }
    }
    Ok(())
}

fn read(map: &Map<u64, Watched>) {
    for turn in 0..TURNS {
        if let Some(entry) = map.get(&(turn % KEYS)) {
            assert_eq!(entry.value().number() % KEYS, *entry.key());
        }
        if turn % 10 == 0 {
            let all = numbers(if turn % 20 == 0 { map.iter() } else { map.range(1..) });
            assert!(all.windows(2).all(|pair| pair[0].0 < pair[1].0) && all.iter().all(|pair| pair.1 % KEYS == pair.0));
        }
    }
}

#[test]
fn threads_have_what_they_found() -> Result<(), Error> {
    let alive = Arc::default();
    let map = Map::new()?;
    thread::scope(|scope| {
        for of in 0..2 {
            let (map, alive) = (&map, &alive);
            scope.spawn(move || write(map, alive, of).unwrap());
            scope.spawn(move || read(map));
        }
    });
    // Calls of this thread look after what others have left.
    for turn in 0..2000 {
        map.insert(turn % KEYS, Watched::new(turn, &alive))?;
    }
    assert_eq!(
        (map.len(), alive.load(Ordering::Relaxed)),
        (KEYS as usize, KEYS as usize)
    );
    drop(map);
    assert_eq!(alive.load(Ordering::Relaxed), 0);
    Ok(())
}

/// More threads than there are places for calls.
#[test]
fn threads_wait_for_each_other() -> Result<(), Error> {
    let map = Map::new()?;
    thread::scope(|scope| {
        for of in 0..100u64 {
            let map = &map;
            scope.spawn(move || {
                for number in 0..20 {
                    assert_eq!(*map.insert((number, of), of).unwrap().value(), of);
                }
            });
        }
    });
    assert_eq!(
        (
            map.len(),
            map.front().map(|it| *it.key()),
            map.back().map(|it| *it.key())
        ),
        (2000, Some((0, 0)), Some((19, 99)))
    );
    Ok(())
}

/// `HOT_MAP_OBJECTS=10000000 cargo test --release --test objects many -- --nocapture`: so many objects, by four threads, and how long that took.
#[test]
fn many_objects() -> Result<(), Error> {
    let count = match std::env::var("HOT_MAP_OBJECTS").map(|count| count.parse::<u64>()) {
        Ok(Ok(count)) => count,
        _ => return Ok(()),
    };
    let map = Map::new()?;
    let timed = |what, call: &(dyn Fn(u64) + Sync)| {
        let begin = Instant::now();
        thread::scope(|scope| {
            for of in 0..4 {
                scope.spawn(move || {
                    for number in (of..count).step_by(4) {
                        call(number.wrapping_mul(0x9e37_79b9_7f4a_7c15));
                    }
                });
            }
        });
        println!("{what}: {:.1} s", begin.elapsed().as_secs_f64());
    };
    timed("insert", &|key| drop(map.insert(key, Box::new(key)).unwrap()));
    assert_eq!(map.len() as u64, count);
    timed("get", &|key| assert_eq!(**map.get(&key).unwrap().value(), key));
    timed("replace", &|key| drop(map.insert(key, Box::new(key + 1)).unwrap()));
    timed("remove every second", &|key| {
        assert!(key % 2 == 0 || map.remove(&key).unwrap().is_some())
    });
    let begin = Instant::now();
    assert!(map.iter().filter(|entry| **entry.value() == *entry.key() + 1).count() as u64 == (count + 1) / 2);
    println!("iterate: {:.1} s", begin.elapsed().as_secs_f64());
    let begin = Instant::now();
    drop(map);
    println!("drop: {:.1} s", begin.elapsed().as_secs_f64());
    Ok(())
}
