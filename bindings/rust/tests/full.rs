//! Small indexes that are filled to the last record, and emptied.
use hot::{key_of, Error, Handle, Hot, Stock};
use std::sync::mpsc;
use std::thread;
use std::time::Duration;

/// Inserts keys, in turn, until one is refused, as full: how many went in.
fn fill(handle: &Handle, keys: &[Vec<u8>]) -> usize {
    let pairs = keys.iter().zip(0..);
    match pairs.clone().find_map(|(key, at)| handle.insert(key, at).err()) {
        Some(Error::FullNodes | Error::FullLeaves) => handle.len(),
        other => panic!("not full: {other:?}"),
    }
}

fn fill_and_empty(nodes: u32, leaves: u32, keys: &[Vec<u8>]) {
    let stock = Stock {
        nodes,
        short_leaves: leaves,
        ..Stock::default()
    };
    let handle = Hot::with_stock(&stock, 1).unwrap().handle().unwrap();
    let count = fill(&handle, keys);
    for _ in 0..2 {
        for (key, at) in keys[..count].iter().zip(0..) {
            assert_eq!((handle.get(key), handle.remove(key)), (Some(at), Ok(Some(at))));
        }
        assert_eq!((handle.is_empty(), handle.keys().count()), (true, 0));
        assert_eq!(fill(&handle, keys), count);
    }
}

fn small_indexes() {
    let mut random = 1u64;
    for nodes in 1..=100 {
        let steps: Vec<_> = (0..4000u16).map(|at| key_of(at.wrapping_mul(37))).collect();
        let any: Vec<_> = (0..4000)
            .map(|_| {
                random = random.wrapping_mul(6_364_136_223_846_793_005).wrapping_add(1);
                key_of(random >> 40 << 32 | 1 << (random >> 33 & 31))
            })
            .collect();
        fill_and_empty(nodes, 4000, &steps);
        fill_and_empty(nodes, 4000, &any);
        fill_and_empty(4000, nodes, &any);
    }
}

/// A call that doesn't return fails the test.
#[test]
fn small_indexes_are_filled_and_emptied() {
    let (ends, ended) = mpsc::channel();
    let work = thread::spawn(move || {
        small_indexes();
        ends.send(()).unwrap();
    });
    match ended.recv_timeout(Duration::from_secs(600)) {
        Err(mpsc::RecvTimeoutError::Timeout) => panic!("a call does not return"),
        _ => work.join().unwrap(),
    }
}
