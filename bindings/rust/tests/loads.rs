//! Indexes that are made of sorted pairs.
use hot::{Error, Hot, LoadError, Stock};
use std::collections::BTreeMap;
use std::panic::{catch_unwind, AssertUnwindSafe};

fn model() -> BTreeMap<Vec<u8>, u64> {
    let key = |number: u64| number.wrapping_mul(0x9e37_79b9_7f4a_7c15).to_be_bytes()[..(number % 9) as usize].to_vec();
    (0..2000).map(|number| (key(number), number)).collect()
}

#[test]
fn a_loaded_index_has_the_pairs() {
    let (pairs, stock) = (model(), Stock::for_keys(3000, 8).unwrap());
    let index = Hot::from_sorted_iter(&stock, 3, pairs.clone()).unwrap();
    let handles = [(); 3].map(|_| index.handle().unwrap());
    for handle in &handles {
        assert_eq!((handle.len(), handle.iter().collect()), (pairs.len(), pairs.clone()));
    }
    assert_eq!(handles[0].insert("between", 7), Ok(None));
    assert_eq!(handles[2].remove(""), Ok(Some(pairs[&vec![]])));
    let copy = Hot::from_sorted_iter(&stock, 1, handles[1].iter())
        .unwrap()
        .handle()
        .unwrap();
    assert!(copy.iter().eq(handles[0].iter()));
    let none: [(&str, u64); 0] = [];
    assert!(Hot::from_sorted_iter(&stock, 1, none)
        .unwrap()
        .handle()
        .unwrap()
        .is_empty());
}

#[test]
fn a_refused_pair_has_its_number() {
    let stock = Stock {
        nodes: 100,
        short_leaves: 3,
        ..Stock::default()
    };
    let why = |pairs: &[(&str, u64)]| Hot::from_sorted_iter(&stock, 1, pairs.iter().copied()).err();
    let refused = |error, count| Some(LoadError { error, count });
    assert_eq!(why(&[("a", 1), ("a", 2)]), refused(Error::NotRising, 1));
    assert_eq!(why(&[("a", 1), ("b", 2), ("aa", 2)]), refused(Error::NotRising, 2));
    assert_eq!(why(&[("longer than 8 bytes", 1)]), refused(Error::KeyTooLong, 0));
    assert_eq!(
        why(&[("a", 1), ("b", 2), ("c", 3), ("d", 4)]),
        refused(Error::FullLeaves, 3)
    );
    assert_eq!(
        Hot::from_sorted_iter(&stock, 0, [("a", 1)]).err(),
        refused(Error::OutOfRange, 0)
    );
    assert_eq!(
        refused(Error::NotRising, 1).unwrap().to_string(),
        "the key is not above the one before, after 1 pairs"
    );
    assert_eq!(refused(Error::NoMemory, 0).unwrap().to_string(), "out of memory");
}

#[test]
fn a_panic_of_the_pairs_goes_on() {
    let stock = Stock::for_keys(10, 8).unwrap();
    let pairs = (0..3u8).map(|at| if at < 2 { ([at], 1) } else { panic!("the third") });
    let panic = catch_unwind(AssertUnwindSafe(|| Hot::from_sorted_iter(&stock, 1, pairs).is_ok())).unwrap_err();
    assert_eq!(panic.downcast_ref::<&str>(), Some(&"the third"));
}
