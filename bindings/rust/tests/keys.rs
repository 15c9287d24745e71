//! Keys from values: the examples that all languages share, and what no key is.
use hot::{key_of, values_of, FromKey, Hot, ToKey};
use std::collections::BTreeMap;
use std::fmt::Debug;
use std::fs;
use std::str::FromStr;

fn bytes(hex: &str) -> Vec<u8> {
    (0..hex.len())
        .step_by(2)
        .map(|at| u8::from_str_radix(&hex[at..at + 2], 16).unwrap())
        .collect()
}

/// Adds the key of a number, and reads it again.
fn number<T: ToKey + FromKey + FromStr + Debug>(text: &str, key: &mut Vec<u8>)
where
    T::Err: Debug,
{
    let value: T = text.parse().unwrap();
    let one = key_of(&value);
    assert_eq!(values_of::<T>(&one).map(key_of), Some(one.clone()), "{text}");
    assert!(values_of::<T>(&one[1..]).is_none());
    key.extend(one);
}

fn part(of: &str, text: &str, key: &mut Vec<u8>) {
    match of {
        "bool" => number::<bool>(text, key),
        "u8" => number::<u8>(text, key),
        "u16" => number::<u16>(text, key),
        "u32" => number::<u32>(text, key),
        "u64" => number::<u64>(text, key),
        "i8" => number::<i8>(text, key),
        "i16" => number::<i16>(text, key),
        "i32" => number::<i32>(text, key),
        "i64" => number::<i64>(text, key),
        "f32" => number::<f32>(text, key),
        "f64" => number::<f64>(text, key),
        _ => {
            let value = text.trim_matches('"').replace("\\0", "\0");
            let one = key_of(&value);
            assert_eq!(values_of(&one), Some(value));
            key.extend(one);
        }
    }
}

#[test]
fn examples() {
    let text = fs::read_to_string(concat!(env!("CARGO_MANIFEST_DIR"), "/keys.txt")).unwrap();
    let (mut of_last, mut last, mut count) = (String::new(), Vec::new(), 0);
    for line in text.lines().filter(|line| !line.starts_with('#')) {
        let words: Vec<_> = line.split(' ').collect();
        let mut key = Vec::new();
        for (of, value) in words[0].split(',').zip(words[1].split(',')) {
            part(of, value, &mut key);
        }
        assert_eq!(key, bytes(words[2]), "{line}");
        let is_same = words[0].starts_with('f') && words[1] == "0";
        assert!(of_last != words[0] || last < key || (is_same && last == key), "{line}");
        of_last = words[0].to_owned();
        last = key;
        count += 1;
    }
    assert!(count > 80);
}

#[test]
fn tuples() {
    let key = key_of((1u8, -1.5f64, true, "x"));
    assert_eq!(values_of(&key), Some((1u8, -1.5f64, true, String::from("x"))));
    assert_eq!(key, key_of(&(1u8, (-1.5f64, (true, "x".as_bytes().to_vec())))));
    assert!(values_of::<f64>(key_of(f64::NAN)).unwrap().is_nan());
    assert_eq!(key_of(-0.0f64), key_of(0.0f64));
}

#[test]
fn what_is_no_key() {
    assert_eq!(values_of::<bool>([2]), None);
    assert_eq!(values_of::<u16>([1]), None);
    assert_eq!(values_of::<u16>([1, 2, 3]), None);
    assert_eq!(values_of::<String>(b"a"), None);
    assert_eq!(values_of::<String>(b"a\0"), None);
    assert_eq!(values_of::<String>(b"a\0\x02\0\0"), None);
    assert_eq!(values_of::<String>(b"\xff\0\0"), None);
    assert_eq!(values_of::<Vec<u8>>(b"\xff\0\0"), Some(vec![0xff]));
    // -0.0, and a NaN with other bits.
    assert_eq!(values_of::<f32>([0x7f, 0xff, 0xff, 0xff]), None);
    assert_eq!(values_of::<f32>([0xff, 0xc0, 0, 1]), None);
}

/// Whether the keys of values have the order of the values, and are read again, but not where a byte is missing or one too many.
fn is_ordered<T: ToKey + FromKey + Ord + Clone + Debug>(values: impl IntoIterator<Item = T>) {
    let model: BTreeMap<T, u64> = values.into_iter().zip(0..).collect();
    let index: Hot = model
        .iter()
        .rev()
        .map(|(value, number)| (key_of(value), *number))
        .collect();
    let handle = index.handle().unwrap();
    for (mut key, _) in &handle {
        assert!(values_of::<T>(&key[..key.len() - 1]).is_none(), "{key:?}");
        key.push(0);
        assert!(values_of::<T>(&key).is_none(), "{key:?}");
    }
    let read: Vec<_> = handle
        .iter()
        .map(|(key, number)| (values_of::<T>(key).unwrap(), number))
        .collect();
    assert_eq!(read, model.into_iter().collect::<Vec<_>>());
}

/// All pairs of values.
fn pairs<T: Clone>(values: &[T]) -> impl Iterator<Item = (T, T)> + '_ {
    values
        .iter()
        .flat_map(move |one| values.iter().map(move |other| (one.clone(), other.clone())))
}

#[test]
fn values_of_rust_alone_have_their_order() {
    let numbers: Vec<u128> = (0..128)
        .flat_map(|bit| [1 << bit, (1 << bit) - 1, !(1 << bit)])
        .collect();
    is_ordered(numbers.iter().copied());
    is_ordered(numbers.iter().map(|number| *number as i128));
    is_ordered(numbers.iter().map(|number| *number as usize));
    is_ordered(numbers.iter().map(|number| *number as isize));
    is_ordered(
        numbers
            .iter()
            .filter_map(|number| char::from_u32(*number as u32 & 0x1f_ffff)),
    );
    let texts = [
        "",
        "\0",
        "\0\0",
        "\0\x01",
        "\x01",
        "a",
        "a\0",
        "a\0b",
        "ab",
        "b",
        "\u{7f}",
        "é",
        "\u{10ffff}",
    ]
    .map(String::from);
    let maybe: Vec<_> = texts.iter().cloned().map(Some).chain([None]).collect();
    is_ordered(maybe.iter().cloned());
    is_ordered(maybe.iter().cloned().map(Some).chain([None]));
    is_ordered(pairs(&texts).map(|(one, other)| [one, other]));
    is_ordered(pairs(&maybe));
    is_ordered(pairs(&maybe).map(|(one, other)| [one, other]));
    is_ordered(pairs(&[-300i16, -1, 0, 1, 256]).map(|(one, other)| [Some(one), None, Some(other)]));
    is_ordered(pairs(&[0u8, 1, 255]).map(|(one, other)| ([one, other, one], Some('é'))));
    is_ordered([None, Some(false), Some(true)]);
    assert_eq!(
        (key_of([1u8, 0, 2]), key_of(None::<u8>), key_of(Some(7u8))),
        (vec![1, 0, 2], vec![0], vec![1, 7])
    );
    assert_eq!((key_of('é'), key_of(3usize)), (key_of(0xe9u32), key_of(3u64)));
    assert_eq!(
        (values_of::<char>(key_of(0xd800u32)), values_of::<Option<bool>>([2, 0])),
        (None, None)
    );
    assert_eq!(values_of::<[u8; 0]>([]), Some([]));
}
