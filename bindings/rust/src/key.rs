//! Keys from values: bytes that have the order of numbers, texts, and tuples of them.

/// A value that a key is made from: a number, a `char`, a text, bytes; or a tuple, an array or an `Option` of such.
pub trait ToKey {
    /// Adds the value's bytes to the key.
    fn write(&self, key: &mut Vec<u8>);
}

/// A value that is read from a key.
pub trait FromKey: Sized {
    /// Reads the value, and leaves what comes after it. `None` if the bytes are no such value.
    fn read(key: &mut &[u8]) -> Option<Self>;
}

/// A key from values, whose bytes have the order of the values: by the first one of a tuple, then by the next, and so on. Integers, `bool`
/// and floats take their size; text and bytes take two more bytes, and one for each 0 byte. The key of the first values is a prefix of each
/// key that begins with them. The same values have the same bytes in each language: `bindings/keys.txt` says which.
///
/// Some values have bytes in Rust alone. `usize` and `isize` are as `u64` and `i64`, `u128` and `i128` take 16 bytes, and a `char` is as its number
/// in a `u32`. An array is as the tuple of its items: so the bytes of a `[u8; 3]` are its own three. `None` is a byte 0, which comes first, and
/// `Some` a byte 1 before the value.
///
/// ```
/// use hot::{key_of, values_of};
///
/// let key = key_of(("oak", -2i32));
/// assert_eq!(key, b"oak\0\0\x7f\xff\xff\xfe");
/// assert!(key < key_of(("oak", 1i32)) && key.starts_with(&key_of("oak")));
/// assert_eq!(values_of(&key), Some(("oak".to_string(), -2i32)));
/// ```
pub fn key_of(values: impl ToKey) -> Vec<u8> {
    let mut key = Vec::new();
    values.write(&mut key);
    key
}

/// The values of a key that [`key_of`] made from values of these types; or `None` if it is no such key.
pub fn values_of<T: FromKey>(key: impl AsRef<[u8]>) -> Option<T> {
    let mut left = key.as_ref();
    let values = T::read(&mut left)?;
    Some(values).filter(|_| left.is_empty())
}

impl<T: ToKey + ?Sized> ToKey for &T {
    fn write(&self, key: &mut Vec<u8>) {
        (**self).write(key);
    }
}

/// Takes so many bytes from the front.
fn take<const N: usize>(key: &mut &[u8]) -> Option<[u8; N]> {
    let taken = key.get(..N)?.try_into().ok()?;
    *key = key.get(N..)?;
    Some(taken)
}

/// Signed numbers have the other sign bit.
macro_rules! integers {
    ($($of:ident as $bits:ident)*) => { $(
        impl ToKey for $of {
            fn write(&self, key: &mut Vec<u8>) {
                key.extend((*self as $bits ^ <$of>::MIN as $bits).to_be_bytes());
            }
        }

        impl FromKey for $of {
            fn read(key: &mut &[u8]) -> Option<Self> {
                take(key).map(|bytes| ($bits::from_be_bytes(bytes) ^ <$of>::MIN as $bits) as $of)
            }
        }
    )* };
}

integers!(u8 as u8 u16 as u16 u32 as u32 u64 as u64 u128 as u128 usize as u64);
integers!(i8 as u8 i16 as u16 i32 as u32 i64 as u64 i128 as u128 isize as u64);

impl ToKey for char {
    fn write(&self, key: &mut Vec<u8>) {
        u32::from(*self).write(key);
    }
}

impl FromKey for char {
    fn read(key: &mut &[u8]) -> Option<Self> {
        char::from_u32(FromKey::read(key)?)
    }
}

/// Floats that aren't negative have the other sign bit, and negative ones have all bits turned. All zeros are one, and so is each NaN, which
/// comes last.
macro_rules! floats {
    ($($of:ident as $bits:ident)*) => { $(
        impl ToKey for $of {
            fn write(&self, key: &mut Vec<u8>) {
                const SIGN: $bits = 1 << ($bits::BITS - 1);
                let bits = if self.is_nan() {
                    $of::NAN.to_bits() & !SIGN
                } else {
                    (*self + 0.0).to_bits() // 0.0 for -0.0
                };
                key.extend(if bits & SIGN == 0 { bits | SIGN } else { !bits }.to_be_bytes());
            }
        }

        impl FromKey for $of {
            fn read(key: &mut &[u8]) -> Option<Self> {
                const SIGN: $bits = 1 << ($bits::BITS - 1);
                let bytes = take(key)?;
                let bits = $bits::from_be_bytes(bytes);
                let value = $of::from_bits(if bits & SIGN == 0 { !bits } else { bits ^ SIGN });
                Some(value).filter(|value| key_of(value) == bytes)
            }
        }
    )* };
}

floats!(f32 as u32 f64 as u64);

impl ToKey for bool {
    fn write(&self, key: &mut Vec<u8>) {
        key.push(u8::from(*self));
    }
}

impl FromKey for bool {
    fn read(key: &mut &[u8]) -> Option<Self> {
        match take(key)? {
            [0] => Some(false),
            [1] => Some(true),
            _ => None,
        }
    }
}

/// The bytes, of which each 0 has a 1 behind it, and two that are 0.
impl ToKey for [u8] {
    fn write(&self, key: &mut Vec<u8>) {
        for byte in self {
            key.push(*byte);
            if *byte == 0 {
                key.push(1);
            }
        }
        key.extend([0, 0]);
    }
}

impl ToKey for Vec<u8> {
    fn write(&self, key: &mut Vec<u8>) {
        self.as_slice().write(key);
    }
}

impl FromKey for Vec<u8> {
    fn read(key: &mut &[u8]) -> Option<Self> {
        let mut found = Vec::new();
        loop {
            match take(key)? {
                [0] => match take(key)? {
                    [0] => return Some(found),
                    [1] => found.push(0),
                    _ => return None,
                },
                [byte] => found.push(byte),
            }
        }
    }
}

impl ToKey for str {
    fn write(&self, key: &mut Vec<u8>) {
        self.as_bytes().write(key);
    }
}

impl ToKey for String {
    fn write(&self, key: &mut Vec<u8>) {
        self.as_str().write(key);
    }
}

/// The bytes are UTF-8.
impl FromKey for String {
    fn read(key: &mut &[u8]) -> Option<Self> {
        String::from_utf8(FromKey::read(key)?).ok()
    }
}

impl<T: ToKey> ToKey for Option<T> {
    fn write(&self, key: &mut Vec<u8>) {
        self.is_some().write(key);
        if let Some(value) = self {
            value.write(key);
        }
    }
}

impl<T: FromKey> FromKey for Option<T> {
    fn read(key: &mut &[u8]) -> Option<Self> {
        let is_some = bool::read(key)?;
        Some(if is_some { Some(T::read(key)?) } else { None })
    }
}

impl<T: ToKey, const N: usize> ToKey for [T; N] {
    fn write(&self, key: &mut Vec<u8>) {
        self.iter().for_each(|item| item.write(key));
    }
}

impl<T: FromKey, const N: usize> FromKey for [T; N] {
    fn read(key: &mut &[u8]) -> Option<Self> {
        let items: Option<Vec<T>> = (0..N).map(|_| T::read(key)).collect();
        items?.try_into().ok()
    }
}

macro_rules! tuples {
    ($($($of:ident)*;)*) => { $(
        impl<$($of: ToKey),*> ToKey for ($($of,)*) {
            #[allow(non_snake_case)]
            fn write(&self, key: &mut Vec<u8>) {
                let ($($of,)*) = self;
                $($of.write(key);)*
            }
        }

        impl<$($of: FromKey),*> FromKey for ($($of,)*) {
            fn read(key: &mut &[u8]) -> Option<Self> {
                Some(($($of::read(key)?,)*))
            }
        }
    )* };
}

tuples!(A; A B; A B C; A B C D; A B C D E; A B C D E F;);
