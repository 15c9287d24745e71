//! Why a call was refused, or not made.
use crate::ffi::{self, Status};
use std::{error, fmt};

/// Why a call was refused. It changed nothing, but for `extend`, `clear`, `clear_range` and `copy_to`: the changes that they made before stay.
#[derive(Clone, Copy, Debug, PartialEq, Eq, Hash)]
#[non_exhaustive]
pub enum Error {
    /// Too few node records were free, and none comes back until keys are removed.
    FullNodes,
    /// No leaf record that the key fits in was free, and none comes back until keys are removed.
    FullLeaves,
    /// The key has more than [`MAX_KEY`](crate::MAX_KEY) bytes, or more than any leaf record of the index has room for.
    KeyTooLong,
    /// The key of a pair that is loaded is not above the one before it.
    NotRising,
    /// All handles of the index are open.
    NoHandle,
    /// The handle or the moment is of another index.
    OtherIndex,
    /// The library was compiled for newer processors.
    OldProcessor,
    /// The handle is inside its section already.
    Inside,
    /// The index doesn't grow.
    NotGrowing,
    /// The key is there already: what a [`TryInsertError::Occupied`] becomes.
    Occupied,
    /// The number of keys, records or handles is out of range.
    OutOfRange,
    /// There is no memory.
    NoMemory,
    /// The library returned a status that it does not return to this call.
    Unexpected(u32),
}

impl Error {
    /// Tells refusals from other statuses.
    pub(crate) fn check(status: Status) -> Result<Status, Error> {
        Err(match status {
            ffi::FULL_NODES => Error::FullNodes,
            ffi::FULL_LEAVES => Error::FullLeaves,
            ffi::KEY_TOO_LONG => Error::KeyTooLong,
            ffi::OUT_OF_RANGE => Error::OutOfRange,
            ffi::NO_MEMORY => Error::NoMemory,
            ffi::NOT_RISING => Error::NotRising,
            ffi::NO_HANDLE => Error::NoHandle,
            ffi::OTHER_INDEX => Error::OtherIndex,
            ffi::OLD_PROCESSOR => Error::OldProcessor,
            ffi::INSIDE => Error::Inside,
            ffi::FIXED => Error::NotGrowing,
            0..=ffi::REMOVED | ffi::EXCHANGED | ffi::DIFFERS | ffi::NOT_PAST => return Ok(status),
            _ => Error::Unexpected(status),
        })
    }

    /// Whether the index has no record free for the change.
    pub fn is_full(self) -> bool {
        matches!(self, Error::FullNodes | Error::FullLeaves)
    }
}

impl fmt::Display for Error {
    fn fmt(&self, to: &mut fmt::Formatter<'_>) -> fmt::Result {
        to.write_str(match *self {
            Error::FullNodes => ffi::text(ffi::FULL_NODES),
            Error::FullLeaves => ffi::text(ffi::FULL_LEAVES),
            Error::KeyTooLong => ffi::text(ffi::KEY_TOO_LONG),
            Error::NotRising => ffi::text(ffi::NOT_RISING),
            Error::NoHandle => ffi::text(ffi::NO_HANDLE),
            Error::OtherIndex => ffi::text(ffi::OTHER_INDEX),
            Error::OldProcessor => ffi::text(ffi::OLD_PROCESSOR),
            Error::Inside => ffi::text(ffi::INSIDE),
            Error::NotGrowing => ffi::text(ffi::FIXED),
            Error::Occupied => ffi::text(ffi::EXISTS),
            Error::OutOfRange => ffi::text(ffi::OUT_OF_RANGE),
            Error::NoMemory => ffi::text(ffi::NO_MEMORY),
            Error::Unexpected(status) => ffi::text(status),
        })
    }
}

impl error::Error for Error {}

/// Why an index was not made of sorted pairs.
#[derive(Clone, Copy, Debug, PartialEq, Eq, Hash)]
pub struct LoadError {
    /// Why a pair was refused, or the whole load.
    pub error: Error,
    /// How many pairs came before the one that was refused; 0 if the whole load was, as for [`Error::NoMemory`].
    pub count: usize,
}

impl From<Error> for LoadError {
    fn from(error: Error) -> Self {
        LoadError { error, count: 0 }
    }
}

impl From<LoadError> for Error {
    /// Why it was refused, without how many pairs came before.
    fn from(why: LoadError) -> Self {
        why.error
    }
}

impl fmt::Display for LoadError {
    fn fmt(&self, to: &mut fmt::Formatter<'_>) -> fmt::Result {
        match self.error {
            Error::NotRising | Error::KeyTooLong | Error::FullNodes | Error::FullLeaves => {
                write!(to, "{}, after {} pairs", self.error, self.count)
            }
            _ => self.error.fmt(to),
        }
    }
}

impl error::Error for LoadError {}

/// Why a value was not exchanged, or a key not removed.
#[derive(Clone, Copy, Debug, PartialEq, Eq, Hash)]
pub enum CompareExchangeError {
    /// The key has this other value, and keeps it.
    Differs(u64),
    /// The key is absent.
    Absent,
    /// The call was refused.
    Refused(Error),
}

impl From<Error> for CompareExchangeError {
    fn from(why: Error) -> Self {
        CompareExchangeError::Refused(why)
    }
}

impl fmt::Display for CompareExchangeError {
    fn fmt(&self, to: &mut fmt::Formatter<'_>) -> fmt::Result {
        match self {
            CompareExchangeError::Differs(value) => write!(to, "the key has the value {value}"),
            CompareExchangeError::Absent => to.write_str("the key is absent"),
            CompareExchangeError::Refused(why) => why.fmt(to),
        }
    }
}

impl error::Error for CompareExchangeError {}

/// Why a key was not inserted.
#[derive(Clone, Copy, Debug, PartialEq, Eq, Hash)]
pub enum TryInsertError {
    /// The key has this value, and keeps it.
    Occupied(u64),
    /// The call was refused.
    Refused(Error),
}

impl From<Error> for TryInsertError {
    fn from(why: Error) -> Self {
        TryInsertError::Refused(why)
    }
}

impl From<TryInsertError> for Error {
    /// Why it was not inserted, without the value that the key has.
    fn from(why: TryInsertError) -> Self {
        match why {
            TryInsertError::Occupied(_) => Error::Occupied,
            TryInsertError::Refused(why) => why,
        }
    }
}

impl fmt::Display for TryInsertError {
    fn fmt(&self, to: &mut fmt::Formatter<'_>) -> fmt::Result {
        match self {
            TryInsertError::Occupied(value) => write!(to, "the key has the value {value}"),
            TryInsertError::Refused(why) => why.fmt(to),
        }
    }
}

impl error::Error for TryInsertError {}
