//! An index that grows, with handles that are called users.
use crate::{Error, Handle, Hot, Stock};
use std::fmt;

/// An index that grows, as [`Hot::growing`] makes one, from a stock on. Clones are the same index.
///
/// ```
/// let index = hot::Growing::with_stock(&hot::Stock::for_keys(10, 8)?, 2)?;
/// let mut user = index.user()?;
/// for number in 0..5000u64 {
///     user.change(|handle| handle.insert(number.to_be_bytes(), number))?;
/// }
/// assert_eq!(user.read()?.len(), 5000);
/// # Ok::<(), hot::Error>(())
/// ```
#[derive(Clone)]
pub struct Growing {
    index: Hot,
}

/// The right to use an index that grows, for one thread at a time.
pub struct User {
    handle: Handle,
}

impl Growing {
    /// Makes an empty index that begins with this stock, with room for 1 to 1,023 users at a time.
    pub fn with_stock(stock: &Stock, users: usize) -> Result<Growing, Error> {
        let index = Hot::growing_with(Some(stock), usize::MAX, users)?;
        Ok(Growing { index })
    }

    /// Gives a thread the right to use the index. [`Error::NoHandle`] if there are too many users.
    pub fn user(&self) -> Result<User, Error> {
        let handle = self.index.handle()?;
        Ok(User { handle })
    }
}

impl User {
    /// A handle.
    pub fn read(&mut self) -> Result<&Handle, Error> {
        Ok(&self.handle)
    }

    /// Makes a change by a handle, once, and returns what came of it.
    pub fn change<T>(&mut self, change: impl FnOnce(&Handle) -> Result<T, Error>) -> Result<T, Error> {
        change(&self.handle)
    }
}

impl fmt::Debug for Growing {
    fn fmt(&self, to: &mut fmt::Formatter<'_>) -> fmt::Result {
        to.debug_struct("Growing").finish_non_exhaustive()
    }
}

impl fmt::Debug for User {
    fn fmt(&self, to: &mut fmt::Formatter<'_>) -> fmt::Result {
        self.handle.fmt(to)
    }
}
