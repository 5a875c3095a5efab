//! A value that is made when it is first asked for. std has `OnceLock` for it, from Rust 1.70 on.

#![allow(unsafe_code)]

use std::cell::UnsafeCell;
use std::fmt;
use std::panic::{RefUnwindSafe, UnwindSafe};
use std::sync::Once;

pub struct Lazy<T> {
    once: Once,
    value: UnsafeCell<Option<T>>,
}

// SAFETY: the value is written by `call_once` alone, whose end each reader waits for.
unsafe impl<T: Send + Sync> Sync for Lazy<T> {}
impl<T: UnwindSafe + RefUnwindSafe> RefUnwindSafe for Lazy<T> {}

impl<T> Lazy<T> {
    /// The value, which `make` makes where there is none.
    pub fn get(&self, make: impl FnOnce() -> T) -> &T {
        // SAFETY: nobody has a reference to the value before it is made, and it is made once.
        self.once.call_once(|| unsafe { *self.value.get() = Some(make()) });
        // SAFETY: it is made, and nobody writes to it any more.
        let value = unsafe { &*self.value.get() };
        value.as_ref().expect("it was made above, or its making panicked, and call_once then does")
    }
}

impl<T> Default for Lazy<T> {
    fn default() -> Lazy<T> {
        Lazy { once: Once::new(), value: UnsafeCell::new(None) }
    }
}

/// A copy has its own value, which is made anew.
impl<T> Clone for Lazy<T> {
    fn clone(&self) -> Lazy<T> {
        Lazy::default()
    }
}

impl<T> fmt::Debug for Lazy<T> {
    fn fmt(&self, f: &mut fmt::Formatter<'_>) -> fmt::Result {
        f.write_str(if self.once.is_completed() { "made" } else { "not made" })
    }
}
