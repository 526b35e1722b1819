//! One searcher for many threads: each call has a handle of its own, which is kept for later calls.
use crate::library::Handle;
use std::{
    ops::Deref,
    sync::{Arc, Mutex, MutexGuard, PoisonError},
};

/// A searcher and its idle handles: at most as many as calls and iterators have run at the same
/// time.
pub(crate) struct Shares {
    first: Mutex<Handle>,
    free: Mutex<Vec<Handle>>,
}

/// A handle for one call or one iterator, which gives it back when it is dropped. An iterator holds
/// the searcher in an `Arc`, so dropping it needs no borrow: it can be the last expression of a
/// function whose searcher is dropped first.
pub(crate) struct Share<S: Deref<Target = Shares>> {
    shares: S,
    /// `None` if memory ran out: each call then waits for the first handle.
    handle: Option<Handle>,
}

/// Locks a mutex, even if a thread panicked while it held the lock: no call leaves a value half
/// changed.
pub(crate) fn locked<T>(mutex: &Mutex<T>) -> MutexGuard<'_, T> {
    mutex.lock().unwrap_or_else(PoisonError::into_inner)
}

impl Shares {
    pub(crate) fn new(first: Handle) -> Shares {
        Shares { first: Mutex::new(first), free: Mutex::new(Vec::new()) }
    }

    /// Returns a new handle, or `None` if memory ran out.
    pub(crate) fn one_more(&self) -> Option<Handle> {
        locked(&self.first).share()
    }

    /// Returns a handle for one call.
    pub(crate) fn share(&self) -> Share<&Shares> {
        Share { shares: self, handle: self.taken() }
    }

    /// Returns a handle for an iterator.
    pub(crate) fn kept_share(self: &Arc<Shares>) -> Share<Arc<Shares>> {
        Share { shares: self.clone(), handle: self.taken() }
    }

    fn taken(&self) -> Option<Handle> {
        let free = locked(&self.free).pop();
        free.or_else(|| locked(&self.first).share())
    }
}

impl<S: Deref<Target = Shares>> Share<S> {
    /// Runs a call with the handle.
    pub(crate) fn with<T>(&mut self, call: impl FnOnce(&mut Handle) -> T) -> T {
        match &mut self.handle {
            Some(handle) => call(handle),
            None => call(&mut locked(&self.shares.first)),
        }
    }
}

impl<S: Deref<Target = Shares>> Drop for Share<S> {
    fn drop(&mut self) {
        if let Some(handle) = self.handle.take() {
            locked(&self.shares.free).push(handle);
        }
    }
}
