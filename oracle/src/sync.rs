//! What the sources take from `crate::sync`.

pub use std::sync::atomic;

/// The state that a Once hands to its closure.
pub struct OnceState {
    pub(crate) inner: crate::sys::sync::once::OnceState,
}

impl OnceState {
    pub fn poison(&self) {
        self.inner.poison();
    }
}

pub mod once {
    /// Named by calls on a Once that nobody else can reach, which run no
    /// operation on its word.
    pub enum OnceExclusiveState {
        Incomplete,
        Poisoned,
        Complete,
    }
}
