//! What the sources take from `crate::sys`, and the sources.

pub mod futex;

// The sources are taken as they are: two crate-private calls of the Once have no
// user here, and the condition variable calls unsafe functions without a block.
#[allow(clippy::all, dead_code, unsafe_op_in_unsafe_fn)]
pub mod sync {
    include!(concat!(env!("OUT_DIR"), "/sources.rs"));

    pub use condvar::Condvar;
    pub use mutex::Mutex;
    pub use once::Once;
    pub use rwlock::RwLock;
    pub use thread_parking::Parker;
}
