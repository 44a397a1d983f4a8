//! The replay as an ordinary Rust program: one world behind `&mut`, changed in
//! place. It starts from a fresh world, so the test of soundness has no place here.

#![forbid(unsafe_code)]

pub mod condvar;
pub mod event;
pub mod futex;
pub mod log;
pub mod mutex;
pub mod once;
pub mod random;
pub mod record;
pub mod replay;
pub mod rwlock;
pub mod thread_parking;
pub mod transcript;
pub mod world;
