//! The standard library's five futex modules, compiled unchanged over words
//! whose every operation is asked of a driver.
//!
//! `cell`, `hint`, `pin`, `time`, `sync` and `sys` are the names by which the
//! sources reach the rest of the standard library. The sources themselves are
//! `sys::sync::{mutex, thread_parking, condvar, once, rwlock}`.

// The build script sets `cfg(test)` for the sources' sake, so nothing here may
// depend on it.

pub use std::{cell, hint, pin, time};

pub mod sync;
pub mod sys;

pub mod calls;
pub mod closing;
pub mod driver;
pub mod generate;
pub mod holds;
pub mod minimise;
pub mod observe;
pub mod positions;
pub mod profiles;
pub mod random;
pub mod records;
pub mod script;
pub mod text;
pub mod transcript;
pub mod worker;
pub mod world;
pub mod yard;

/// The source that is not the listed text, where the build was told to let it
/// pass.
pub const MUTATED: Option<&str> = option_env!("ORACLE_MUTATED");
