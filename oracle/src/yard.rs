//! The objects of a world, and their words by name.

use std::fmt;
use std::pin::Pin;
use std::ptr;
use std::slice;

use crate::calls::{Call, Kind, Lent, new_parker, state_of};
use crate::sys::futex::Futex;
use crate::sys::sync::{Condvar, Mutex, Once, Parker, RwLock};

pub const THREADS: usize = 32;
/// How many there are of each kind but the Parker, of which each thread has one.
pub const OBJECTS: usize = 4;

pub struct Yard {
    mutexes: [Mutex; OBJECTS],
    rwlocks: [RwLock; OBJECTS],
    condvars: [Condvar; OBJECTS],
    onces: [Once; OBJECTS],
    parkers: [Parker; THREADS],
}

/// The name of a word.
#[derive(Clone, Copy, Debug, PartialEq, Eq)]
pub struct Name {
    pub kind: Kind,
    pub index: usize,
}

impl fmt::Display for Name {
    fn fmt(&self, f: &mut fmt::Formatter<'_>) -> fmt::Result {
        write!(f, "{}.{}", self.kind, self.index)
    }
}

impl Yard {
    /// A fresh yard. It stays for ever, as do the threads that block inside
    /// calls on its objects when the schedule ends.
    pub fn fresh() -> &'static Yard {
        Box::leak(Box::new(Yard {
            mutexes: [const { Mutex::new() }; OBJECTS],
            rwlocks: [const { RwLock::new() }; OBJECTS],
            condvars: [const { Condvar::new() }; OBJECTS],
            onces: [const { Once::new() }; OBJECTS],
            parkers: std::array::from_fn(|_| new_parker()),
        }))
    }

    /// What a call is made on. The objects that it does not name stand in their
    /// places for nothing.
    pub fn lend(&self, thread: usize, call: Call, object: usize, mutex: usize) -> Lent<'_> {
        let (mutex, parker) = match call {
            Call::CondvarWait => (mutex, 0),
            Call::Park => (0, thread),
            Call::Unpark => (0, object),
            _ => (object, 0),
        };
        // Only unpark's object may be past the others, which it does not touch.
        let object = object % OBJECTS;
        Lent {
            mutex: &self.mutexes[mutex],
            rwlock: &self.rwlocks[object],
            condvar: &self.condvars[object],
            once: &self.onces[object],
            parker: Pin::new(&self.parkers[parker]),
        }
    }

    /// All words, each kind in a row.
    pub fn words(&self) -> Vec<(Name, &Futex)> {
        let rwlocks = self.rwlocks.each_ref().map(rwlock_words);
        [
            named(Kind::Mutex, self.mutexes.each_ref().map(only_word)),
            named(Kind::RwLock, rwlocks.map(|(state, _)| state)),
            named(Kind::WriterNotify, rwlocks.map(|(_, writer_notify)| writer_notify)),
            named(Kind::Condvar, self.condvars.each_ref().map(only_word)),
            named(Kind::Once, self.onces.each_ref().map(only_word)),
            named(Kind::Parker, self.parkers.each_ref().map(only_word)),
        ]
        .concat()
    }
}

fn named<const N: usize>(kind: Kind, words: [&Futex; N]) -> Vec<(Name, &Futex)> {
    let named = words.into_iter().enumerate();
    named.map(|(index, word)| (Name { kind, index }, word)).collect()
}

fn only_word<T>(object: &T) -> &Futex {
    match words_in(object) {
        [word] => word,
        words => panic!("{} words where one was expected", words.len()),
    }
}

/// The state and `writer_notify`, in this order.
fn rwlock_words(lock: &RwLock) -> (&Futex, &Futex) {
    match words_in(lock) {
        [first, second] if first.identity() == state_of(lock) => (first, second),
        [first, second] => (second, first),
        words => panic!("an RwLock of {} words", words.len()),
    }
}

/// The words of an object, whose fields are private.
fn words_in<T>(object: &T) -> &[Futex] {
    let count = size_of::<T>() / size_of::<Futex>();
    // SAFETY: all fields of the sources' types are words, so an object of such a
    // type is `count` of them in a row.
    unsafe { slice::from_raw_parts(ptr::from_ref(object).cast(), count) }
}
