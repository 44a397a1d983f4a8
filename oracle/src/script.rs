//! A driver that reads its answers from a script: one call on one thread, and
//! every word is what the script says. The control flow of the sources hangs on
//! nothing but what their operations see, so a script leads to any position.

use std::cell::{Cell, RefCell};
use std::collections::VecDeque;
use std::panic::{self, AssertUnwindSafe};
use std::rc::Rc;
use std::thread;

use crate::calls::{Call, Kind, Objects};
use crate::closing::{Closing, panic_number, quietly};
use crate::driver::{Driver, Op, Seen, with_driver};
use crate::sync::OnceState;
use crate::sys::futex::Futex;

/// One line of a script.
#[derive(Clone, Copy, Debug, PartialEq, Eq)]
pub enum Answer {
    /// For an operation: the word just before it, whether it fails if it is a
    /// weak exchange, and whether anybody sleeps there if it is a wake of one.
    /// A wait returns at once, so the answer after it is for what follows.
    Word { word: u32, fails: bool, asleep: bool },
    /// For a Once's closure: how it ends.
    Close(Closing),
}

/// An operation that was made, with the word before and after it.
#[derive(Clone, Copy, Debug, PartialEq, Eq)]
pub struct Step {
    pub kind: Kind,
    pub op: Op,
    pub before: u32,
    pub after: u32,
}

/// Where a call stood when its script ran out, or how it ended before.
#[derive(Clone, Copy, Debug, PartialEq, Eq)]
pub enum End {
    /// It asks for this operation next.
    Asks(Kind, Op),
    /// It is inside the Once's closure.
    Closure,
    Returned(bool),
    Panicked(u32),
}

#[derive(Clone, Debug, PartialEq, Eq)]
pub struct Trace {
    pub steps: Vec<Step>,
    pub end: End,
    /// How many answers nobody asked for.
    pub unread: usize,
}

/// Makes the call with these answers.
pub fn run(call: Call, script: &[Answer]) -> Trace {
    let scripted = Rc::new(Scripted::new(script));
    let mut closure = |state: &OnceState| scripted.close(state);
    let result = quietly(|| {
        // SAFETY: the locks protect nothing, and all words are the script's.
        let make = || unsafe { scripted.objects.lend().make(call, &mut closure) };
        with_driver(scripted.clone(), || panic::catch_unwind(AssertUnwindSafe(make)))
    });
    Trace {
        steps: scripted.made.take(),
        // An abandoned call unwinds too, so where it stopped comes first.
        end: scripted.stopped.get().unwrap_or_else(|| match result {
            Ok(answer) => End::Returned(answer),
            Err(payload) => match panic_number(payload) {
                Ok(number) => End::Panicked(number),
                Err(words) => panic!("a panic that has no number: {words}"),
            },
        }),
        unread: scripted.script.borrow().len(),
    }
}

/// What an abandoned call unwinds with.
struct Abandoned;

struct Scripted {
    objects: Objects,
    /// What was not read yet.
    script: RefCell<VecDeque<Answer>>,
    made: RefCell<Vec<Step>>,
    stopped: Cell<Option<End>>,
}

impl Scripted {
    fn new(script: &[Answer]) -> Self {
        Scripted {
            objects: Objects::new(),
            script: RefCell::new(script.iter().copied().collect()),
            made: RefCell::default(),
            stopped: Cell::new(None),
        }
    }

    fn next(&self) -> Option<Answer> {
        self.script.borrow_mut().pop_front()
    }

    /// Notes where the call stands and leaves it. A call that unwinds already,
    /// since its closure panicked, cannot be left that way; it gets dummy
    /// answers until its guard is done.
    fn stop(&self, end: End) {
        self.stopped.set(Some(end));
        if !thread::panicking() {
            panic::resume_unwind(Box::new(Abandoned));
        }
    }

    fn close(&self, state: &OnceState) {
        match self.next() {
            None => self.stop(End::Closure),
            Some(Answer::Close(closing)) => closing.end(state),
            Some(answer) => panic!("the script has {answer:?} for a closure"),
        }
    }
}

impl Driver for Scripted {
    fn operate(&self, futex: &Futex, op: Op) -> Seen {
        // No QUEUED in it, so the guard of a call that was left asks no further.
        const DUMMY: Seen = Seen { word: 0, success: false };

        if self.stopped.get().is_some() {
            return DUMMY;
        }
        let kind = self.objects.lend().kind(futex.identity());
        let (before, fails, asleep) = match self.next() {
            Some(Answer::Word { word, fails, asleep }) => (word, fails, asleep),
            Some(answer) => panic!("the script has {answer:?} for {op:?}"),
            None => {
                self.stop(End::Asks(kind, op));
                return DUMMY;
            }
        };
        futex.set_word(before);
        let seen = futex.perform(op, fails);
        self.made.borrow_mut().push(Step { kind, op, before, after: futex.word() });
        match op {
            Op::Wake => Seen { success: asleep, ..seen },
            Op::Wait { .. } => Seen { success: true, ..seen },
            _ => seen,
        }
    }
}
