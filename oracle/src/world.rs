//! The world: 32 threads inside real calls, one operation at a time. What an act
//! brought about is what the real code is then seen to do, and nothing here
//! knows what that ought to be.

use std::collections::{HashMap, VecDeque};
use std::fmt;
use std::marker::PhantomData;

use crate::calls::{Call, Kind};
use crate::closing::Closing;
use crate::driver::{Op, Seen};
use crate::holds::Holds;
use crate::records::{Act, Record, Refusal, Setting};
use crate::sys::futex::Futex;
use crate::worker::{Report, Worker};
use crate::yard::{Name, THREADS, Yard};

const MOST_FORGOTTEN: u32 = 0x3FFF_FFFE;

pub struct World {
    yard: &'static Yard,
    words: Vec<Word>,
    /// The places of the words in their list, by identity.
    places: HashMap<usize, usize>,
    workers: Vec<Worker>,
    threads: [Standing; THREADS],
    holds: Holds,
    /// Whether an act other than set was accepted.
    started: bool,
    /// The workers report to the thread that started them.
    _stays_on_its_thread: PhantomData<*const ()>,
}

struct Word {
    name: Name,
    futex: &'static Futex,
    fresh: u32,
    /// In the order in which they went to sleep.
    sleepers: VecDeque<usize>,
}

/// Where a thread stands, as it can be seen from outside. Words are places in
/// the world's list.
#[derive(Clone, Copy, Debug, PartialEq, Eq)]
pub enum Standing {
    Idle,
    Asks { call: Call, word: usize, op: Op },
    Asleep { call: Call, word: usize },
    Closure { call: Call },
}

#[derive(Clone, Copy, Debug, PartialEq, Eq)]
pub enum What {
    Set,
    Begun,
    Moved,
    Done(bool),
    Slept,
    Panic(u32),
    Closure,
    Woken,
    Closed,
}

#[derive(Clone, Copy, Debug, PartialEq, Eq)]
pub struct Event {
    pub what: What,
    /// How many sleepers it woke.
    pub woken: usize,
    /// Whether a call that is made to get a lock ended with it.
    pub grant: bool,
}

pub type Outcome = Result<Event, Refusal>;

/// The real code did what it never should, by its own assertions or because the
/// holds cannot be read off what it did.
#[derive(Debug)]
pub struct Broken(String);

impl fmt::Display for Broken {
    fn fmt(&self, f: &mut fmt::Formatter<'_>) -> fmt::Result {
        f.write_str(&self.0)
    }
}

impl World {
    pub fn fresh() -> World {
        let yard = Yard::fresh();
        let word = |(name, futex): (_, &'static Futex)| Word {
            name,
            futex,
            fresh: futex.word(),
            sleepers: VecDeque::new(),
        };
        let words: Vec<Word> = yard.words().into_iter().map(word).collect();
        let places = words.iter().enumerate().map(|(place, word)| (word.futex.identity(), place));
        World {
            yard,
            places: places.collect(),
            words,
            workers: (0..THREADS).map(|_| Worker::start()).collect(),
            threads: [Standing::Idle; THREADS],
            holds: Holds::none(),
            started: false,
            _stays_on_its_thread: PhantomData,
        }
    }

    pub fn standing(&self, thread: usize) -> Standing {
        self.threads[thread]
    }

    pub fn holds(&self) -> &Holds {
        &self.holds
    }

    pub fn word(&self, name: Name) -> u32 {
        self.futex(name).word()
    }

    fn futex(&self, name: Name) -> &'static Futex {
        let word = self.words.iter().find(|word| word.name == name);
        word.expect("the words have all names that there are").futex
    }

    pub fn act(&mut self, record: Record) -> Result<Outcome, Broken> {
        match record.act().and_then(|act| self.allow(act).map(|()| act)) {
            Ok(act) => self.perform(act).map(Ok),
            Err(refusal) => Ok(Err(refusal)),
        }
    }

    /// The refusals that need the world, in their order.
    fn allow(&self, act: Act) -> Result<(), Refusal> {
        let refused = match act {
            Act::Set(setting) => self.refuse_set(setting),
            Act::Begin { thread, call, object, mutex } => match self.threads[thread] {
                Standing::Idle if self.holds.allow(thread, call, object, mutex) => None,
                Standing::Idle => Some(Refusal::NoHold),
                _ => Some(Refusal::InsideCall),
            },
            Act::Step { thread, fails } => match self.threads[thread] {
                Standing::Idle => Some(Refusal::Idle),
                Standing::Asleep { .. } => Some(Refusal::Asleep),
                Standing::Closure { .. } => Some(Refusal::InsideClosure),
                Standing::Asks { op, .. } if fails && !op.is_weak() => {
                    Some(Refusal::NoWeakExchange)
                }
                Standing::Asks { .. } => None,
            },
            Act::Wake { thread } => match self.threads[thread] {
                Standing::Idle => Some(Refusal::Idle),
                Standing::Asleep { .. } => None,
                _ => Some(Refusal::Awake),
            },
            Act::Close { thread, .. } => match self.threads[thread] {
                Standing::Idle => Some(Refusal::Idle),
                Standing::Asleep { .. } => Some(Refusal::Asleep),
                Standing::Closure { .. } => None,
                Standing::Asks { .. } => Some(Refusal::OutsideClosure),
            },
        };
        refused.map_or(Ok(()), Err)
    }

    fn refuse_set(&self, setting: Setting) -> Option<Refusal> {
        match setting {
            _ if self.started => Some(Refusal::Started),
            Setting::Forgotten { reads, .. } if reads > MOST_FORGOTTEN => Some(Refusal::OutOfRange),
            _ => None,
        }
    }

    fn perform(&mut self, act: Act) -> Result<Event, Broken> {
        if !matches!(act, Act::Set(_)) {
            self.started = true;
        }
        match act {
            Act::Set(setting) => {
                self.set(setting);
                Ok(event(What::Set, 0))
            }
            Act::Begin { thread, call, object, mutex } => {
                let on = self.yard.lend(thread, call, object, mutex);
                let report = self.workers[thread].make(call, on);
                self.asks(thread, call, report)?;
                Ok(event(What::Begun, 0))
            }
            Act::Step { thread, fails } => self.step(thread, fails),
            Act::Wake { thread } => {
                self.wake(thread)?;
                Ok(event(What::Woken, 1))
            }
            Act::Close { thread, closing } => {
                self.close(thread, closing)?;
                Ok(event(What::Closed, 0))
            }
        }
    }

    fn set(&mut self, setting: Setting) {
        let (kind, index, word) = match setting {
            Setting::Forgotten { lock, reads } => {
                self.holds.forget(lock, reads);
                (Kind::RwLock, lock, reads)
            }
            Setting::WriterNotify { lock, word } => (Kind::WriterNotify, lock, word),
            Setting::Condvar { condvar, word } => (Kind::Condvar, condvar, word),
            Setting::Complete { once } => (Kind::Once, once, 0),
        };
        self.futex(Name { kind, index }).set_word(word);
    }

    /// Lets the operation that the thread asks for happen.
    fn step(&mut self, thread: usize, fails: bool) -> Result<Event, Broken> {
        let Standing::Asks { call, word, op } = self.threads[thread] else {
            unreachable!("a step is refused elsewhere")
        };
        let Word { name, futex, .. } = self.words[word];
        let seen = futex.perform(op, fails);
        self.holds
            .follow(thread, call, name, (seen.word, futex.word()))
            .map_err(|what| broken(thread, what))?;
        match op {
            Op::Wait { expected } if seen.word == expected => {
                self.words[word].sleepers.push_back(thread);
                self.threads[thread] = Standing::Asleep { call, word };
                Ok(event(What::Slept, 0))
            }
            Op::Wait { .. } => self.goes_on(thread, call, RETURNED, 0),
            Op::Wake => {
                let woken = self.wake_some(word, 1)?;
                self.goes_on(thread, call, Seen { success: woken > 0, ..seen }, woken)
            }
            Op::WakeAll => {
                let woken = self.wake_some(word, THREADS)?;
                self.goes_on(thread, call, seen, woken)
            }
            _ => self.goes_on(thread, call, seen, 0),
        }
    }

    /// Hands the thread what its operation saw, and tells what it then does.
    fn goes_on(
        &mut self,
        thread: usize,
        call: Call,
        seen: Seen,
        woken: usize,
    ) -> Result<Event, Broken> {
        let report = self.workers[thread].saw(seen);
        let (standing, what) = match report {
            Report::Asks(identity, op) => {
                (Standing::Asks { call, word: self.places[&identity], op }, What::Moved)
            }
            Report::Closure => (Standing::Closure { call }, What::Closure),
            Report::Returned(answer) => (Standing::Idle, What::Done(answer)),
            Report::Panicked(Ok(number)) => (Standing::Idle, What::Panic(number)),
            Report::Panicked(Err(words)) => {
                return Err(broken(thread, format!("{call} panics: {words}")));
            }
        };
        self.threads[thread] = standing;
        Ok(Event { grant: what == What::Done(true) && call.takes_a_lock(), ..event(what, woken) })
    }

    /// Notes what the thread asks for, where no operation was made that could
    /// have brought about anything else.
    fn asks(&mut self, thread: usize, call: Call, report: Report) -> Result<(), Broken> {
        let Report::Asks(identity, op) = report else {
            return Err(broken(thread, format!("{call} has {report:?} without an operation")));
        };
        self.threads[thread] = Standing::Asks { call, word: self.places[&identity], op };
        Ok(())
    }

    /// Wakes up to `most` of those who sleep on a word, the longest sleepers
    /// first, and says how many they were.
    fn wake_some(&mut self, word: usize, most: usize) -> Result<usize, Broken> {
        let sleepers = &self.words[word].sleepers;
        let woken: Vec<usize> = sleepers.iter().copied().take(most).collect();
        for &thread in &woken {
            self.wake(thread)?;
        }
        Ok(woken.len())
    }

    /// Lets a sleeper's wait return.
    fn wake(&mut self, thread: usize) -> Result<(), Broken> {
        let Standing::Asleep { call, word } = self.threads[thread] else {
            unreachable!("only sleepers are woken")
        };
        self.words[word].sleepers.retain(|&sleeper| sleeper != thread);
        let report = self.workers[thread].saw(RETURNED);
        self.asks(thread, call, report)
    }

    fn close(&mut self, thread: usize, closing: Closing) -> Result<(), Broken> {
        let Standing::Closure { call } = self.threads[thread] else {
            unreachable!("a close is refused elsewhere")
        };
        let report = self.workers[thread].close(closing);
        self.asks(thread, call, report)
    }

    /// The words that differ from a fresh world's, the queues in which somebody
    /// sleeps, and the holds, a line each.
    pub fn lines(&self) -> impl fmt::Display {
        let mut lines = String::from("  words");
        for Word { name, futex, fresh, .. } in &self.words {
            if futex.word() != *fresh {
                lines += &format!(" {name}={:08X}", futex.word());
            }
        }
        lines += "\n  queues";
        for Word { name, sleepers, .. } in &self.words {
            let sleepers: Vec<String> = sleepers.iter().map(usize::to_string).collect();
            if !sleepers.is_empty() {
                lines += &format!(" {name}={}", sleepers.join(","));
            }
        }
        format!("{lines}\n  holds{}\n", self.holds)
    }
}

/// What a wait hands back, whoever woke it and whether it slept or not. The word
/// is not looked at.
const RETURNED: Seen = Seen { word: 0, success: true };

fn event(what: What, woken: usize) -> Event {
    Event { what, woken, grant: false }
}

fn broken(thread: usize, what: String) -> Broken {
    Broken(format!("thread {thread}: {what}"))
}
