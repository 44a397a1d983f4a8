//! What a record is answered with.

#[derive(Clone, Copy, Debug, PartialEq, Eq)]
pub enum What {
    Set,
    Begun,
    Moved,
    /// Done 1 of a call that takes a lock; the tally counts these.
    Granted,
    Done,
    Slept,
    Panic,
    Closure,
    Woken,
    Closed,
}

#[derive(Clone, Copy, Debug, PartialEq, Eq)]
pub struct Event {
    pub what: What,
    /// What is done, or the panic's number.
    pub value: u8,
    pub woken: u8,
}

impl Event {
    pub const SET: Event = Event::plain(What::Set);
    pub const BEGUN: Event = Event::plain(What::Begun);
    pub const MOVED: Event = Event::plain(What::Moved);
    pub const GRANTED: Event = Event { what: What::Granted, value: 1, woken: 0 };
    pub const DONE: Event = Event { what: What::Done, value: 1, woken: 0 };
    /// A try that failed, or an is_completed that says no.
    pub const FAILED: Event = Event::plain(What::Done);
    pub const SLEPT: Event = Event::plain(What::Slept);
    pub const CLOSURE: Event = Event::plain(What::Closure);
    pub const WOKEN: Event = Event { what: What::Woken, value: 0, woken: 1 };
    pub const CLOSED: Event = Event::plain(What::Closed);

    const fn plain(what: What) -> Event {
        Event { what, value: 0, woken: 0 }
    }

    pub const fn panic(number: u8) -> Event {
        Event { what: What::Panic, value: number, woken: 0 }
    }

    /// The same where sleepers were woken by it.
    #[inline]
    pub const fn waking(self, woken: u8) -> Event {
        Event { woken, ..self }
    }

    /// Of a futex_wait.
    #[inline]
    pub const fn of_wait(slept: bool) -> Event {
        if slept {
            Event::SLEPT
        } else {
            Event::MOVED
        }
    }

    /// Whether the thread is idle after it.
    #[inline]
    pub const fn ends_call(self) -> bool {
        matches!(self.what, What::Granted | What::Done | What::Panic)
    }
}

/// Refusals by their numbers.
#[derive(Clone, Copy, Debug, PartialEq, Eq)]
pub enum Refusal {
    Unknown = 1,
    NoSuchThread = 2,
    NoSuchObject = 3,
    InsideCall = 4,
    Idle = 5,
    Asleep = 6,
    Awake = 7,
    NoWeakExchange = 8,
    NoHold = 9,
    InsideClosure = 10,
    OutsideClosure = 11,
    Started = 12,
    OutOfRange = 13,
    BadMark = 20,
    BytesLeft = 21,
    TooManyRecords = 22,
}

pub type Outcome = Result<Event, Refusal>;
