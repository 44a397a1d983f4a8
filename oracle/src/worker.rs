//! A thread of the world, on a thread of the machine. It makes the calls that it
//! is told to make, and blocks at every operation until it is told what that saw.

use std::panic::{self, AssertUnwindSafe};
use std::rc::Rc;
use std::sync::{Arc, Mutex, PoisonError};
use std::thread::{self, Thread};

use crate::calls::{Call, Lent};
use crate::closing::{Closing, panic_number, quietly};
use crate::driver::{Driver, Op, Seen, with_driver};
use crate::sync::OnceState;
use crate::sys::futex::Futex;

/// What a thread is seen to do next, where nobody holds it up any more.
#[derive(Debug)]
pub enum Report {
    /// It asks for this operation of the word with this identity.
    Asks(usize, Op),
    /// It is inside the Once's closure.
    Closure,
    Returned(bool),
    /// The panic's number, or its words where it has none.
    Panicked(Result<u32, String>),
}

enum Order {
    Make(Call, Lent<'static>),
    Saw(Seen),
    Close(Closing),
}

pub struct Worker {
    thread: Thread,
    desk: Arc<Desk>,
}

impl Worker {
    /// Starts a thread that is idle. It reports to the thread that started it.
    pub fn start() -> Worker {
        let desk = Arc::new(Desk {
            world: thread::current(),
            orders: Slot::default(),
            reports: Slot::default(),
        });
        let its_own = desk.clone();
        let thread = thread::spawn(move || work(its_own)).thread().clone();
        Worker { thread, desk }
    }

    pub fn make(&self, call: Call, on: Lent<'static>) -> Report {
        self.order(Order::Make(call, on))
    }

    /// Lets the operation that it asks for hand this back.
    pub fn saw(&self, seen: Seen) -> Report {
        self.order(Order::Saw(seen))
    }

    pub fn close(&self, closing: Closing) -> Report {
        self.order(Order::Close(closing))
    }

    fn order(&self, order: Order) -> Report {
        self.desk.orders.put(order, &self.thread);
        self.desk.reports.take()
    }
}

/// Where the two threads lay down what the other one is to read. At any time at
/// most one of them runs.
struct Desk {
    world: Thread,
    orders: Slot<Order>,
    reports: Slot<Report>,
}

impl Desk {
    fn report(&self, report: Report) {
        self.reports.put(report, &self.world);
    }

    fn close(&self, state: &OnceState) {
        self.report(Report::Closure);
        match self.orders.take() {
            Order::Close(closing) => closing.end(state),
            _ => unreachable!("a closure is told nothing but how to end"),
        }
    }
}

impl Driver for Arc<Desk> {
    fn operate(&self, word: &Futex, op: Op) -> Seen {
        self.report(Report::Asks(word.identity(), op));
        match self.orders.take() {
            Order::Saw(seen) => seen,
            _ => unreachable!("an operation is told nothing but what it saw"),
        }
    }
}

fn work(desk: Arc<Desk>) {
    let driver = Rc::new(desk.clone());
    let mut closure = |state: &OnceState| desk.close(state);
    loop {
        let Order::Make(call, on) = desk.orders.take() else {
            unreachable!("an idle thread is told nothing but what to call")
        };
        // SAFETY: the locks protect nothing, and the world refuses to unlock,
        // downgrade or wait without the hold.
        let make = || unsafe { on.make(call, &mut closure) };
        let caught = || panic::catch_unwind(AssertUnwindSafe(make));
        desk.report(match quietly(|| with_driver(driver.clone(), caught)) {
            Ok(answer) => Report::Returned(answer),
            Err(payload) => Report::Panicked(panic_number(payload)),
        });
    }
}

/// Room for one message.
struct Slot<T>(Mutex<Option<T>>);

impl<T> Default for Slot<T> {
    fn default() -> Self {
        Slot(Mutex::new(None))
    }
}

impl<T> Slot<T> {
    fn put(&self, message: T, reader: &Thread) {
        *self.0.lock().unwrap_or_else(PoisonError::into_inner) = Some(message);
        reader.unpark();
    }

    /// Waits for the message.
    fn take(&self) -> T {
        loop {
            let message = self.0.lock().unwrap_or_else(PoisonError::into_inner).take();
            match message {
                Some(message) => return message,
                None => thread::park(),
            }
        }
    }
}

/// Keeps the program on the core it runs on. Only one of its threads runs at a
/// time, and handing over to another on the same core takes a third of the time
/// that it takes from core to core. Where this cannot be had, only time is lost.
#[cfg(target_os = "linux")]
pub fn stay_on_one_core() {
    type Mask = [u64; 16];
    unsafe extern "C" {
        fn sched_getcpu() -> i32;
        fn sched_setaffinity(process: i32, size: usize, mask: *const Mask) -> i32;
    }
    // SAFETY: the first takes and changes nothing; the second reads the mask, of
    // which it is told the size. Process 0 is this thread, and the threads that
    // it starts take the mask over.
    unsafe {
        let Ok(core) = usize::try_from(sched_getcpu()) else { return };
        let mut mask: Mask = [0; 16];
        let Some(bits) = mask.get_mut(core / 64) else { return };
        *bits = 1 << (core % 64);
        sched_setaffinity(0, size_of::<Mask>(), &mask);
    }
}

#[cfg(not(target_os = "linux"))]
pub fn stay_on_one_core() {}
