//! A word, its operations, and the threads that sleep on it.

/// How many threads a world has.
pub const THREADS: usize = 32;

/// All threads asleep, a bit for each.
#[derive(Clone, Copy, Default)]
pub struct Sleepers(u32);

impl Sleepers {
    #[inline]
    pub fn has(self, thread: u8) -> bool {
        self.0 >> thread & 1 != 0
    }

    #[inline]
    fn insert(&mut self, thread: u8) {
        self.0 |= 1 << thread;
    }

    #[inline]
    fn remove(&mut self, thread: u8) {
        self.0 &= !(1 << thread);
    }

    pub fn bits(self) -> u32 {
        self.0
    }
}

/// The one step that a thread is about to make.
pub struct Turn<'a> {
    pub thread: u8,
    /// A weak exchange fails, even where it finds the value that it expects.
    pub fails: bool,
    pub sleepers: &'a mut Sleepers,
}

#[derive(Clone, Copy)]
pub struct Futex {
    word: u32,
    queue: Queue,
}

impl Futex {
    pub const fn new(word: u32) -> Futex {
        Futex { word, queue: Queue::EMPTY }
    }

    #[inline]
    pub fn load(&self) -> u32 {
        self.word
    }

    #[inline]
    pub fn store(&mut self, word: u32) {
        self.word = word;
    }

    #[inline]
    pub fn swap(&mut self, word: u32) -> u32 {
        std::mem::replace(&mut self.word, word)
    }

    #[inline]
    pub fn fetch_add(&mut self, amount: u32) -> u32 {
        self.swap(self.word.wrapping_add(amount))
    }

    #[inline]
    pub fn fetch_sub(&mut self, amount: u32) -> u32 {
        self.swap(self.word.wrapping_sub(amount))
    }

    /// A failed exchange hands back the word that it saw.
    #[inline]
    pub fn compare_exchange(&mut self, current: u32, new: u32) -> Result<(), u32> {
        if self.word == current {
            self.word = new;
            Ok(())
        } else {
            Err(self.word)
        }
    }

    #[inline]
    pub fn compare_exchange_weak(
        &mut self,
        current: u32,
        new: u32,
        turn: &Turn,
    ) -> Result<(), u32> {
        if turn.fails {
            Err(self.word)
        } else {
            self.compare_exchange(current, new)
        }
    }

    /// Says whether the thread fell asleep.
    #[inline]
    pub fn wait(&mut self, expected: u32, turn: Turn) -> bool {
        let sleeps = self.word == expected;
        if sleeps {
            self.queue.push(turn.thread);
            turn.sleepers.insert(turn.thread);
        }
        sleeps
    }

    /// Wakes the longest sleeper; says how many that were.
    #[inline]
    pub fn wake(&mut self, sleepers: &mut Sleepers) -> u8 {
        match self.queue.pop() {
            Some(thread) => {
                sleepers.remove(thread);
                1
            }
            None => 0,
        }
    }

    /// Wakes all sleepers; says how many that were.
    #[inline]
    pub fn wake_all(&mut self, sleepers: &mut Sleepers) -> u8 {
        let mut woken = 0;
        while let Some(thread) = self.queue.pop() {
            sleepers.remove(thread);
            woken += 1;
        }
        woken
    }

    /// Wakes a thread that sleeps here, wherever in the queue it stands.
    pub fn wake_spuriously(&mut self, thread: u8, sleepers: &mut Sleepers) {
        self.queue.remove(thread);
        sleepers.remove(thread);
    }
}

/// Threads in the order in which they fell asleep, in a ring.
#[derive(Clone, Copy)]
struct Queue {
    threads: [u8; THREADS],
    first: u8,
    length: u8,
}

impl Queue {
    const EMPTY: Queue = Queue { threads: [0; THREADS], first: 0, length: 0 };

    #[inline]
    fn place(&self, behind: u8) -> usize {
        usize::from(self.first.wrapping_add(behind)) % THREADS
    }

    #[inline]
    fn push(&mut self, thread: u8) {
        self.threads[self.place(self.length)] = thread;
        self.length += 1;
    }

    #[inline]
    fn pop(&mut self) -> Option<u8> {
        if self.length == 0 {
            return None;
        }
        let thread = self.threads[self.place(0)];
        self.first = self.first.wrapping_add(1);
        self.length -= 1;
        Some(thread)
    }

    /// Those behind the thread move up.
    fn remove(&mut self, thread: u8) {
        let mut kept = 0;
        for behind in 0..self.length {
            let other = self.threads[self.place(behind)];
            if other != thread {
                self.threads[self.place(kept)] = other;
                kept += 1;
            }
        }
        self.length = kept;
    }
}
