#!/usr/bin/env python3
"""Writes probe's stored input and what it must answer, the files stdin and stdout beside this one.

Each case below is a world, what is done to it, and the answer and the next world that the rules ask for,
written out by hand: the program is not asked. The layout is that of docs/PROBE.md.
"""

import pathlib
import struct

THREADS = 32

# The bytes of a world, and of what is done to it.
WORLD, DEED = 1417, 9

# A position's number is its place in this list; behind each are the slots that it carries.
POSITIONS = [
    ("idle", ""),
    ("lock exchange", "object"),
    ("lock spin", "object left"),
    ("lock exchange again", "object"),
    ("lock swap", "object"),
    ("lock wait", "object"),
    ("lock spin again", "object left"),
    ("try_lock", "object"),
    ("unlock swap", "object"),
    ("unlock wake", "object"),
    ("park subtract", ""),
    ("park wait", ""),
    ("park exchange", ""),
    ("unpark swap", "object"),
    ("unpark wake", "object"),
    ("condvar wait load", "object mutex"),
    ("condvar wait unlock swap", "object mutex word"),
    ("condvar wait unlock wake", "object mutex word"),
    ("condvar wait wait", "object mutex word"),
    ("relock exchange", "object mutex"),
    ("relock spin", "object mutex left"),
    ("relock exchange again", "object mutex"),
    ("relock swap", "object mutex"),
    ("relock wait", "object mutex"),
    ("relock spin again", "object mutex left"),
    ("notify_one add", "object"),
    ("notify_one wake", "object"),
    ("notify_all add", "object"),
    ("notify_all wake", "object"),
    ("once call load", "object call_flag"),
    ("once call exchange running", "object call_flag word"),
    ("once call closure", "object call_flag"),
    ("once call swap", "object call_flag ending"),
    ("once call wake all", "object call_flag place_flag"),
    ("once call exchange queued", "object call_flag word"),
    ("once call wait", "object call_flag word"),
    ("once wait load", "object call_flag"),
    ("once wait exchange queued", "object call_flag word"),
    ("once wait wait", "object call_flag word"),
    ("is_completed", "object"),
    ("read load", "object"),
    ("read exchange", "object word"),
    ("read spin", "object place_flag left"),
    ("read exchange contended", "object place_flag word"),
    ("read set waiting", "object place_flag word"),
    ("read wait", "object word"),
    ("try_read load", "object"),
    ("try_read exchange", "object word"),
    ("write exchange", "object"),
    ("write spin", "object place_flag left"),
    ("write exchange contended", "object place_flag word"),
    ("write set waiting", "object place_flag word"),
    ("write load sequence", "object"),
    ("write load state", "object word"),
    ("write wait", "object word"),
    ("try_write load", "object"),
    ("try_write exchange", "object word"),
    ("read_unlock", "object"),
    ("write_unlock", "object"),
    ("wake exchange writers", "object call_flag"),
    ("wake exchange both", "object call_flag"),
    ("wake notify", "object call_flag place_flag"),
    ("wake wake writer", "object call_flag place_flag"),
    ("wake exchange readers", "object call_flag"),
    ("wake wake readers", "object call_flag"),
    ("downgrade add", "object"),
    ("downgrade subtract", "object"),
    ("downgrade wake readers", "object"),
]
NUMBER = {name: number for number, (name, _) in enumerate(POSITIONS)}
SLOTS = ["object", "mutex", "left", "call_flag", "place_flag", "ending", "word"]

# The row of words: where each kind begins.
MUTEX, RWLOCK, NOTIFY, CONDVAR, ONCE, PARKER = 0, 4, 8, 12, 16, 20


def at(name, asleep=0, **slots):
    """A thread's record: its twelve bytes."""
    carried = POSITIONS[NUMBER[name]][1].split()
    assert set(slots) <= set(carried), name
    return record(NUMBER[name], asleep, [slots.get(slot, 0) for slot in SLOTS])


def record(number, asleep, slots):
    return struct.pack("<BBBBBBBBI", number, asleep, *slots)


class World:
    """A fresh world; `started` and the rest are then changed by assignment."""

    def __init__(self, started=1):
        self.words = [0] * ONCE + [3] * 4 + [0] * THREADS
        self.locked = [0] * (THREADS * 4)
        self.written = [0] * (THREADS * 4)
        self.reads = [0] * (THREADS * 4)
        self.forgotten = [0] * 4
        self.threads = [at("idle")] * THREADS
        self.row = []
        self.count = None
        self.started = started

    def bytes(self):
        row = self.row + [0] * (THREADS - len(self.row))
        count = len(self.row) if self.count is None else self.count
        return (
            struct.pack("<52I", *self.words)
            + bytes(self.locked)
            + bytes(self.written)
            + struct.pack("<128I", *self.reads)
            + struct.pack("<4I", *self.forgotten)
            + b"".join(self.threads)
            + bytes(row)
            + struct.pack("<Q", count)
            + bytes([self.started])
        )


def act(number, choice, thread, target, value=0):
    return struct.pack("<BBBBBI", 0, number, choice, thread, target, value)


def set_(choice, target, value):
    return act(0, choice, 0, target, value)


def begin(call, thread, target, value=0):
    return act(1, call, thread, target, value)


def step(thread, choice=0):
    return act(2, choice, thread, 0)


def wake(thread):
    return act(3, 0, thread, 0)


def close(thread, choice):
    return act(4, choice, thread, 0)


def solo(thread, budget, kind=1, rest=b"\0\0\0\0\0"):
    return struct.pack("<BBH", kind, thread, budget) + rest


stdin, stdout = [], []


def case(before, deed, answer, after=None):
    """`after` is the next world, where it is another one."""
    before = before if isinstance(before, bytes) else before.bytes()
    after = before if after is None else after
    after = after if isinstance(after, bytes) else after.bytes()
    assert (len(before), len(deed), len(after)) == (WORLD, DEED, WORLD)
    stdin.append(before + deed)
    stdout.append(answer + " " + after.hex() + "\n")


# Begin and set on a fresh world.
after = World()
after.threads = [at("lock exchange")] + [at("idle")] * 31
case(World(started=0), begin(0, 0, 0), "sound begun 0 0", after)

after = World(started=0)
after.words[RWLOCK + 2] = after.forgotten[2] = 5
case(World(started=0), set_(0, 2, 5), "sound set 0 0", after)

# The bytes 0 throughout: every Once is COMPLETE, as set acts can make it. The deed is a set that changes
# nothing.
case(bytes(WORLD), bytes(DEED), "sound set 0 0")


def standing(record, other=None):
    """The started world where thread 0 has this record, and thread 31 the other."""
    w = World()
    w.threads = [record] + [at("idle")] * 30 + [other or at("idle")]
    return w


# lock at word 1: asleep after 104 steps, of which the last but one leaves the thread at its wait.
def contended(record, word):
    w = standing(record)
    w.words[MUTEX + 1] = word
    w.locked[31 * 4 + 1] = 1
    return w


start = contended(at("lock exchange", object=1), 1)
after = contended(at("lock wait", object=1, asleep=1), 2)
after.row = [0]
case(start, solo(0, 65535), "sound slept 0 104 0", after)
case(start, solo(0, 104), "sound slept 0 104 0", after)
after = contended(at("lock wait", object=1), 2)
case(start, solo(0, 103), "sound budget 0 103 0", after)
case(start, solo(0, 0), "sound budget 0 0 0")
# Any kind but 0 is a solo run, and what stands behind its budget is not looked at.
case(start, solo(0, 0, kind=255, rest=b"\xff" * 5), "sound budget 0 0 0")
case(start, solo(32, 9), "sound refused 2 0 0")
case(start, solo(31, 9), "sound refused 5 0 0")
case(start, step(0, choice=1), "sound refused 8 0")


# read, write and downgrade at a write-locked state, and read at the most readers.
def written(record, word, notify=0):
    w = standing(record)
    w.words[RWLOCK + 3] = word
    w.words[NOTIFY + 3] = notify
    w.written[31 * 4 + 3] = 1
    return w


start = written(at("read load", object=3), 0x3FFFFFFF)
after = written(at("read wait", object=3, asleep=1, word=0x7FFFFFFF), 0x7FFFFFFF)
after.row = [0]
case(start, solo(0, 1000), "sound slept 0 104 0", after)

start = written(at("write exchange", object=3), 0x3FFFFFFF, notify=0x01020304)
after = written(at("write wait", object=3, asleep=1, word=0x01020304), 0xBFFFFFFF, notify=0x01020304)
after.row = [0]
case(start, solo(0, 1000), "sound slept 0 106 0", after)
after = written(at("write spin", object=3, left=100), 0x3FFFFFFF, notify=0x01020304)
case(start, step(0, choice=1), "sound moved 0 0", after)


def downgraded(record, word, holds):
    w = standing(record)
    w.words[RWLOCK] = word
    w.written[0], w.reads[0] = holds
    return w


start = downgraded(at("downgrade add"), 0xFFFFFFFF, (1, 0))
after = downgraded(at("downgrade subtract"), 0xC0000001, (0, 1))
case(start, step(0), "sound moved 0 0", after)


def forgotten(record):
    w = standing(record)
    w.words[RWLOCK] = w.forgotten[0] = 0x3FFFFFFE
    return w


case(forgotten(at("read load")), solo(0, 1000), "sound panic 1 2 0", forgotten(at("idle")))
case(forgotten(at("try_read load")), step(0), "sound done 0 0", forgotten(at("idle")))

# A wake takes the longest asleep on its word: of 5, 3 and 4 the first sleeps on another.
def queued(threads, row):
    w = World()
    w.threads = list(w.threads)
    for number, its in threads.items():
        w.threads[number] = its
    w.row = row
    return w


asleep_on_0 = at("lock wait", asleep=1)
asleep_on_1 = at("lock wait", asleep=1, object=1)
start = queued({0: at("unlock wake"), 3: asleep_on_0, 4: asleep_on_0, 5: asleep_on_1}, [5, 3, 4])
awake = at("lock spin again", left=100)
after = queued({3: awake, 4: asleep_on_0, 5: asleep_on_1}, [5, 4])
case(start, step(0), "sound done 1 1", after)
after = queued({0: at("unlock wake"), 3: asleep_on_0, 4: awake, 5: asleep_on_1}, [5, 3])
case(start, wake(4), "sound woken 0 1", after)
case(start, solo(3, 1), "sound refused 6 0 0")

# notify_all wakes all the others.
others = range(1, 32)
waiting = at("condvar wait wait", asleep=1, object=1, mutex=2, word=9)
start = queued({0: at("notify_all wake", object=1), **{n: waiting for n in others}}, [*reversed(others)])
after = queued({n: at("relock exchange", object=1, mutex=2) for n in others}, [])
case(start, step(0), "sound done 1 31", after)

# A Once's closure that panics, with two who wait for its end.
def closing(record, word, waiters):
    w = queued({2: record, 7: waiters, 8: waiters}, [8, 7])
    w.words[ONCE + 3] = word
    return w


sleeper = at("once wait wait", asleep=1, object=3, word=5)
running = closing(at("once call exchange running", object=3, call_flag=1, word=7), 7, sleeper)
start = closing(at("once call closure", object=3, call_flag=1), 5, sleeper)
swap = closing(at("once call swap", object=3, call_flag=1, ending=2), 5, sleeper)
wakes = closing(at("once call wake all", object=3, call_flag=1, place_flag=1), 2, sleeper)
after = closing(at("idle"), 2, at("once wait load", object=3))
after.row = []
case(running, step(2), "sound closure 0 0", start)
case(start, solo(2, 1), "sound refused 10 0 0")
case(start, close(2, 2), "sound closed 0 0", swap)
case(swap, step(2), "sound moved 0 0", wakes)
case(wakes, step(2), "sound panic 3 2", after)
case(swap, solo(2, 2), "sound panic 3 2 2", after)

# All 32 bits of a value count: the mutex of a condvar wait.
def holding(record):
    w = standing(record)
    w.words[MUTEX + 3] = 1
    w.locked[3] = 1
    return w


start = holding(at("idle"))
after = holding(at("condvar wait load", object=2, mutex=3))
case(start, begin(10, 0, 2, 3), "sound begun 0 0", after)
case(start, begin(10, 0, 2, 0x03000003), "sound refused 3 0")
case(start, begin(10, 0, 2, 2), "sound refused 9 0")

# Forged worlds, each with one thing wrong: a spin too many; a row that counts nobody, more than there are,
# as many as a number can say; a place that is not used and not 0; reads that would wrap to 0.
case(standing(at("lock spin", left=100)), step(0), "sound moved 0 0", standing(at("lock exchange again")))
case(standing(at("lock spin", left=101)), step(0), "unsound refused 19 0")
case(standing(at("lock spin", left=101)), solo(0, 9), "unsound refused 19 0 0")
for count in (1, 33, 2**32, 2**64 - 1):
    start = standing(at("idle"))
    start.count = count
    case(start, begin(18, 0, 0), "unsound refused 19 0")
start = standing(at("idle"))
start.row, start.count = [0] * 31 + [1], 0
case(start, begin(18, 0, 0), "unsound refused 19 0")
start = standing(at("idle"))
start.reads[0] = start.reads[4] = 0x80000000
case(start, begin(18, 0, 0), "unsound refused 19 0")

def told(before, after, deed, answer):
    """An unsound world said in another form than it is told in; what is told says the same world again."""
    case(before, deed, answer, after)
    case(after, deed, answer)


# Every position with every slot filled: those that it does not carry come back as 0, and any flag but 0 as 1.
# The two flags take each of their values beside the other's. Numbers behind the last position are idle.
NUMBERS = [*range(len(POSITIONS) + 2), 127, 128, 255]


def filled(numbers, asleep, call_flag, place_flag):
    """The records with these positions, and as they come back."""
    said, back = [], []
    for place, number in enumerate(numbers):
        name, carried = POSITIONS[number] if number < len(POSITIONS) else POSITIONS[0]
        word = 0x89ABCD00 + number
        slots = [100 + place, 200 + place, 101 + place, call_flag, place_flag, 0xEE, word]
        said.append(record(number, asleep, slots))
        slots[3:6] = [min(call_flag, 1), min(place_flag, 1), 2]
        kept = {slot: value for slot, value in zip(SLOTS, slots) if slot in carried.split()}
        back.append(at(name, asleep=min(asleep, 1), **kept))
    return said, back


for flags in (0xF0, 0xF0, 0xF0), (0, 0, 0), (2, 1, 0), (0, 0, 255):
    for first in range(0, len(NUMBERS), THREADS):
        numbers = NUMBERS[first : first + THREADS]
        numbers += [1] * (THREADS - len(numbers))
        start, after = World(), World()
        start.threads, after.threads = filled(numbers, *flags)
        told(start, after, act(255, 255, 255, 255, 0xFFFFFFFF), "unsound refused 19 0")

# How a closure ended: 0 returned, 1 poisoned, any other number panicked.
start, after = World(), World()
number = NUMBER["once call swap"]
endings = {0: 0, 1: 1, 2: 2, 3: 2, 255: 2}
rest = [at("once call swap", object=4)] * (THREADS - len(endings))
start.threads = [record(number, 0, [3, 0, 0, 0, 0, n, 0]) for n in endings] + rest
after.threads = [at("once call swap", object=3, ending=n) for n in endings.values()] + rest
told(start, after, step(0), "unsound refused 19 0")

# Every byte its largest.
after = World()
after.words = [0xFFFFFFFF] * 52
after.locked = after.written = [1] * 128
after.reads = [0xFFFFFFFF] * 128
after.forgotten = [0xFFFFFFFF] * 4
after.threads = [at("idle", asleep=1)] * 32
after.row, after.count = [255] * 32, 2**64 - 1
told(b"\xff" * WORLD, after, b"\xff" * DEED, "unsound refused 19 0 0")

# Every number of a world another one, so that no two parts can change places unseen.
mixed = World()
mixed.words = [0x01000193 * (n + 1) % 2**32 for n in range(52)]
mixed.locked = [n * n % 3 % 2 for n in range(128)]
mixed.written = [n * n % 7 % 2 for n in range(128)]
mixed.reads = [0x85EBCA6B * (n + 1) % 2**32 for n in range(128)]
mixed.forgotten = [0xC2B2AE35 * (n + 1) % 2**32 for n in range(4)]
mixed.row = [(n * 37 + 11) % 256 for n in range(32)]
mixed.count = 0x0123456789ABCDEF
mixed.started = 0
case(mixed, step(0), "unsound refused 19 0")

# The input ends inside a case.
stdin.append(b"\xb1\x6b\0\0\0")
stdout.append("short 5 bytes\n")

here = pathlib.Path(__file__).parent
(here / "stdin").write_bytes(b"".join(stdin))
(here / "stdout").write_text("".join(stdout))
