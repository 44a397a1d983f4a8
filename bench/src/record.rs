//! Records: ten bytes each.

pub const LENGTH: usize = 10;
pub const MARK: [u8; 2] = [0xB1, 0x6B];

/// The numbers of the acts.
pub const SET: u8 = 0;
pub const BEGIN: u8 = 1;
pub const STEP: u8 = 2;
pub const WAKE: u8 = 3;
pub const CLOSE: u8 = 4;

/// The numbers of the calls.
pub const LOCK: u8 = 0;
pub const TRY_LOCK: u8 = 1;
pub const UNLOCK: u8 = 2;
pub const READ: u8 = 3;
pub const TRY_READ: u8 = 4;
pub const READ_UNLOCK: u8 = 5;
pub const WRITE: u8 = 6;
pub const TRY_WRITE: u8 = 7;
pub const WRITE_UNLOCK: u8 = 8;
pub const DOWNGRADE: u8 = 9;
pub const CONDVAR_WAIT: u8 = 10;
pub const NOTIFY_ONE: u8 = 11;
pub const NOTIFY_ALL: u8 = 12;
pub const ONCE_CALL: u8 = 13;
pub const ONCE_CALL_IGNORING: u8 = 14;
pub const ONCE_WAIT: u8 = 15;
pub const ONCE_WAIT_IGNORING: u8 = 16;
pub const IS_COMPLETED: u8 = 17;
pub const PARK: u8 = 18;
pub const UNPARK: u8 = 19;

/// What a set act sets.
pub const FORGOTTEN_READS: u8 = 0;
pub const WRITER_NOTIFY: u8 = 1;
pub const CONDVAR: u8 = 2;
pub const COMPLETE: u8 = 3;

/// How a closure ends.
pub const RETURNED: u8 = 0;
pub const POISONED: u8 = 1;
pub const PANICKED: u8 = 2;

/// A record's fields, whatever they are.
#[derive(Clone, Copy, Debug, Default, PartialEq, Eq)]
pub struct Record {
    pub act: u8,
    pub choice: u8,
    pub thread: u8,
    pub object: u8,
    pub value: u32,
}

impl Record {
    /// None where the mark is bad.
    #[inline]
    pub fn from_bytes(bytes: &[u8; LENGTH]) -> Option<Record> {
        let [mark_0, mark_1, act, choice, thread, object, v0, v1, v2, v3] = *bytes;
        let value = u32::from_le_bytes([v0, v1, v2, v3]);
        ([mark_0, mark_1] == MARK).then_some(Record { act, choice, thread, object, value })
    }

    pub fn to_bytes(self) -> [u8; LENGTH] {
        let [mark_0, mark_1] = MARK;
        let [v0, v1, v2, v3] = self.value.to_le_bytes();
        [mark_0, mark_1, self.act, self.choice, self.thread, self.object, v0, v1, v2, v3]
    }
}
