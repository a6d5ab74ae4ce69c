//! The 16 calls of 01 and the host's call of 02 as values: names, arguments, rights, fees and
//! answers.

use crate::numbers::{right, Refusal};

/// An object's name: its volume and its serial.
#[derive(Clone, Copy, Debug, Default, PartialEq, Eq, PartialOrd, Ord, Hash)]
pub struct Name {
    pub volume: u32,
    pub serial: u32,
}

/// A name with a password of two halves: how a capability is presented and handed back.
#[derive(Clone, Copy, Debug, Default, PartialEq, Eq, PartialOrd, Ord, Hash)]
pub struct Key {
    pub name: Name,
    pub p1: u32,
    pub p2: u32,
}

impl Key {
    /// Its numbers, in the order in which they are written: volume, serial, p1 and p2.
    pub fn numbers(self) -> [u32; 4] {
        [self.name.volume, self.name.serial, self.p1, self.p2]
    }
}

/// One call with everything the host hands over with it.
#[derive(Clone, Debug, PartialEq, Eq)]
pub struct Call {
    /// Who calls; not looked at where the operation has no caller.
    pub caller: Name,
    pub operation: Operation,
    /// Length in bytes of the answer buffer.
    pub buffer: usize,
    /// Length in 16-bit numbers of the scratch.
    pub scratch: usize,
}

/// What is called: a call that presents no capability, one that does, the host's, or an unknown
/// number.
#[derive(Clone, Debug, PartialEq, Eq)]
pub enum Operation {
    /// `drawn` is the new object's name and its master's password.
    MakeObj {
        size: u32,
        flag: u32,
        rights: u32,
        drawn: Key,
    },
    Receive,
    Wait,
    On(Key, Action),
    /// 02, CR 9: "The host sets the day by call 17, which has no caller and no fee".
    SetDay {
        day: u32,
    },
    Unknown(u32),
}

/// A call on a presented capability, with the arguments after it.
#[derive(Clone, Debug, PartialEq, Eq)]
pub enum Action {
    Read { start: u32, end: u32 },
    Write { start: u32, end: u32, data: Vec<u8> },
    CapInfo,
    DeriveCap { mask: u32, start: u32, end: u32, limit: u32, last_day: u32, p1: u32, p2: u32 },
    DeleteCap,
    RenameObj { p1: u32, p2: u32 },
    Withdraw { sum: u32 },
    Deposit { sum: u32 },
    Suspend,
    Resume,
    ApplyLock { words: [u32; 2] },
    Send { sum: u32, message: Vec<u8> },
    Revive { sum: u32 },
}

/// The number, name, fee and required right (none where no capability is presented) of a call.
pub struct CallKind {
    pub number: u32,
    pub name: &'static str,
    pub fee: u32,
    pub right: u32,
}

const fn kind(number: u32, name: &'static str, fee: u32, right: u32) -> CallKind {
    CallKind { number, name, fee, right }
}

/// 01's calls, fees and rights, in call order 1 to 16.
pub const CALLS: [CallKind; 16] = [
    kind(1, "make_obj", 20, right::NONE),
    kind(2, "read", 1, right::READ),
    kind(3, "write", 2, right::WRITE),
    kind(4, "cap_info", 1, right::CAP_INFO),
    kind(5, "derive_cap", 5, right::DERIVE_CAP),
    kind(6, "delete_cap", 5, right::DELETE_CAP),
    kind(7, "rename_obj", 10, right::RENAME_OBJ),
    kind(8, "withdraw", 2, right::WITHDRAW),
    kind(9, "deposit", 2, right::DEPOSIT),
    kind(10, "suspend", 1, right::SUSPEND),
    kind(11, "resume", 1, right::RESUME),
    kind(12, "apply_lock", 5, right::APPLY_LOCK),
    kind(13, "send", 2, right::SEND),
    kind(14, "receive", 1, right::NONE),
    kind(15, "wait", 0, right::NONE),
    kind(16, "revive", 5, right::REVIVE),
];

/// The number of the host's call, which has no caller, no fee and no right: it is none of the 16.
pub const SET_DAY: u32 = 17;

/// A call of the 16 by its number; none for the host's call and for an unknown number.
pub fn call_kind(number: u32) -> Option<&'static CallKind> {
    CALLS.iter().find(|kind| kind.number == number)
}

impl Operation {
    /// The call number: 1 to 17, or the unknown one.
    pub fn number(&self) -> u32 {
        match self {
            Operation::MakeObj { .. } => 1,
            Operation::On(_, action) => action.number(),
            Operation::Receive => 14,
            Operation::Wait => 15,
            Operation::SetDay { .. } => SET_DAY,
            Operation::Unknown(number) => *number,
        }
    }

    /// Whether a process makes it, and pays for it; the host's call has no caller.
    pub fn has_caller(&self) -> bool {
        !matches!(self, Operation::SetDay { .. })
    }
}

impl Action {
    /// The call number of a call on a presented capability.
    pub fn number(&self) -> u32 {
        match self {
            Action::Read { .. } => 2,
            Action::Write { .. } => 3,
            Action::CapInfo => 4,
            Action::DeriveCap { .. } => 5,
            Action::DeleteCap => 6,
            Action::RenameObj { .. } => 7,
            Action::Withdraw { .. } => 8,
            Action::Deposit { .. } => 9,
            Action::Suspend => 10,
            Action::Resume => 11,
            Action::ApplyLock { .. } => 12,
            Action::Send { .. } => 13,
            Action::Revive { .. } => 16,
        }
    }
}

/// The answer to a call. Fields that the call does not use, and all fields but `code` of a
/// refusal, are 0 or empty.
#[derive(Clone, Debug, Default, PartialEq, Eq)]
pub struct Answer {
    /// `DONE`, or the refusal's number.
    pub code: u32,
    /// The new capability of make_obj, derive_cap and rename_obj.
    pub capability: Key,
    /// The window length of cap_info.
    pub length: u32,
    /// The moneyword of cap_info.
    pub moneyword: u32,
    /// The sum of receive.
    pub sum: u32,
    /// The bytes of read and receive: what is written at the answer buffer's front.
    pub bytes: Vec<u8>,
}

impl Answer {
    /// The answer of a refused call.
    pub fn refused(refusal: Refusal) -> Answer {
        Answer { code: refusal.number(), ..Answer::default() }
    }
}
