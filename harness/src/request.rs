//! A call as the verified kernel takes it: 22 numbers and the bytes that come with it; and its
//! reply, 9 numbers, as an answer. The questions for a window, for the number of passwords and what
//! can be lent, a pick of the loom drive, a read or a write by hook and a bill of royalties have
//! requests of their own.

use reference::call::{Action, Answer, Call, Key, Name, Operation};
use reference::counting::PasswordCount;
use reference::drive::{Pick, Picked, Place, Repeat};
use reference::hooks::Hooked;
use reference::lending::{LendPlace, Wish};
use reference::royalties::{Bill, Billed};

/// The numbers of a request, in the order of the kernel's `Request`.
pub const REQUEST: usize = 22;
/// The numbers of a reply, in the order of the kernel's `Reply`.
pub const REPLY: usize = 9;
/// The numbers of a question for a window: the caller and the capability.
pub const WINDOW_REQUEST: usize = 6;
/// The numbers of its reply: the code, the window's start and its end.
pub const WINDOW_REPLY: usize = 3;
/// The numbers of a question for the number of passwords: the process, the object and the right.
pub const COUNT_REQUEST: usize = 5;
/// The numbers of its reply: the code and the number.
pub const COUNT_REPLY: usize = 2;
/// The numbers of a question what can be lent, beside its list: the caller and the wish.
pub const LEND_REQUEST: usize = 7;
/// The numbers of its reply: the code and the place.
pub const LEND_REPLY: usize = 2;
/// The numbers of a pick: those of the question for a window, the repeat and the place.
pub const PICK_REQUEST: usize = WINDOW_REQUEST + 5;
/// The numbers of its reply: the code, the step, the place, and how many bytes were read.
pub const PICK_REPLY: usize = 5;
/// The numbers of a read or a write by hook: those of that question, and the range. Its reply is a
/// call's.
pub const HOOK_REQUEST: usize = WINDOW_REQUEST + 2;
/// The numbers of a bill: those of that question, the count and the picks.
pub const BILL_REQUEST: usize = WINDOW_REQUEST + 2;
/// The numbers of its reply: the code, the count and the sum.
pub const BILL_REPLY: usize = 3;

/// Everything that a call can bring; what a call does not use is what `filler` says.
#[derive(Clone, Debug)]
pub struct Request {
    pub numbers: [u32; REQUEST],
    pub text: Vec<u8>,
}

const NUMBER: usize = 0;
const CALLER: usize = 1;
const PRESENTED: usize = 3;
const NAME: usize = 7;
const SIZE: usize = 9;
const FLAG: usize = 10;
const RIGHTS: usize = 11;
const DRAWN: usize = 12;
const RANGE: usize = 14;
const SUM: usize = 16;
const LOCK: usize = 17;
const LIMIT: usize = 19;
const LAST_DAY: usize = 20;
const DAY: usize = 21;

impl Request {
    /// The call with `filler` in all fields that it does not use.
    pub fn new(call: &Call, filler: u32) -> Request {
        let mut request = Request { numbers: [filler; REQUEST], text: Vec::new() };
        request.numbers[NUMBER] = call.operation.number();
        request.put(CALLER, &name(call.caller));
        match &call.operation {
            Operation::MakeObj { size, flag, rights, drawn } => {
                request.put(NAME, &name(drawn.name));
                request.put(SIZE, &[*size]);
                request.put(FLAG, &[*flag]);
                request.put(RIGHTS, &[*rights]);
                request.put(DRAWN, &[drawn.p1, drawn.p2]);
            }
            Operation::On(key, action) => {
                request.put(PRESENTED, &name(key.name));
                request.put(PRESENTED + 2, &[key.p1, key.p2]);
                request.act(action);
            }
            Operation::SetDay { day } => request.put(DAY, &[*day]),
            Operation::Receive | Operation::Wait | Operation::Unknown(_) => {}
        }
        request
    }

    /// Whether the call is one that takes a text.
    pub fn takes_text(call: &Call) -> bool {
        let action = match &call.operation {
            Operation::On(_, action) => action,
            _ => return false,
        };
        matches!(action, Action::Write { .. } | Action::Send { .. })
    }

    fn put(&mut self, at: usize, numbers: &[u32]) {
        self.numbers[at..at + numbers.len()].copy_from_slice(numbers);
    }

    fn act(&mut self, action: &Action) {
        match action {
            Action::Read { start, end } => self.put(RANGE, &[*start, *end]),
            Action::Write { start, end, data } => {
                self.put(RANGE, &[*start, *end]);
                self.text.clone_from(data);
            }
            Action::DeriveCap { mask, start, end, limit, last_day, p1, p2 } => {
                self.put(RIGHTS, &[*mask]);
                self.put(RANGE, &[*start, *end]);
                self.put(LIMIT, &[*limit]);
                self.put(LAST_DAY, &[*last_day]);
                self.put(DRAWN, &[*p1, *p2]);
            }
            Action::RenameObj { p1, p2 } => self.put(DRAWN, &[*p1, *p2]),
            Action::Withdraw { sum } | Action::Deposit { sum } | Action::Revive { sum } => {
                self.put(SUM, &[*sum]);
            }
            Action::ApplyLock { words } => self.put(LOCK, words),
            Action::Send { sum, message } => {
                self.put(SUM, &[*sum]);
                self.text.clone_from(message);
            }
            Action::CapInfo | Action::DeleteCap | Action::Suspend | Action::Resume => {}
        }
    }
}

fn name(name: Name) -> [u32; 2] {
    [name.volume, name.serial]
}

/// The answer that a reply gives, with its bytes from the buffer's front.
pub fn answer(reply: [u32; REPLY], buffer: &[u8]) -> Answer {
    let [code, volume, serial, p1, p2, length, moneyword, sum, count] = reply;
    Answer {
        code,
        capability: Key { name: Name { volume, serial }, p1, p2 },
        length,
        moneyword,
        sum,
        bytes: buffer[..count as usize].to_vec(),
    }
}

/// The numbers of a question for the window of a capability that a caller presents.
pub fn window_request(caller: Name, key: Key) -> [u32; WINDOW_REQUEST] {
    let ([volume, serial], [of, number]) = (name(caller), name(key.name));
    [volume, serial, of, number, key.p1, key.p2]
}

/// The numbers of a question for the number of passwords.
pub fn count_request(asked: &PasswordCount) -> [u32; COUNT_REQUEST] {
    let ([volume, serial], [of, number]) = (name(asked.caller), name(asked.object));
    [volume, serial, of, number, asked.right]
}

/// The numbers of a question what can be lent, beside its list.
pub fn lend_request(asked: &LendPlace) -> [u32; LEND_REQUEST] {
    let [volume, serial] = name(asked.caller);
    let Wish { rights, start, end, sum, last_day } = asked.wish;
    [volume, serial, rights, start, end, sum, last_day]
}

/// The numbers of a question for a window, and those that a request has after them.
fn presented<const N: usize>(caller: Name, key: Key, after: &[u32]) -> [u32; N] {
    let mut numbers = [0; N];
    let (question, rest) = numbers.split_at_mut(WINDOW_REQUEST);
    question.copy_from_slice(&window_request(caller, key));
    rest.copy_from_slice(after);
    numbers
}

/// The numbers of a pick.
pub fn pick_request(pick: &Pick) -> [u32; PICK_REQUEST] {
    let Repeat { picks, counts, row } = pick.repeat;
    let Place { next, steps } = pick.place;
    presented(pick.caller, pick.key, &[picks, counts, row, next, steps])
}

/// The numbers of a read or a write by hook.
pub fn hook_request(hooked: &Hooked) -> [u32; HOOK_REQUEST] {
    presented(hooked.caller, hooked.key, &[hooked.start, hooked.end])
}

/// The numbers of a bill.
pub fn bill_request(bill: &Bill) -> [u32; BILL_REQUEST] {
    presented(bill.caller, bill.key, &[bill.count, bill.picks])
}

/// What a pick's reply gives, with its bytes from the buffer's front.
pub fn picked(reply: [u32; PICK_REPLY], buffer: &[u8]) -> Picked {
    let [code, step, next, steps, count] = reply;
    let bytes = buffer[..count as usize].to_vec();
    Picked { code, step, place: Place { next, steps }, bytes }
}

/// What a bill's reply gives.
pub fn billed([code, count, sum]: [u32; BILL_REPLY]) -> Billed {
    Billed { code, count, sum }
}
