//! For a call on a store: every condition of the call's list of refusals that can be evaluated,
//! not only the first. A second writing of the refusals, to count coverage and to compare with
//! the kernel's answer.

use reference::call::{call_kind, Action, Call, Key, Name, Operation};
use reference::kernel::{blocks_of, unlocked, Capability, Object, Place, Store};
use reference::numbers::*;

/// A reason for a refusal: the refusal's number and which of its cases.
#[derive(Clone, Copy, Debug, PartialEq, Eq, PartialOrd, Ord)]
pub struct Condition {
    pub refusal: u32,
    pub case: &'static str,
}

/// The conditions that hold, in the papers' order.
pub fn holding(store: &Store, call: &Call) -> Vec<Condition> {
    let mut list = List(Vec::new());
    list.arguments(call);
    if call.operation.has_caller() {
        list.caller(store, call);
    }
    match &call.operation {
        Operation::MakeObj { size, drawn, .. } => list.make_obj(store, *size, drawn.name),
        Operation::Receive => list.receive(store, call.caller),
        Operation::On(key, action) => list.action(store, call, *key, action),
        Operation::SetDay { day } => {
            list.note(*day < store.day, Refusal::EarlierDay, "earlier day");
        }
        Operation::Wait | Operation::Unknown(_) => {}
    }
    list.0
}

/// Puts into a store what the fee of a call that was answered so leaves: by 2 and 3 nothing, by 4
/// the mark, else the fee is paid. A call that has no caller has no fee.
pub fn leave_fee(store: &mut Store, call: &Call, code: u32) {
    let caller = store.objects.get_mut(&call.caller);
    let Some(caller) = caller.filter(|_| call.operation.has_caller()) else {
        return;
    };
    match code {
        OUT_OF_RANGE | NOT_RUNNING => {}
        CANNOT_PAY => caller.terminated = true,
        _ => {
            caller.cash -= fee(call);
            store.house += fee(call);
        }
    }
}

struct List(Vec<Condition>);

impl List {
    fn note(&mut self, holds: bool, refusal: Refusal, case: &'static str) {
        if holds {
            let refusal = refusal.number();
            self.0.push(Condition { refusal, case });
        }
    }

    fn range(&mut self, out_of_range: bool, case: &'static str) {
        self.note(out_of_range, Refusal::OutOfRange, case);
    }

    fn arguments(&mut self, call: &Call) {
        if call.operation.has_caller() {
            self.range(call.caller.volume > MAX_VOLUME, "caller's volume");
            self.range(call.caller.serial > MAX_SERIAL, "caller's serial");
        }
        match &call.operation {
            Operation::MakeObj { size, flag, rights, drawn } => {
                self.range(drawn.name.volume > MAX_VOLUME, "new volume");
                self.range(drawn.name.serial > MAX_SERIAL, "new serial");
                self.range(*size > MAX_SIZE, "size");
                self.range(*flag > 1, "flag");
                self.range(*rights > MAX_RIGHTS, "rights");
            }
            Operation::Receive => self.range(call.buffer < MIN_BUFFER, "buffer"),
            Operation::Wait => {}
            Operation::On(key, action) => {
                self.range(key.name.volume > MAX_VOLUME, "volume");
                self.range(key.name.serial > MAX_SERIAL, "serial");
                self.action_arguments(call, action);
            }
            Operation::SetDay { day } => self.range(*day > MAX_DAY, "day"),
            Operation::Unknown(_) => self.range(true, "unknown call"),
        }
    }

    fn action_arguments(&mut self, call: &Call, action: &Action) {
        match action {
            Action::Read { start, end } => {
                self.transfer(*start, *end);
                self.range(call.buffer < MIN_BUFFER, "buffer");
            }
            Action::Write { start, end, data } => {
                self.transfer(*start, *end);
                let length = u32::try_from(data.len()).ok();
                self.range(end.checked_sub(*start) != length, "data length");
            }
            Action::DeriveCap { mask, start, end, last_day, .. } => {
                self.range(*mask > MAX_RIGHTS, "mask");
                self.range(start > end, "start after end");
                self.range(*last_day > MAX_DAY, "last day");
            }
            Action::DeleteCap | Action::RenameObj { .. } => {
                self.range(call.scratch < MIN_SCRATCH, "scratch");
            }
            Action::ApplyLock { words } => self.range(words[0] >= TOP, "lock word"),
            Action::Send { message, .. } => self.range(message.len() > MAX_MESSAGE, "message"),
            _ => {}
        }
    }

    fn transfer(&mut self, start: u32, end: u32) {
        self.range(start > end, "start after end");
        self.range(end.saturating_sub(start) > MAX_TRANSFER, "over 256 bytes");
    }

    /// 3 and 4; the cash of an absent caller or of a data object cannot be evaluated.
    fn caller(&mut self, store: &Store, call: &Call) {
        let caller = store.objects.get(&call.caller);
        let is = |mark: fn(&Object) -> bool| caller.is_some_and(mark);
        self.note(caller.is_none(), Refusal::NotRunning, "absent");
        self.note(is(|c| !c.process), Refusal::NotRunning, "data object");
        self.note(is(|c| c.suspended), Refusal::NotRunning, "suspended");
        self.note(is(|c| c.waiting), Refusal::NotRunning, "waiting");
        self.note(is(|c| c.terminated), Refusal::NotRunning, "terminated");
        let poor = caller.is_some_and(|c| c.process && c.cash < fee(call));
        self.note(poor, Refusal::CannotPay, "cash below fee");
    }

    fn make_obj(&mut self, store: &Store, size: u32, name: Name) {
        let taken = store.objects.contains_key(&name);
        self.note(taken, Refusal::Taken, "serial");
        let objects = store.objects.len() == MAX_OBJECTS;
        self.note(objects, Refusal::NoSpace, "objects");
        self.no_capability_free(store);
        let blocks = store.used_blocks() + blocks_of(size) > MAX_BLOCKS;
        self.note(blocks, Refusal::NoSpace, "blocks");
    }

    fn no_capability_free(&mut self, store: &Store) {
        let full = store.capabilities.len() == MAX_CAPS;
        self.note(full, Refusal::NoSpace, "capabilities");
    }

    fn receive(&mut self, store: &Store, caller: Name) {
        let caller = store.objects.get(&caller).filter(|c| c.process);
        let empty = caller.is_some_and(|c| c.messages.is_empty());
        self.note(empty, Refusal::BoxEmpty, "empty");
    }

    /// 5, 19 and 6, then what the call adds. Without a capability, what depends on it cannot be
    /// evaluated; what depends on its object, the caller or the arguments alone can.
    fn action(&mut self, store: &Store, call: &Call, key: Key, action: &Action) {
        let found = self.capability(store, call, key);
        if let Some(capability) = found.and_then(|place| store.capabilities.get(&place)) {
            let expired = capability.last_day < store.day;
            self.note(expired, Refusal::Expired, "expired");
            let right = call_kind(action.number()).map_or(0, |kind| kind.right);
            let missing = capability.rights & right == 0;
            self.note(missing, Refusal::RightMissing, "right");
        }
        let look = Look {
            store,
            found,
            name: key.name,
            object: store.objects.get(&key.name),
            cash: cash_after_fee(store, call),
        };
        self.after_right(&look, action);
    }

    /// What each call refuses after 6.
    fn after_right(&mut self, look: &Look, action: &Action) {
        match action {
            Action::Read { start, end } | Action::Write { start, end, .. } => {
                self.window(look, *start, *end);
            }
            Action::DeriveCap { p1, .. } => {
                self.p1_taken(look, *p1);
                self.no_capability_free(look.store);
            }
            Action::RenameObj { p1, .. } => {
                let child = look.capability().is_some_and(|c| c.parent.is_some());
                self.note(child, Refusal::NotMaster, "not a master");
                self.p1_taken(look, *p1);
            }
            Action::Withdraw { sum } => {
                self.on_climb(look, Refusal::TooLittle, |moneyword| moneyword < *sum);
            }
            Action::Deposit { sum } => {
                self.cash_below(look, *sum);
                let passes = |moneyword: u32| moneyword.checked_add(*sum).is_none();
                self.on_climb(look, Refusal::Overflows, passes);
            }
            Action::Suspend | Action::Resume | Action::ApplyLock { .. } => self.target(look),
            Action::Send { sum, .. } => {
                self.target(look);
                self.cash_below(look, *sum);
                let full = |object: &Object| object.messages.len() == MAX_MESSAGES;
                self.note(look.object.is_some_and(full), Refusal::BoxFull, "full");
            }
            Action::Revive { sum } => {
                self.target(look);
                let running = |object: &Object| object.process && !object.terminated;
                let running = look.object.is_some_and(running);
                self.note(running, Refusal::NotRevivable, "not terminated");
                self.note(*sum == 0, Refusal::NotRevivable, "sum 0");
                self.cash_below(look, *sum);
            }
            Action::CapInfo | Action::DeleteCap => {}
        }
    }

    /// 5: what the password finds. For an absent caller and a p1 with its top bit set, nothing
    /// can be said.
    fn capability(&mut self, store: &Store, call: &Call, key: Key) -> Option<Place> {
        let no_object = !store.objects.contains_key(&key.name);
        self.note(no_object, Refusal::NotFound, "no object");
        let lockword = match store.objects.get(&call.caller) {
            Some(caller) => caller.lockword,
            None if key.p1 < TOP => [0, 0],
            None => return None,
        };
        let (p1, p2) = unlocked(key.p1, key.p2, lockword);
        let found = store.capabilities.get(&(key.name, p1));
        let no_p1 = found.is_none() && !no_object;
        self.note(no_p1, Refusal::NotFound, "no such p1");
        let matches = found.is_some_and(|c| c.p2 == p2);
        let wrong_p2 = found.is_some() && !matches;
        self.note(wrong_p2, Refusal::NotFound, "wrong p2");
        matches.then_some((key.name, p1))
    }

    fn window(&mut self, look: &Look, start: u32, end: u32) {
        let Some(found) = look.capability() else {
            return;
        };
        self.note(start < found.start, Refusal::OutsideWindow, "start");
        self.note(end > found.end, Refusal::OutsideWindow, "end");
    }

    fn p1_taken(&mut self, look: &Look, p1: u32) {
        let taken = look.store.capabilities.contains_key(&(look.name, p1));
        let own = look.found == Some((look.name, p1));
        self.note(taken && own, Refusal::Taken, "own p1");
        self.note(taken && !own, Refusal::Taken, "another's p1");
    }

    fn target(&mut self, look: &Look) {
        let data = look.object.is_some_and(|object| !object.process);
        self.note(data, Refusal::NotProcess, "data object");
    }

    fn cash_below(&mut self, look: &Look, sum: u32) {
        let below = look.cash.is_some_and(|cash| cash < sum);
        self.note(below, Refusal::TooLittle, "cash");
    }

    fn on_climb(&mut self, look: &Look, refusal: Refusal, bad: impl Fn(u32) -> bool) {
        let Some(place) = look.found else { return };
        let climb = look.store.climb(place);
        let is_bad = |place: &Place| bad(look.store.moneyword(*place));
        self.note(is_bad(&climb[0]), refusal, "own moneyword");
        let above = climb[1..].iter().any(is_bad);
        self.note(above, refusal, "moneyword above");
    }
}

/// What a call that presents a capability looks at.
struct Look<'a> {
    store: &'a Store,
    found: Option<Place>,
    name: Name,
    object: Option<&'a Object>,
    cash: Option<u32>,
}

impl<'a> Look<'a> {
    fn capability(&self) -> Option<&'a Capability> {
        self.store.capabilities.get(&self.found?)
    }
}

fn fee(call: &Call) -> u32 {
    call_kind(call.operation.number()).map_or(0, |kind| kind.fee)
}

/// The caller's cash when the fee is paid, or as it is when the fee cannot be paid; none if
/// the caller is no process.
fn cash_after_fee(store: &Store, call: &Call) -> Option<u32> {
    let caller = store.objects.get(&call.caller).filter(|c| c.process)?;
    Some(caller.cash.checked_sub(fee(call)).unwrap_or(caller.cash))
}
