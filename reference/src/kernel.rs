//! The kernel of 01 and 02 over ordinary maps: one function per call, refusals in the papers'
//! order.

use crate::call::{call_kind, Action, Answer, Call, Key, Name, Operation};
use crate::numbers::*;
use std::collections::{BTreeMap, BTreeSet, VecDeque};

/// A message: 0 to 16 bytes and a sum.
#[derive(Clone, Debug, Default, PartialEq, Eq)]
pub struct Message {
    pub bytes: Vec<u8>,
    pub sum: u32,
}

/// An object. A data object (`process` false) has lockword, cash and marks 0 and an empty box.
#[derive(Clone, Debug, Default, PartialEq, Eq)]
pub struct Object {
    pub bytes: Vec<u8>,
    pub process: bool,
    pub lockword: [u32; 2],
    pub cash: u32,
    pub suspended: bool,
    pub waiting: bool,
    pub terminated: bool,
    /// The box, oldest message first.
    pub messages: VecDeque<Message>,
}

/// A capability's record; its object and p1 are its place in `Store::capabilities`.
#[derive(Clone, Copy, Debug, PartialEq, Eq)]
pub struct Capability {
    pub p2: u32,
    /// The parent's p1; none for a master.
    pub parent: Option<u32>,
    pub moneyword: u32,
    /// The window's start and end.
    pub start: u32,
    pub end: u32,
    pub rights: u32,
    /// The last day on which it can be presented.
    pub last_day: u32,
}

/// Where a capability is kept: its object and its p1.
pub type Place = (Name, u32);

/// The store in meaning: objects by name, capabilities by object and p1, the house, and the day.
#[derive(Clone, Debug, Default, PartialEq, Eq)]
pub struct Store {
    pub objects: BTreeMap<Name, Object>,
    pub capabilities: BTreeMap<Place, Capability>,
    pub house: u32,
    pub day: u32,
}

/// The four parts of the money total, in the order of the script's `T` line.
#[derive(Clone, Copy, Debug, PartialEq, Eq)]
pub struct Totals {
    pub cash: u64,
    pub moneywords: u64,
    pub boxes: u64,
    pub house: u64,
}

type Outcome = Result<Answer, Refusal>;

impl Object {
    /// The object's size in bytes.
    pub fn size(&self) -> u32 {
        u32::try_from(self.bytes.len()).unwrap_or(u32::MAX)
    }

    /// All sums in the box.
    pub fn box_sum(&self) -> u64 {
        self.messages.iter().map(|m| u64::from(m.sum)).sum()
    }

    /// Whether the object may call: a process without a mark.
    pub fn runs(&self) -> bool {
        self.process && !self.suspended && !self.waiting && !self.terminated
    }
}

impl Capability {
    /// Whether a range lies in the window, also when it is empty.
    pub fn sees(&self, start: u32, end: u32) -> bool {
        self.start <= start && end <= self.end
    }

    /// Whether a day is after its last day.
    pub fn expired(&self, day: u32) -> bool {
        day > self.last_day
    }

    /// The nearest point of the window.
    fn nearest(&self, point: u32) -> u32 {
        point.max(self.start).min(self.end)
    }
}

/// How many blocks an object of this size needs.
pub fn blocks_of(size: u32) -> u32 {
    size.div_ceil(BLOCK_SIZE)
}

/// The password that is looked up: unlocked when its p1 has its top bit set.
pub fn unlocked(p1: u32, p2: u32, lockword: [u32; 2]) -> (u32, u32) {
    if p1 >= TOP {
        (p1 ^ lockword[0], p2 ^ lockword[1])
    } else {
        (p1, p2)
    }
}

pub(crate) fn refuse_if(condition: bool, refusal: Refusal) -> Result<(), Refusal> {
    if condition {
        Err(refusal)
    } else {
        Ok(())
    }
}

/// The fresh store and the look at it.
impl Store {
    /// 01's fresh store.
    pub fn fresh(supply: u32, p1: u32, p2: u32) -> Store {
        let mut store = Store::default();
        let name = Name { volume: 0, serial: 1 };
        store.objects.insert(name, Object { process: true, cash: supply, ..Object::default() });
        store.add_master(Key { name, p1, p2 }, 0, MAX_RIGHTS, 0);
        store
    }

    /// The blocks that all objects hold.
    pub fn used_blocks(&self) -> u32 {
        self.objects.values().map(|o| blocks_of(o.size())).sum()
    }

    /// An object's capabilities with their p1.
    pub fn tree(&self, name: Name) -> impl Iterator<Item = (u32, &Capability)> {
        self.capabilities
            .range((name, 0)..=(name, u32::MAX))
            .map(|(place, capability)| (place.1, capability))
    }

    /// The climb: the capability, its parent and so on up to its master.
    pub fn climb(&self, place: Place) -> Vec<Place> {
        let parent = |at: &Place| Some((at.0, self.capabilities.get(at)?.parent?));
        std::iter::successors(Some(place), parent).collect()
    }

    /// A capability's moneyword.
    pub fn moneyword(&self, place: Place) -> u32 {
        self.capabilities.get(&place).map_or(0, |c| c.moneyword)
    }

    /// The capability and all its descendants.
    pub fn with_descendants(&self, place: Place) -> BTreeSet<Place> {
        let mut found = BTreeSet::from([place]);
        let mut pending = vec![place];
        while let Some((name, p1)) = pending.pop() {
            let children = self.tree(name).filter(|(_, c)| c.parent == Some(p1));
            for (child, _) in children {
                found.insert((name, child));
                pending.push((name, child));
            }
        }
        found
    }

    /// The capability that a presented password finds for this caller.
    pub fn find(&self, caller: Name, key: Key) -> Option<Place> {
        let lockword = self.objects.get(&caller).map_or([0, 0], |o| o.lockword);
        let (p1, p2) = unlocked(key.p1, key.p2, lockword);
        let place = (key.name, p1);
        (self.capabilities.get(&place)?.p2 == p2).then_some(place)
    }

    /// The money total's four parts.
    pub fn totals(&self) -> Totals {
        let objects = || self.objects.values();
        let masters = self.capabilities.values().filter(|c| c.parent.is_none());
        Totals {
            cash: objects().map(|o| u64::from(o.cash)).sum(),
            moneywords: masters.map(|c| u64::from(c.moneyword)).sum(),
            boxes: objects().map(Object::box_sum).sum(),
            house: u64::from(self.house),
        }
    }

    fn add_master(&mut self, key: Key, size: u32, rights: u32, moneyword: u32) {
        let master = Capability {
            p2: key.p2,
            parent: None,
            moneyword,
            start: 0,
            end: size,
            rights,
            last_day: MAX_DAY,
        };
        self.capabilities.insert((key.name, key.p1), master);
    }
}

/// Refusal 2: the argument ranges.
fn check_arguments(call: &Call) -> Result<(), Refusal> {
    let ranges = match &call.operation {
        Operation::MakeObj { size, flag, rights, drawn } => {
            in_range(drawn.name) && *size <= MAX_SIZE && *flag <= 1 && *rights <= MAX_RIGHTS
        }
        Operation::Receive => call.buffer >= MIN_BUFFER,
        Operation::Wait => true,
        Operation::On(key, action) => in_range(key.name) && action_in_range(call, action),
        Operation::SetDay { day } => *day <= MAX_DAY,
        Operation::Unknown(_) => false,
    };
    let caller = !call.operation.has_caller() || in_range(call.caller);
    refuse_if(!(ranges && caller), Refusal::OutOfRange)
}

pub(crate) fn in_range(name: Name) -> bool {
    name.volume <= MAX_VOLUME && name.serial <= MAX_SERIAL
}

fn action_in_range(call: &Call, action: &Action) -> bool {
    match action {
        Action::Read { start, end } => short_range(*start, *end) && call.buffer >= MIN_BUFFER,
        Action::Write { start, end, data } => {
            short_range(*start, *end) && data.len() == (*end - *start) as usize
        }
        Action::DeriveCap { mask, start, end, last_day, .. } => {
            *mask <= MAX_RIGHTS && start <= end && *last_day <= MAX_DAY
        }
        Action::DeleteCap | Action::RenameObj { .. } => call.scratch >= MIN_SCRATCH,
        Action::ApplyLock { words } => words[0] < TOP,
        Action::Send { message, .. } => message.len() <= MAX_MESSAGE,
        Action::CapInfo | Action::Withdraw { .. } | Action::Deposit { .. } => true,
        Action::Suspend | Action::Resume | Action::Revive { .. } => true,
    }
}

fn short_range(start: u32, end: u32) -> bool {
    start <= end && end - start <= MAX_TRANSFER
}

/// The calls.
impl Store {
    /// Runs one call and gives its answer.
    pub fn run(&mut self, call: &Call) -> Answer {
        self.attempt(call).unwrap_or_else(Answer::refused)
    }

    fn attempt(&mut self, call: &Call) -> Outcome {
        check_arguments(call)?;
        if call.operation.has_caller() {
            self.check_caller(call.caller)?;
            self.pay_fee(call)?;
        }
        match &call.operation {
            Operation::MakeObj { size, flag, rights, drawn } => {
                self.make_obj(*drawn, *size, *flag == 1, *rights)
            }
            Operation::Receive => self.receive(call.caller),
            Operation::Wait => self.wait(call.caller),
            Operation::On(key, action) => self.act(call.caller, *key, action),
            Operation::SetDay { day } => self.set_day(*day),
            Operation::Unknown(_) => Err(Refusal::OutOfRange),
        }
    }

    /// Refusal 3.
    pub(crate) fn check_caller(&self, caller: Name) -> Result<(), Refusal> {
        let runs = self.objects.get(&caller).is_some_and(Object::runs);
        refuse_if(!runs, Refusal::NotRunning)
    }

    /// Refusal 4, or the fee goes to the house.
    fn pay_fee(&mut self, call: &Call) -> Result<(), Refusal> {
        let fee = call_kind(call.operation.number()).map_or(0, |kind| kind.fee);
        let caller = self.object(call.caller)?;
        if caller.cash < fee {
            caller.terminated = true;
            return Err(Refusal::CannotPay);
        }
        caller.cash -= fee;
        self.house += fee;
        Ok(())
    }

    /// Refusals 5, 19, which is "right after 5 in every call", and 6: the capability that is
    /// presented, which must not be expired and must have the right.
    pub(crate) fn presented(&self, caller: Name, key: Key, right: u32) -> Result<Place, Refusal> {
        let at = self.find(caller, key).ok_or(Refusal::NotFound)?;
        let found = self.capability(at)?;
        refuse_if(found.expired(self.day), Refusal::Expired)?;
        refuse_if(found.rights & right == 0, Refusal::RightMissing)?;
        Ok(at)
    }

    /// A call that presents a capability: refusals 5, 19 and 6, then the call itself.
    fn act(&mut self, caller: Name, key: Key, action: &Action) -> Outcome {
        let right = call_kind(action.number()).map_or(0, |kind| kind.right);
        let at = self.presented(caller, key, right)?;
        match action {
            Action::Read { start, end } => self.read(at, *start, *end),
            Action::Write { start, end, data } => self.write(at, *start, *end, data),
            Action::CapInfo => self.cap_info(at),
            Action::DeriveCap { mask, start, end, limit, last_day, p1, p2 } => {
                let most = (*limit, *last_day);
                self.derive_cap(at, *mask, (*start, *end), most, (*p1, *p2))
            }
            Action::DeleteCap => self.delete_cap(at),
            Action::RenameObj { p1, p2 } => self.rename_obj(at, *p1, *p2),
            Action::Withdraw { sum } => self.withdraw(caller, at, *sum),
            Action::Deposit { sum } => self.deposit(caller, at, *sum),
            Action::Suspend => self.suspend(at, true),
            Action::Resume => self.suspend(at, false),
            Action::ApplyLock { words } => self.apply_lock(at, *words),
            Action::Send { sum, message } => self.send(caller, at, *sum, message),
            Action::Revive { sum } => self.revive(caller, at, *sum),
        }
    }

    fn make_obj(&mut self, drawn: Key, size: u32, process: bool, rights: u32) -> Outcome {
        refuse_if(self.objects.contains_key(&drawn.name), Refusal::Taken)?;
        let full = self.objects.len() >= MAX_OBJECTS
            || self.capabilities.len() >= MAX_CAPS
            || self.used_blocks() + blocks_of(size) > MAX_BLOCKS;
        refuse_if(full, Refusal::NoSpace)?;
        let object = Object {
            bytes: vec![0; size as usize],
            process,
            suspended: process,
            ..Object::default()
        };
        self.objects.insert(drawn.name, object);
        self.add_master(drawn, size, rights, 0);
        Ok(new_capability(drawn))
    }

    fn read(&self, at: Place, start: u32, end: u32) -> Outcome {
        let window = self.capability(at)?;
        refuse_if(!window.sees(start, end), Refusal::OutsideWindow)?;
        let object = self.objects.get(&at.0).ok_or(Refusal::NotFound)?;
        Ok(Answer {
            bytes: object.bytes[start as usize..end as usize].to_vec(),
            ..Answer::default()
        })
    }

    fn write(&mut self, at: Place, start: u32, end: u32, data: &[u8]) -> Outcome {
        let window = self.capability(at)?;
        refuse_if(!window.sees(start, end), Refusal::OutsideWindow)?;
        self.object(at.0)?.bytes[start as usize..end as usize].copy_from_slice(data);
        Ok(Answer::default())
    }

    fn cap_info(&self, at: Place) -> Outcome {
        let found = self.capability(at)?;
        Ok(Answer {
            length: found.end - found.start,
            moneyword: found.moneyword,
            ..Answer::default()
        })
    }

    fn derive_cap(
        &mut self,
        at: Place,
        mask: u32,
        (start, end): (u32, u32),
        (limit, last_day): (u32, u32),
        (p1, p2): (u32, u32),
    ) -> Outcome {
        let name = at.0;
        refuse_if(self.capabilities.contains_key(&(name, p1)), Refusal::Taken)?;
        let full = self.capabilities.len() >= MAX_CAPS;
        refuse_if(full, Refusal::NoSpace)?;
        let parent = *self.capability(at)?;
        let child = Capability {
            p2,
            parent: Some(at.1),
            moneyword: limit.min(parent.moneyword),
            start: parent.nearest(start),
            end: parent.nearest(end),
            rights: parent.rights & mask,
            last_day: last_day.min(parent.last_day),
        };
        self.capabilities.insert((name, p1), child);
        Ok(new_capability(Key { name, p1, p2 }))
    }

    fn delete_cap(&mut self, at: Place) -> Outcome {
        let found = *self.capability(at)?;
        let ended = self.with_descendants(at);
        self.capabilities.retain(|place, _| !ended.contains(place));
        if found.parent.is_none() {
            let object = self.objects.remove(&at.0);
            let object = object.ok_or(Refusal::NotFound)?;
            let sums: u32 = object.messages.iter().map(|m| m.sum).sum();
            self.house += found.moneyword + object.cash + sums;
        }
        Ok(Answer::default())
    }

    fn rename_obj(&mut self, at: Place, p1: u32, p2: u32) -> Outcome {
        let old = *self.capability(at)?;
        let name = at.0;
        refuse_if(old.parent.is_some(), Refusal::NotMaster)?;
        refuse_if(self.capabilities.contains_key(&(name, p1)), Refusal::Taken)?;
        self.capabilities.retain(|place, _| place.0 != name);
        let key = Key { name, p1, p2 };
        self.add_master(key, old.end, old.rights, old.moneyword);
        Ok(new_capability(key))
    }

    fn withdraw(&mut self, caller: Name, at: Place, sum: u32) -> Outcome {
        let climb = self.climb(at);
        let short = climb.iter().any(|place| self.moneyword(*place) < sum);
        refuse_if(short, Refusal::TooLittle)?;
        for place in climb {
            self.capability_mut(place)?.moneyword -= sum;
        }
        self.object(caller)?.cash += sum;
        Ok(Answer::default())
    }

    fn deposit(&mut self, caller: Name, at: Place, sum: u32) -> Outcome {
        self.check_cash(caller, sum)?;
        let climb = self.climb(at);
        let grown = |place: &Place| self.moneyword(*place).checked_add(sum);
        let passes = climb.iter().any(|place| grown(place).is_none());
        refuse_if(passes, Refusal::Overflows)?;
        for place in climb {
            self.capability_mut(place)?.moneyword += sum;
        }
        self.object(caller)?.cash -= sum;
        Ok(Answer::default())
    }

    fn suspend(&mut self, at: Place, mark: bool) -> Outcome {
        self.process(at)?.suspended = mark;
        Ok(Answer::default())
    }

    fn apply_lock(&mut self, at: Place, words: [u32; 2]) -> Outcome {
        let target = self.process(at)?;
        target.lockword = [target.lockword[0] ^ words[0], target.lockword[1] ^ words[1]];
        Ok(Answer::default())
    }

    fn send(&mut self, caller: Name, at: Place, sum: u32, message: &[u8]) -> Outcome {
        self.process(at)?;
        self.check_cash(caller, sum)?;
        let target = self.process(at)?;
        refuse_if(target.messages.len() >= MAX_MESSAGES, Refusal::BoxFull)?;
        let bytes = message.to_vec();
        target.messages.push_back(Message { bytes, sum });
        target.waiting = false;
        self.object(caller)?.cash -= sum;
        Ok(Answer::default())
    }

    fn receive(&mut self, caller: Name) -> Outcome {
        let receiver = self.object(caller)?;
        let message = receiver.messages.pop_front().ok_or(Refusal::BoxEmpty)?;
        receiver.cash += message.sum;
        Ok(Answer { sum: message.sum, bytes: message.bytes, ..Answer::default() })
    }

    fn wait(&mut self, caller: Name) -> Outcome {
        let process = self.object(caller)?;
        if process.messages.is_empty() {
            process.waiting = true;
        }
        Ok(Answer::default())
    }

    /// The host's call: refusal 20, or the day is the store's.
    fn set_day(&mut self, day: u32) -> Outcome {
        refuse_if(day < self.day, Refusal::EarlierDay)?;
        self.day = day;
        Ok(Answer::default())
    }

    fn revive(&mut self, caller: Name, at: Place, sum: u32) -> Outcome {
        let target = self.process(at)?;
        refuse_if(!target.terminated || sum == 0, Refusal::NotRevivable)?;
        self.check_cash(caller, sum)?;
        self.object(caller)?.cash -= sum;
        let target = self.process(at)?;
        target.terminated = false;
        target.cash += sum;
        Ok(Answer::default())
    }
}

fn new_capability(capability: Key) -> Answer {
    Answer { capability, ..Answer::default() }
}

/// 02's question about a window, which is free and changes nothing.
impl Store {
    /// The start and end of the window "of a capability presented by a caller, under READ, with
    /// read's 1, 2, 3, 5 and 6", and 19 right after 5.
    pub fn window(&self, caller: Name, key: Key) -> Result<(u32, u32), Refusal> {
        let ranges = in_range(caller) && in_range(key.name);
        refuse_if(!ranges, Refusal::OutOfRange)?;
        self.check_caller(caller)?;
        let at = self.presented(caller, key, right::READ)?;
        let found = self.capability(at)?;
        Ok((found.start, found.end))
    }
}

/// Look-ups that succeed on every well-formed store; they refuse instead of panicking.
impl Store {
    fn object(&mut self, name: Name) -> Result<&mut Object, Refusal> {
        self.objects.get_mut(&name).ok_or(Refusal::NotRunning)
    }

    fn capability(&self, at: Place) -> Result<&Capability, Refusal> {
        self.capabilities.get(&at).ok_or(Refusal::NotFound)
    }

    fn capability_mut(&mut self, at: Place) -> Result<&mut Capability, Refusal> {
        self.capabilities.get_mut(&at).ok_or(Refusal::NotFound)
    }

    /// Refusal 8: the capability's object, which must be a process.
    fn process(&mut self, at: Place) -> Result<&mut Object, Refusal> {
        let target = self.object(at.0)?;
        refuse_if(!target.process, Refusal::NotProcess)?;
        Ok(target)
    }

    /// Refusal 9 of deposit, send and revive.
    fn check_cash(&mut self, caller: Name, sum: u32) -> Result<(), Refusal> {
        let cash = self.object(caller)?.cash;
        refuse_if(cash < sum, Refusal::TooLittle)
    }
}
