//! A deterministic, seeded generator of calls and scripts. It looks at the store that runs
//! beside it, so that most calls are done, and spoils some arguments, so that every refusal
//! is met.

use crate::profiles::Profile;
use crate::random::Random;
use reference::call::{call_kind, Action, Call, Key, Name, Operation, SET_DAY};
use reference::kernel::{Capability, Object, Place, Store};
use reference::numbers::*;
use reference::script;

/// The generator of one run.
pub struct Generator {
    pub(crate) random: Random,
    profile: Profile,
    /// Whether the call being made may have faults.
    careless: bool,
    /// Where the last derive_cap was to put its capability, and the last one that was put.
    drawn: Option<Place>,
    newest: Option<Place>,
}

impl Generator {
    pub fn new(profile: Profile, seed: u64) -> Generator {
        let mut random = Random::new(seed);
        random.bits();
        Generator { random, profile, careless: false, drawn: None, newest: None }
    }

    /// Line one: supply, p1, p2.
    pub fn first(&mut self) -> [u32; 3] {
        let (least, largest) = self.profile.supply;
        [self.random.between(least, largest), self.drawn_p1(), self.word()]
    }

    /// Draws whether the next call may have faults.
    pub(crate) fn draw_care(&mut self) {
        self.careless = self.random.chance(self.profile.careless);
    }

    pub(crate) fn fault(&mut self) -> bool {
        self.careless && self.random.chance(self.profile.fault)
    }

    /// A 32-bit number, often a small or an extreme one.
    fn word(&mut self) -> u32 {
        match self.random.below(8) {
            0..=3 => self.random.below(100),
            4 => u32::MAX - self.random.below(2),
            5 => TOP - self.random.below(2),
            _ => self.random.between(0, u32::MAX),
        }
    }

    fn drawn_p1(&mut self) -> u32 {
        let top = u32::from(self.random.chance(self.profile.top_bit)) * TOP;
        let number =
            if self.random.chance(200) { self.word() } else { self.random.between(0, u32::MAX) };
        (number & (TOP - 1)) | top
    }

    /// The next call for this store. Most calls that would leave the running processes without
    /// cash are drawn again.
    pub fn next_call(&mut self, store: &Store) -> Call {
        let mut call = self.any_call(store);
        for _ in 0..20 {
            if !strands(store, &call) || self.random.chance(self.profile.strand) {
                break;
            }
            call = self.any_call(store);
        }
        call
    }

    fn any_call(&mut self, store: &Store) -> Call {
        self.draw_care();
        let number = self.number();
        if number == SET_DAY {
            return self.set_day(store);
        }
        let caller = self.caller(store, number);
        let operation = match number {
            1 => self.make_obj(store),
            14 => Operation::Receive,
            15 => Operation::Wait,
            0 => Operation::Unknown(self.unknown()),
            _ => {
                let place = self.target(store, caller, number);
                let action = self.action(store, caller, place, number);
                Operation::On(self.present(store, caller, place), action)
            }
        };
        Call {
            caller,
            operation,
            buffer: self.length(MIN_BUFFER),
            scratch: self.length(MIN_SCRATCH),
        }
    }

    /// A call number by the profile's weights; 0 stands for the unknown ones.
    fn number(&mut self) -> u32 {
        let total = self.profile.weights.iter().sum();
        let mut left = self.random.below(total);
        for (number, weight) in (1..=SET_DAY).zip(self.profile.weights) {
            if left < weight {
                return number;
            }
            left -= weight;
        }
        0
    }

    fn unknown(&mut self) -> u32 {
        let number = self.random.pick(&[0, 18, 19, 255, 256, 257, 273, 65_537, 65_553]);
        number.unwrap_or(u32::MAX)
    }

    /// The host's call, with anyone as its caller, and any buffer and scratch.
    fn set_day(&mut self, store: &Store) -> Call {
        let mut caller = self.caller(store, SET_DAY);
        match self.random.below(4) {
            0 => caller = self.drawn_name(),
            1 => caller = self.out_of_range(caller),
            _ => {}
        }
        Call {
            caller,
            operation: Operation::SetDay { day: self.day(store.day) },
            buffer: self.random.below(2 * MIN_BUFFER as u32) as usize,
            scratch: self.random.below(2 * MIN_SCRATCH as u32) as usize,
        }
    }

    /// A new day: mostly the next or one soon after, else the same or an earlier one, now and then a
    /// far later one, and rarely the last of all; by a fault out of range.
    fn day(&mut self, day: u32) -> u32 {
        if self.fault() {
            return self.day_out_of_range();
        }
        let later = match self.random.below(24) {
            0..=2 => day,
            3 | 4 => day.saturating_sub(self.random.between(1, 3)),
            5 => self.random.between(0, day),
            6 => day + self.random.between(10, 300),
            7 if self.random.chance(100) => MAX_DAY - self.random.below(2),
            _ => day + self.random.between(1, 3),
        };
        later.min(MAX_DAY)
    }

    pub(crate) fn day_out_of_range(&mut self) -> u32 {
        self.random
            .pick(&[MAX_DAY + 1, MAX_DAY + 2, 2 * MAX_DAY, TOP, MAX_WORD])
            .unwrap_or(MAX_WORD)
    }

    /// derive_cap's last day: often near the store's day, so that it is over soon or already; else
    /// near the parent's, anywhere, or the last of all; by a fault out of range.
    fn last_day(&mut self, day: u32, parent: u32) -> u32 {
        if self.fault() {
            return self.day_out_of_range();
        }
        let last = if self.random.chance(self.profile.seasons) {
            match self.random.below(6) {
                0 => day.saturating_sub(1),
                1 => day,
                2 => day + 1,
                _ => day + self.random.between(0, 12),
            }
        } else {
            match self.random.below(12) {
                0 => parent,
                1 => parent + 1,
                2 => parent.saturating_sub(1).max(day),
                3 => self.random.between(day, MAX_DAY),
                _ => MAX_DAY,
            }
        };
        last.min(MAX_DAY)
    }

    /// The length of an answer buffer or a scratch of which so many are needed; now and then it is
    /// far longer.
    pub(crate) fn length(&mut self, needed: usize) -> usize {
        if self.fault() {
            needed - 1 - self.random.below(2) as usize
        } else {
            let more = if self.random.chance(100) { 5_000 } else { 1 };
            needed + self.random.between(0, more) as usize
        }
    }

    pub(crate) fn out_of_range(&mut self, name: Name) -> Name {
        match self.random.below(4) {
            0 => Name { volume: MAX_VOLUME + 1, ..name },
            1 => Name { volume: u32::MAX, ..name },
            2 => Name { serial: MAX_SERIAL + 1, ..name },
            _ => Name { serial: u32::MAX, ..name },
        }
    }

    pub(crate) fn drawn_name(&mut self) -> Name {
        Name {
            volume: self.random.below(MAX_VOLUME + 1),
            serial: match self.random.below(40) {
                0 => 0,
                1 => MAX_SERIAL,
                _ => self.random.below(self.profile.serials),
            },
        }
    }

    /// The caller: mostly a running process that can pay.
    pub(crate) fn caller(&mut self, store: &Store, number: u32) -> Name {
        let fee = call_kind(number).map_or(0, |kind| kind.fee);
        let names = |wanted: &dyn Fn(&Object) -> bool| -> Vec<Name> {
            let wanted = store.objects.iter().filter(|(_, object)| wanted(object));
            wanted.map(|(name, _)| *name).collect()
        };
        let poor = |o: &Object| o.process && o.cash < fee;
        let chosen = if self.fault() {
            names(&|object| !object.runs())
        } else if self.fault() {
            names(&poor)
        } else if self.random.chance(60) {
            names(&|object| object.runs() && poor(object))
        } else if self.random.chance(200) && number == 14 {
            names(&|object| object.runs() && !object.messages.is_empty())
        } else {
            names(&|object| object.runs() && object.cash >= fee)
        };
        let running = || names(&Object::runs);
        let chosen = if chosen.is_empty() { running() } else { chosen };
        let picked = self.random.pick(&chosen);
        let name = picked.unwrap_or_else(|| self.drawn_name());
        if self.fault() {
            self.out_of_range(name)
        } else if self.fault() {
            self.drawn_name()
        } else {
            name
        }
    }

    fn make_obj(&mut self, store: &Store) -> Operation {
        let taken: Vec<Name> = store.objects.keys().copied().collect();
        let mut name = self.drawn_name();
        if self.fault() {
            name = self.random.pick(&taken).unwrap_or(name);
        }
        if self.fault() {
            name = self.out_of_range(name);
        }
        Operation::MakeObj {
            size: self.size(),
            flag: if self.fault() {
                2
            } else {
                u32::from(self.random.chance(self.profile.process))
            },
            rights: self.rights(),
            drawn: Key { name, p1: self.drawn_p1(), p2: self.word() },
        }
    }

    fn size(&mut self) -> u32 {
        if self.fault() {
            return self.random.pick(&[MAX_SIZE + 1, 2 * MAX_SIZE, u32::MAX]).unwrap_or(0);
        }
        match self.random.below(4) {
            0 => BLOCK_SIZE * self.random.between(0, self.profile.size / BLOCK_SIZE),
            1 => self.profile.size,
            _ => self.random.between(0, self.profile.size),
        }
    }

    /// Rights or a mask: mostly all, sometimes some.
    fn rights(&mut self) -> u32 {
        if self.fault() {
            return MAX_RIGHTS + 1 + self.random.below(3);
        }
        if !self.random.chance(self.profile.restricted) {
            MAX_RIGHTS
        } else if self.random.chance(300) {
            self.random.between(0, MAX_RIGHTS)
        } else {
            MAX_RIGHTS & !(1 << self.random.below(13))
        }
    }

    /// The capability to present: mostly one that the call can be done with.
    pub(crate) fn target(&mut self, store: &Store, caller: Name, number: u32) -> Option<Place> {
        let right = call_kind(number).map_or(0, |kind| kind.right);
        let lacking = self.fault() || self.fault();
        let expired = self.fault() || self.random.chance(40);
        // no master is expired
        let unsuited = self.fault() || self.fault() || (expired && number == 7);
        let own = self.random.chance(self.profile.own);
        let from_master = number == 5 && self.random.chance(self.profile.master);
        if let Some(place) = self.derived_from(store, number) {
            return Some(place);
        }
        let suits = |(place, capability): &(&Place, &Capability)| {
            (lacking != (capability.rights & right != 0))
                && expired == capability.expired(store.day)
                && (unsuited || suits(number, store.objects.get(&place.0), capability))
                && (!from_master || capability.parent.is_none())
        };
        let places = |only_own: bool| -> Vec<Place> {
            let all = store.capabilities.iter().filter(suits);
            let all = all.map(|(place, _)| *place);
            all.filter(|place| !only_own || place.0 == caller).collect()
        };
        let picked = if own { self.random.pick(&places(true)) } else { None };
        let picked = picked.or_else(|| self.random.pick(&places(false)));
        let all: Vec<Place> = store.capabilities.keys().copied().collect();
        picked.or_else(|| self.random.pick(&all))
    }

    /// The capability to present, and its window: mostly it is not empty.
    pub(crate) fn window(
        &mut self,
        store: &Store,
        caller: Name,
        number: u32,
    ) -> (Option<Place>, (u32, u32)) {
        let mut drawn = (None, (0, 0));
        for _ in 0..4 {
            let target = self.target(store, caller, number);
            let found = target.and_then(|place| store.capabilities.get(&place));
            drawn = (target, found.map_or((0, 0), |c| (c.start, c.end)));
            let (start, end) = drawn.1;
            if start < end {
                break;
            }
        }
        drawn
    }

    /// The newest capability, for a derive_cap that starts from it; not an expired one.
    fn derived_from(&mut self, store: &Store, number: u32) -> Option<Place> {
        if self.drawn.is_some_and(|drawn| store.capabilities.contains_key(&drawn)) {
            self.newest = self.drawn;
        }
        let newest = self.newest?;
        let found = store.capabilities.get(&newest);
        let lives = found.is_some_and(|newest| !newest.expired(store.day));
        (number == 5 && lives && self.random.chance(self.profile.newest)).then_some(newest)
    }

    /// How the capability is presented: unlocked the right way, or spoilt.
    pub(crate) fn present(&mut self, store: &Store, caller: Name, place: Option<Place>) -> Key {
        let (name, p1) = place.unwrap_or((self.drawn_name(), self.drawn_p1()));
        let found = place.and_then(|place| store.capabilities.get(&place));
        let mut key = Key { name, p1, p2: found.map_or(0, |capability| capability.p2) };
        let lockword = store.objects.get(&caller).map_or([0, 0], |o| o.lockword);
        let locked = p1 >= TOP;
        // A fault is to lock a p1 without its top bit, or not to lock one with it.
        if locked != self.fault() {
            key.p1 ^= lockword[0];
            key.p2 ^= lockword[1];
        }
        if self.fault() {
            key.p2 = key.p2.wrapping_add(1);
        }
        if self.fault() {
            key.p1 = self.drawn_p1();
        }
        if self.fault() {
            key.name = self.drawn_name();
        }
        if self.fault() {
            key.name = self.out_of_range(key.name);
        }
        key
    }

    fn action(&mut self, store: &Store, caller: Name, place: Option<Place>, number: u32) -> Action {
        let found = place.and_then(|place| store.capabilities.get(&place));
        let (start, end) = self.range(found);
        let cash = store.objects.get(&caller).map_or(0, |o| o.cash);
        let fee = call_kind(number).map_or(0, |kind| kind.fee);
        let cash = cash.saturating_sub(fee);
        match number {
            2 => Action::Read { start, end },
            3 => Action::Write { start, end, data: self.data(start, end) },
            4 => Action::CapInfo,
            5 => self.derive_cap(store, place, found),
            6 => Action::DeleteCap,
            7 => Action::RenameObj { p1: self.new_p1(store, place), p2: self.word() },
            8 => Action::Withdraw { sum: self.sum(place.map_or(0, |place| limit(store, place))) },
            9 => Action::Deposit { sum: self.sum(cash) },
            10 => Action::Suspend,
            11 => Action::Resume,
            12 => Action::ApplyLock { words: [self.lock_word(), self.word()] },
            13 => Action::Send { sum: self.sum(cash / 4), message: self.message() },
            _ => Action::Revive { sum: self.revival(cash) },
        }
    }

    /// A range for read or write: mostly inside the window.
    fn range(&mut self, found: Option<&Capability>) -> (u32, u32) {
        let (low, high) = found.map_or((0, 100), |c| (c.start, c.end));
        let mut start = self.random.between(low, high);
        if self.random.chance(200) {
            start = low;
        }
        let end = self.random.between(start, high.min(start + MAX_TRANSFER));
        self.spoilt_range((start, end), (low, high))
    }

    /// The range, by faults outside the window, too long or with its ends exchanged.
    pub(crate) fn spoilt_range(
        &mut self,
        (mut start, mut end): (u32, u32),
        (low, high): (u32, u32),
    ) -> (u32, u32) {
        if self.fault() {
            end = high + 1 + self.random.below(3);
        }
        if self.fault() {
            start = low.saturating_sub(1 + self.random.below(3));
        }
        if self.fault() {
            end = start.saturating_add(MAX_TRANSFER + 1);
        }
        if self.fault() {
            (start, end) = (end, start);
        }
        if self.fault() {
            end = self.word();
        }
        (start, end)
    }

    /// The data of a write to this range; by a fault a byte more or less.
    pub(crate) fn data(&mut self, start: u32, end: u32) -> Vec<u8> {
        let mut length = end.saturating_sub(start).min(2 * MAX_TRANSFER) as usize;
        if self.fault() {
            length = if self.random.chance(500) { length + 1 } else { length.saturating_sub(1) };
        }
        self.random.bytes(length)
    }

    fn derive_cap(
        &mut self,
        store: &Store,
        place: Option<Place>,
        found: Option<&Capability>,
    ) -> Action {
        let p1 = self.new_p1(store, place);
        let drawn = place.map(|(name, _)| (name, p1));
        self.drawn = drawn.filter(|drawn| !store.capabilities.contains_key(drawn));
        let size = found.map_or(0, |c| c.end);
        let (mut start, mut end) = match self.random.below(6) {
            0 => (self.word(), self.word()),
            1 | 2 => (self.random.between(0, size + 10), self.random.between(0, size + 10)),
            _ => (0, u32::MAX),
        };
        if (start > end) != self.fault() {
            (start, end) = (end, start);
        }
        let limit = self.limit(found.map_or(0, |c| c.moneyword));
        let last_day = self.last_day(store.day, found.map_or(0, |c| c.last_day));
        let mask = self.rights();
        Action::DeriveCap { mask, start, end, limit, last_day, p1, p2: self.word() }
    }

    /// derive_cap's limit beside the parent's moneyword: below, at or above it, a line's default, or
    /// the largest.
    fn limit(&mut self, moneyword: u32) -> u32 {
        match self.random.below(12) {
            0..=2 => DEFAULT_LIMIT,
            3 => moneyword,
            4 => moneyword.saturating_add(self.random.between(1, 3)),
            5 | 6 => self.random.between(0, moneyword),
            7 => self.word(),
            _ => MAX_WORD,
        }
    }

    /// A drawn p1, sometimes one that is taken in the object.
    fn new_p1(&mut self, store: &Store, place: Option<Place>) -> u32 {
        let Some((name, own)) = place.filter(|_| self.fault() || self.fault()) else {
            return self.drawn_p1();
        };
        let taken: Vec<u32> = store.tree(name).map(|(p1, _)| p1).collect();
        let picked = self.random.pick(&taken);
        picked.filter(|_| self.random.chance(700)).unwrap_or(own)
    }

    /// A sum: mostly up to the limit, often just the limit.
    fn sum(&mut self, limit: u32) -> u32 {
        if self.fault() {
            return limit.saturating_add(1);
        }
        if self.fault() {
            return self.word().max(self.word());
        }
        if self.random.chance(self.profile.all) {
            return limit;
        }
        match self.random.below(5) {
            0 => self.random.between(0, limit),
            1 => 0,
            _ => self.random.between(0, limit.min(1000)),
        }
    }

    fn revival(&mut self, cash: u32) -> u32 {
        if self.fault() {
            return 0;
        }
        if self.fault() || cash == 0 {
            return self.random.between(1, 10).saturating_add(cash);
        }
        self.random.between(1, cash.min(500))
    }

    fn lock_word(&mut self) -> u32 {
        if self.fault() {
            TOP + self.random.below(2)
        } else {
            self.word() & (TOP - 1)
        }
    }

    fn message(&mut self) -> Vec<u8> {
        let longest = MAX_MESSAGE as u32;
        let length = if self.fault() {
            longest + 1 + self.random.below(3)
        } else {
            self.random.between(0, longest)
        };
        self.random.bytes(length as usize)
    }

    /// A script line for this store, and whether it is a malformed one, which changes nothing.
    pub fn next_line(&mut self, store: &Store) -> (Vec<u8>, Option<Call>) {
        let call = self.next_call(store);
        let call = script::read_call(&script::call_numbers(&call)).unwrap_or(call);
        let numbers: Vec<String> = self.line_numbers(&call).iter().map(u32::to_string).collect();
        let line = numbers.join(" ").into_bytes();
        if self.random.chance(self.profile.malformed) {
            (self.mangled(line), None)
        } else {
            (line, Some(call))
        }
    }

    /// The numbers of the call's line; most of those with the default last day leave it out, and
    /// most of these, where the limit is the default one, that too.
    fn line_numbers(&mut self, call: &Call) -> Vec<u32> {
        let mut numbers = script::call_numbers(call);
        let Operation::On(_, Action::DeriveCap { limit, last_day, .. }) = call.operation else {
            return numbers;
        };
        // each stands before p1 and p2, when those after it are out
        for default in [last_day == DEFAULT_LAST_DAY, limit == DEFAULT_LIMIT] {
            if !(default && self.random.chance(750)) {
                break;
            }
            numbers.remove(numbers.len() - 3);
        }
        numbers
    }

    /// A line with one thing wrong.
    fn mangled(&mut self, mut line: Vec<u8>) -> Vec<u8> {
        let spaces: Vec<usize> = (0..line.len()).filter(|at| line[*at] == b' ').collect();
        let space = self.random.pick(&spaces).unwrap_or(0);
        match self.random.below(12) {
            0 => line.clear(),
            1 => line.insert(space, b' '),
            2 => line.insert(space + 1, b'0'),
            3 => line.push(b' '),
            4 => line.insert(0, b' '),
            5 => line.push(b'\r'),
            6 => line[space] = self.random.pick(&[0, b'\t', b'a', b'-', b',', 0xff]).unwrap_or(0),
            7 => line.extend_from_slice(b" 4294967296"),
            8 => line.extend_from_slice(&[b'9'; 30]),
            9 => line.extend(b" 1".repeat(1_100)),
            10 => {
                line = vec![b'1'; self.random.pick(&[MAX_LINE, MAX_LINE + 1, 9_000]).unwrap_or(1)]
            }
            _ => line.insert(0, b'0'),
        }
        line
    }
}

/// Whether the call could be done with this capability of this object.
fn suits(number: u32, object: Option<&Object>, capability: &Capability) -> bool {
    let object_is = |wanted: fn(&Object) -> bool| object.is_some_and(wanted);
    match number {
        7 => capability.parent.is_none(),
        8 => capability.moneyword > 0,
        10 | 12 | 13 => object_is(|o| o.process),
        11 => object_is(|o| o.process && o.suspended),
        16 => object_is(|o| o.process && o.terminated),
        _ => true,
    }
}

/// The most that can be withdrawn by a capability.
pub(crate) fn limit(store: &Store, place: Place) -> u32 {
    let climb = store.climb(place);
    let moneywords = climb.iter().map(|place| store.moneyword(*place));
    moneywords.min().unwrap_or(0)
}

/// Whether the call leaves the running processes with little cash, where they had more.
fn strands(store: &Store, call: &Call) -> bool {
    let cash = |store: &Store| -> u64 {
        let running = store.objects.values().filter(|object| object.runs());
        running.map(|object| u64::from(object.cash)).sum()
    };
    let moves = match &call.operation {
        Operation::Wait => true,
        Operation::On(_, action) => matches!(
            action,
            Action::DeleteCap | Action::Deposit { .. } | Action::Suspend | Action::Send { .. }
        ),
        _ => false,
    };
    if !moves {
        return false;
    }
    let mut after = store.clone();
    after.run(call);
    cash(&after) < (cash(store) / 2).min(5_000)
}

/// A whole script of so many lines after line one.
pub fn script(profile: Profile, seed: u64, lines: u32) -> Vec<u8> {
    let mut generator = Generator::new(profile, seed);
    let [supply, p1, p2] = generator.first();
    let mut store = Store::fresh(supply, p1, p2);
    let mut text = format!("{supply} {p1} {p2}\n").into_bytes();
    for _ in 0..lines {
        let (line, call) = generator.next_line(&store);
        if let Some(call) = call {
            store.run(&call);
        }
        text.extend(line);
        text.push(b'\n');
    }
    text
}
