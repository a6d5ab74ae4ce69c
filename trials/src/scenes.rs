//! Scenes that random runs must reach beside the refusals: locked callers, processes that act
//! on themselves, names used again, limits on each side of a moneyword, the least scratch and longer
//! ones, waits with mail and without, and days: those that are set, last days on each side of the
//! parent's, and what becomes of capabilities that are expired.

use reference::call::{call_kind, Action, Call, Key, Operation};
use reference::claims::CheckedRun;
use reference::kernel::{Object, Place, Store};
use reference::numbers::*;
use std::cmp::Ordering;

/// The scenes that a call, answered with this code, makes on the run before it.
pub fn scenes(before: &CheckedRun, call: &Call, code: u32) -> Vec<String> {
    let mut met = Vec::new();
    match &call.operation {
        Operation::On(key, action) => {
            let caller = before.store.objects.get(&call.caller);
            let locked = caller.is_some_and(|c| c.runs() && c.lockword != [0, 0]);
            let top_bit = if key.p1 >= TOP { "top bit set" } else { "top bit clear" };
            match code {
                DONE if locked => met.push(format!("locked caller, {top_bit}, done")),
                NOT_FOUND if locked => met.push(format!("locked caller, {top_bit}, answers 5")),
                _ => {}
            }
            if key.name == call.caller && matches!(code, DONE | NOT_REVIVABLE) {
                let name = call_kind(action.number()).map_or("unknown", |kind| kind.name);
                met.push(format!("{name} on itself answers {code}"));
            }
            if let (Action::DeriveCap { limit, .. }, DONE) = (action, code) {
                let place = before.store.find(call.caller, *key);
                let moneyword = place.map_or(0, |place| before.store.moneyword(place));
                met.extend(limited(*limit, moneyword).map(str::to_owned));
            }
            if code == DONE {
                met.extend(cleared(action, call.scratch).map(str::to_owned));
            }
            met.extend(seasons(&before.store, call, *key, action, code).map(str::to_owned));
        }
        Operation::MakeObj { drawn, .. } if code == DONE => {
            let lines = &before.ledger.lines;
            if lines.iter().any(|line| line.key.name == drawn.name) {
                met.push("name used again".into());
            }
            if before.ledger.lockword(drawn.name) != [0, 0] {
                met.push("name of a locked process used again".into());
            }
        }
        Operation::Wait if code == DONE => {
            let caller = before.store.objects.get(&call.caller);
            met.extend(caller.map(|c| waited(c.messages.len()).to_owned()));
        }
        Operation::SetDay { day } => met.extend(days(&before.store, call, *day, code)),
        _ => {}
    }
    met
}

/// What a call of the host, answered with this code, meets.
fn days(store: &Store, call: &Call, day: u32, code: u32) -> Vec<String> {
    let caller = store.objects.get(&call.caller);
    let ends = |to: u32| {
        let ended = |last_day: u32| (store.day..to).contains(&last_day);
        store.capabilities.values().any(|c| ended(c.last_day))
    };
    let met: [(bool, u32, &str); 16] = [
        (day == 0, DONE, "day 0"),
        (day == store.day && day > 0, DONE, "the same day again"),
        (day == store.day + 1, DONE, "the next day"),
        (day > store.day + 9, DONE, "a far later day"),
        (day == MAX_DAY, DONE, "the last day of all"),
        (ends(day), DONE, "a day on which some expire"),
        (caller.is_some_and(Object::runs), DONE, "a day set with a caller that runs"),
        (caller.is_some_and(|c| !c.runs()), DONE, "a day set with a caller that does not run"),
        (caller.is_none(), DONE, "a day set with an absent caller"),
        (call.caller.volume > MAX_VOLUME, DONE, "a day set with a volume out of range"),
        (call.caller.serial > MAX_SERIAL, DONE, "a day set with a serial out of range"),
        (call.buffer < MIN_BUFFER, DONE, "a day set with a short buffer"),
        (call.scratch < MIN_SCRATCH, DONE, "a day set with a short scratch"),
        (store.day.checked_sub(1) == Some(day), EARLIER_DAY, "the day before"),
        (day == MAX_DAY + 1, OUT_OF_RANGE, "a day one too large"),
        (day == MAX_WORD, OUT_OF_RANGE, "the largest number as a day"),
    ];
    let met = met.into_iter().filter(|(meets, answer, _)| *meets && *answer == code);
    met.map(|(.., scene)| scene.to_owned()).collect()
}

/// What a call that presents a capability meets that has to do with days.
fn seasons<'a>(
    store: &'a Store,
    call: &'a Call,
    key: Key,
    action: &'a Action,
    code: u32,
) -> impl Iterator<Item = &'static str> + 'a {
    let place = store.find(call.caller, key);
    let found = place.and_then(|place| store.capabilities.get(&place));
    let last_day = found.map_or(0, |found| found.last_day);
    let right = call_kind(action.number()).map_or(0, |kind| kind.right);
    let lacks = found.is_some_and(|found| found.rights & right == 0);
    let expired = |at: &Place| store.capabilities.get(at).is_some_and(|c| c.expired(store.day));
    let ends = |all: fn(&Action) -> bool| {
        let below = || place.map(|place| store.with_descendants(place)).unwrap_or_default();
        all(action) && code == DONE && below().iter().any(expired)
    };
    let new_p1 = match action {
        Action::DeriveCap { p1, .. } | Action::RenameObj { p1, .. } => Some(*p1),
        _ => None,
    };
    let blocked = new_p1.is_some_and(|p1| expired(&(key.name, p1)));
    let derives = matches!(action, Action::DeriveCap { .. });
    let given = match action {
        Action::DeriveCap { last_day, .. } => Some(*last_day),
        _ => None,
    };
    let full = || store.capabilities.keys().any(expired);
    let on_last = last_day == store.day;
    let met: [(bool, u32, &str); 15] = [
        (on_last && last_day < MAX_DAY, DONE, "done on its last day"),
        (on_last && last_day == MAX_DAY, DONE, "done on the last day of all"),
        (last_day + 1 == store.day, EXPIRED, "refused on the day after its last"),
        (key.p1 >= TOP, EXPIRED, "expired, top bit set"),
        (lacks, EXPIRED, "expired, and the right missing"),
        (ends(|action| *action == Action::DeleteCap), DONE, "delete_cap ends an expired one"),
        (
            ends(|action| matches!(action, Action::RenameObj { .. })),
            DONE,
            "rename_obj ends an expired one",
        ),
        (blocked && derives, TAKEN, "derive_cap by an expired one's p1"),
        (blocked && !derives, TAKEN, "rename_obj by an expired one's p1"),
        (code == NO_SPACE && derives && full(), NO_SPACE, "no space, with expired ones living"),
        (given.is_some_and(|given| given < store.day), DONE, "derived, and over already"),
        (given == Some(store.day), DONE, "derived for the day alone"),
        (given.is_some_and(|given| given < last_day), DONE, "last day before the parent's"),
        (given == Some(last_day) && last_day < MAX_DAY, DONE, "last day at the parent's"),
        (given.is_some_and(|given| given > last_day), DONE, "last day after the parent's"),
    ];
    met.into_iter().filter(move |(meets, answer, _)| *meets && *answer == code).map(|met| met.2)
}

/// How derive_cap's limit stands to the parent's moneyword, where that is not 0.
fn limited(limit: u32, moneyword: u32) -> Option<&'static str> {
    if moneyword == 0 {
        return None;
    }
    Some(match (limit, limit.cmp(&moneyword)) {
        (0, _) => "limit 0",
        (MAX_WORD, _) => "the largest limit",
        (_, Ordering::Less) => "limit below the parent's moneyword",
        (_, Ordering::Equal) => "limit at the parent's moneyword",
        (_, Ordering::Greater) => "limit above the parent's moneyword",
    })
}

/// The scratch that a done delete or rename clears.
fn cleared(action: &Action, scratch: usize) -> Option<&'static str> {
    match (action, scratch > MIN_SCRATCH) {
        (Action::DeleteCap, false) => Some("delete_cap with the least scratch"),
        (Action::DeleteCap, true) => Some("delete_cap with a longer scratch"),
        (Action::RenameObj { .. }, false) => Some("rename_obj with the least scratch"),
        (Action::RenameObj { .. }, true) => Some("rename_obj with a longer scratch"),
        _ => None,
    }
}

/// How much mail a process that waits has.
fn waited(messages: usize) -> &'static str {
    match messages {
        0 => "wait with an empty box",
        MAX_MESSAGES => "wait with a full box",
        _ => "wait with mail",
    }
}

/// The scenes that must be met.
pub const SCENES: [&str; 62] = [
    "locked caller, top bit set, done",
    "locked caller, top bit set, answers 5",
    "locked caller, top bit clear, done",
    "locked caller, top bit clear, answers 5",
    "read on itself answers 0",
    "write on itself answers 0",
    "cap_info on itself answers 0",
    "derive_cap on itself answers 0",
    "delete_cap on itself answers 0",
    "rename_obj on itself answers 0",
    "withdraw on itself answers 0",
    "deposit on itself answers 0",
    "suspend on itself answers 0",
    "resume on itself answers 0",
    "apply_lock on itself answers 0",
    "send on itself answers 0",
    "revive on itself answers 16",
    "name used again",
    "name of a locked process used again",
    "limit 0",
    "limit below the parent's moneyword",
    "limit at the parent's moneyword",
    "limit above the parent's moneyword",
    "the largest limit",
    "delete_cap with the least scratch",
    "delete_cap with a longer scratch",
    "rename_obj with the least scratch",
    "rename_obj with a longer scratch",
    "wait with an empty box",
    "wait with mail",
    "wait with a full box",
    "day 0",
    "the same day again",
    "the next day",
    "a far later day",
    "the last day of all",
    "a day on which some expire",
    "a day set with a caller that runs",
    "a day set with a caller that does not run",
    "a day set with an absent caller",
    "a day set with a volume out of range",
    "a day set with a serial out of range",
    "a day set with a short buffer",
    "a day set with a short scratch",
    "the day before",
    "a day one too large",
    "the largest number as a day",
    "done on its last day",
    "done on the last day of all",
    "refused on the day after its last",
    "expired, top bit set",
    "expired, and the right missing",
    "delete_cap ends an expired one",
    "rename_obj ends an expired one",
    "derive_cap by an expired one's p1",
    "rename_obj by an expired one's p1",
    "no space, with expired ones living",
    "derived, and over already",
    "derived for the day alone",
    "last day before the parent's",
    "last day at the parent's",
    "last day after the parent's",
];
