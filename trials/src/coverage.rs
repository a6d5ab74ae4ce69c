//! Coverage of random checked runs: every answer of every call, and for each two refusals of a
//! call's list the states where both hold, only the earlier, and only the later.

use crate::conditions::{holding, Condition};
use crate::generate::Generator;
use crate::profiles::{Profile, PROFILES};
use crate::random::Random;
use crate::scenes::{scenes, SCENES};
use reference::call::{call_kind, Action, Call, Operation, SET_DAY};
use reference::claims::CheckedRun;
use reference::kernel::{Object, Store};
use reference::numbers::*;
use std::collections::BTreeMap;
use std::fmt::Write;

/// The refusals of a call that can be met, in the papers' order. Left out everywhere: 1, since a store
/// over maps is always well formed; and 4 for wait, whose fee of 0 can always be paid. An
/// unknown number stands under 0 and is always 2.
pub fn refusals(call: u32) -> Vec<u32> {
    let own: &[u32] = match call {
        1 => &[TAKEN, NO_SPACE],
        2 | 3 => &[OUTSIDE_WINDOW],
        5 => &[TAKEN, NO_SPACE],
        7 => &[NOT_MASTER, TAKEN],
        8 => &[TOO_LITTLE],
        9 => &[TOO_LITTLE, OVERFLOWS],
        10..=12 => &[NOT_PROCESS],
        13 => &[NOT_PROCESS, TOO_LITTLE, BOX_FULL],
        14 => &[BOX_EMPTY],
        16 => &[NOT_PROCESS, NOT_REVIVABLE, TOO_LITTLE],
        SET_DAY => &[EARLIER_DAY],
        _ => &[],
    };
    let before: &[u32] = match call {
        0 | SET_DAY => &[OUT_OF_RANGE],
        1 | 14 => &[OUT_OF_RANGE, NOT_RUNNING, CANNOT_PAY],
        15 => &[OUT_OF_RANGE, NOT_RUNNING],
        _ => &[OUT_OF_RANGE, NOT_RUNNING, CANNOT_PAY, NOT_FOUND, EXPIRED, RIGHT_MISSING],
    };
    [before, own].concat()
}

/// How two refusals can hold.
#[derive(Clone, Copy, Debug, PartialEq, Eq)]
pub enum Hold {
    Both,
    OnlyEarlier,
    OnlyLater,
}

const HOLDS: [Hold; 3] = [Hold::Both, Hold::OnlyEarlier, Hold::OnlyLater];

/// The calls that present a capability.
pub const PRESENTING: &[u32] = &[2, 3, 4, 5, 6, 7, 8, 9, 10, 11, 12, 13, 16];

/// What cannot be met: calls, the two refusals, and how they cannot hold.
const UNREACHABLE: [(&[u32], u32, u32, Hold); 10] = [
    // Without a capability there are no last day, no rights, no window, no place in the tree and no
    // climb.
    (PRESENTING, NOT_FOUND, EXPIRED, Hold::Both),
    (PRESENTING, NOT_FOUND, RIGHT_MISSING, Hold::Both),
    (&[2, 3], NOT_FOUND, OUTSIDE_WINDOW, Hold::Both),
    (&[7], NOT_FOUND, NOT_MASTER, Hold::Both),
    (&[8], NOT_FOUND, TOO_LITTLE, Hold::Both),
    (&[9], NOT_FOUND, OVERFLOWS, Hold::Both),
    // A master's last day is the last of all.
    (&[7], EXPIRED, NOT_MASTER, Hold::OnlyEarlier),
    // A data object has no box.
    (&[13], NOT_PROCESS, BOX_FULL, Hold::Both),
    // wait has no argument but the caller's name, and a caller out of range is absent.
    (&[15], OUT_OF_RANGE, NOT_RUNNING, Hold::OnlyEarlier),
    // A day out of range is after every day.
    (&[SET_DAY], OUT_OF_RANGE, EARLIER_DAY, Hold::Both),
];

fn reachable(call: u32, pair: (u32, u32), hold: Hold) -> bool {
    !UNREACHABLE
        .iter()
        .any(|(calls, a, b, how)| calls.contains(&call) && (*a, *b) == pair && *how == hold)
}

/// The largest of each kind that a run reached.
#[derive(Clone, Copy, Debug, Default)]
pub struct Peaks {
    pub objects: usize,
    pub capabilities: usize,
    pub blocks: u32,
    /// The longest climb, the capability and its master counted.
    pub depth: usize,
    /// The most children of one capability.
    pub children: usize,
}

impl Peaks {
    /// Takes note of a store after a done call.
    fn note(&mut self, store: &Store, call: &Call) {
        self.objects = self.objects.max(store.objects.len());
        self.capabilities = self.capabilities.max(store.capabilities.len());
        self.blocks = self.blocks.max(store.used_blocks());
        if let Operation::On(key, Action::DeriveCap { p1, .. }) = &call.operation {
            let climb = store.climb((key.name, *p1));
            self.depth = self.depth.max(climb.len());
            let parent = climb.get(1).map(|place| place.1);
            let children = store.tree(key.name).filter(|(_, c)| c.parent == parent);
            self.children = self.children.max(children.count());
        }
    }
}

/// The counts. Calls are by number, unknown ones under 0.
#[derive(Default)]
pub struct Coverage {
    pub calls: u64,
    pub peaks: Peaks,
    pub answers: BTreeMap<(u32, u32), u64>,
    pub cases: BTreeMap<(u32, Condition), u64>,
    pub pairs: BTreeMap<(u32, u32, u32), [u64; 3]>,
    pub scenes: BTreeMap<String, u64>,
}

impl Coverage {
    /// Counts a call, what held before it, and its answer's code.
    pub fn note(&mut self, call: &Call, held: &[Condition], code: u32) {
        let number = counted_as(call);
        self.calls += 1;
        *self.answers.entry((number, code)).or_default() += 1;
        for condition in held {
            *self.cases.entry((number, *condition)).or_default() += 1;
        }
        for (a, b) in pairs(number) {
            let holds = |refusal| held.iter().any(|c| c.refusal == refusal);
            let counts = self.pairs.entry((number, a, b)).or_default();
            match (holds(a), holds(b)) {
                (true, true) => counts[0] += 1,
                (true, false) => counts[1] += 1,
                (false, true) => counts[2] += 1,
                (false, false) => {}
            }
        }
    }

    /// Every reachable count with what it counts.
    pub fn reachable_counts(&self) -> Vec<(String, u64)> {
        let count = |scene: &str| self.scenes.get(scene).copied().unwrap_or(0);
        let scenes = SCENES.iter().map(|scene| (scene.to_string(), count(scene)));
        let mut counts: Vec<(String, u64)> = scenes.collect();
        for call in 0..=SET_DAY {
            let done = (call > 0).then_some(DONE);
            for code in done.into_iter().chain(refusals(call)) {
                let count = self.answers.get(&(call, code)).copied();
                let what = format!("{} answers {code}", name(call));
                counts.push((what, count.unwrap_or(0)));
            }
            for (a, b) in pairs(call) {
                let found = self.pairs.get(&(call, a, b)).copied().unwrap_or_default();
                for (hold, count) in HOLDS.into_iter().zip(found) {
                    let what = format!("{} {a} and {b}: {hold:?}", name(call));
                    if reachable(call, (a, b), hold) {
                        counts.push((what, count));
                    }
                }
            }
        }
        counts
    }

    /// Counts that should be 0 and are not.
    pub fn unexpected(&self) -> Vec<String> {
        let mut found = Vec::new();
        for (call, code) in self.answers.keys() {
            let done = *code == DONE && *call > 0;
            if !done && !refusals(*call).contains(code) {
                found.push(format!("{} answers {code}", name(*call)));
            }
        }
        for ((call, a, b), counts) in &self.pairs {
            for (hold, count) in HOLDS.into_iter().zip(counts) {
                if *count > 0 && !reachable(*call, (*a, *b), hold) {
                    found.push(format!("{} {a} and {b}: {hold:?}", name(*call)));
                }
            }
        }
        found
    }

    /// The table as text.
    pub fn table(&self) -> String {
        let mut text = format!("{} calls, {:?}\n\n", self.calls, self.peaks);
        for (scene, count) in &self.scenes {
            let _ = writeln!(text, "  {scene:<40} {count:>8}");
        }
        for call in 0..=SET_DAY {
            let _ = writeln!(text, "\n{}", name(call));
            let of_call = |key: u32| key == call;
            for ((_, code), count) in self.answers.iter().filter(|((c, _), _)| of_call(*c)) {
                let _ = writeln!(text, "  answer {code:>2} {count:>8}");
            }
            for ((_, held), count) in self.cases.iter().filter(|((c, _), _)| of_call(*c)) {
                let _ = writeln!(text, "  holds {:>2} {:<16} {count:>8}", held.refusal, held.case);
            }
            for (a, b) in pairs(call) {
                let counts = self.pairs.get(&(call, a, b)).copied().unwrap_or_default();
                let [both, earlier, later] = counts;
                let _ = writeln!(
                    text,
                    "  {a:>2} and {b:>2}: both {both:>6}, only {a:>2} {earlier:>6}, only {b:>2} {later:>6}"
                );
            }
        }
        text
    }
}

/// All two refusals of a call's list, the earlier one first.
fn pairs(call: u32) -> Vec<(u32, u32)> {
    let list = refusals(call);
    let later = |at: usize| list[at + 1..].iter().map(move |b| (at, *b));
    (0..list.len()).flat_map(later).map(|(at, b)| (list[at], b)).collect()
}

/// The number that a call is counted under: its own, or 0 for the unknown ones.
pub fn counted_as(call: &Call) -> u32 {
    let number = call.operation.number();
    if number <= SET_DAY {
        number
    } else {
        0
    }
}

/// The name of a call, by its number.
pub fn name(call: u32) -> &'static str {
    let other = if call == SET_DAY { "set_day" } else { "unknown" };
    call_kind(call).map_or(other, |kind| kind.name)
}

/// Checked runs of all profiles. Every call is checked by `CheckedRun`, and its answer is
/// compared with the first condition that holds.
pub fn checked_runs(seed: u64) -> Result<Coverage, String> {
    let mut coverage = Coverage::default();
    for profile in PROFILES {
        checked_profile(profile, seed, &mut coverage)?;
    }
    Ok(coverage)
}

/// Checked runs of one profile: as many calls as the profile says.
pub fn checked_profile(profile: Profile, seed: u64, coverage: &mut Coverage) -> Result<(), String> {
    let until = coverage.calls + u64::from(profile.runs) * u64::from(profile.calls);
    let mut seeds = Random::new(seed);
    while coverage.calls < until {
        let seed = seeds.bits();
        checked_run(profile, seed, coverage)
            .map_err(|wrong| format!("{} {seed}: {wrong}", profile.name))?;
    }
    Ok(())
}

/// One checked run; it ends early some calls after no process runs any more.
fn checked_run(profile: Profile, seed: u64, coverage: &mut Coverage) -> Result<(), String> {
    let mut generator = Generator::new(profile, seed);
    let [supply, p1, p2] = generator.first();
    let mut run = CheckedRun::fresh(supply, p1, p2);
    let mut stopped = 0;
    for _ in 0..profile.calls {
        let call = generator.next_call(&run.store);
        let held = holding(&run.store, &call);
        let expected = held.first().map_or(DONE, |condition| condition.refusal);
        for scene in scenes(&run, &call, expected) {
            *coverage.scenes.entry(scene).or_default() += 1;
        }
        let answer = run.run(&call).map_err(|wrong| format!("{call:?}: {wrong}"))?;
        if answer.code != expected {
            return Err(format!("{call:?}: {} for {held:?}", answer.code));
        }
        coverage.note(&call, &held, answer.code);
        if answer.code == DONE {
            coverage.peaks.note(&run.store, &call);
        }
        stopped += u32::from(!run.store.objects.values().any(Object::runs));
        if stopped > 5 {
            break;
        }
    }
    Ok(())
}
