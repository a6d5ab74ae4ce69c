//! 01's ledger of a run: fed each call's number, caller and arguments and whether it was done,
//! nothing of the store. 02's call 17 "changes nothing in the ledger", and an expired capability's
//! line lives on until it ends as any.

use crate::call::{Action, Call, Key, Name, Operation};
use crate::kernel::unlocked;
use std::collections::BTreeMap;

/// A line of the ledger; its number is its place in `Ledger::lines`.
#[derive(Clone, Debug, PartialEq, Eq)]
pub struct Line {
    pub key: Key,
    /// The line derived from, always an earlier one, or none.
    pub from: Option<usize>,
    pub first_moneyword: i128,
    pub drawn: i128,
    pub paid_in: i128,
    pub living: bool,
}

/// The ledger: its lines, and a lockword for each name that has not 0 and 0.
#[derive(Clone, Debug, Default)]
pub struct Ledger {
    pub lines: Vec<Line>,
    lockwords: BTreeMap<Name, [u32; 2]>,
}

impl Ledger {
    /// The ledger at the start of a run: the fresh store's line, from none, at 0.
    pub fn fresh(p1: u32, p2: u32) -> Ledger {
        let mut ledger = Ledger::default();
        let name = Name { volume: 0, serial: 1 };
        ledger.add(Key { name, p1, p2 }, None, 0);
        ledger
    }

    fn add(&mut self, key: Key, from: Option<usize>, first_moneyword: i128) {
        self.lines.push(Line { key, from, first_moneyword, drawn: 0, paid_in: 0, living: true });
    }

    /// A name's lockword.
    pub fn lockword(&self, name: Name) -> [u32; 2] {
        self.lockwords.get(&name).copied().unwrap_or_default()
    }

    /// The living line that a password, presented with a name by this caller, finds.
    pub fn find(&self, caller: Name, key: Key) -> Option<usize> {
        let (p1, p2) = unlocked(key.p1, key.p2, self.lockword(caller));
        let sought = Key { name: key.name, p1, p2 };
        let found = |line: &Line| line.living && line.key == sought;
        self.lines.iter().position(found)
    }

    /// The lines that a line leads back to, nearest first.
    pub fn leads_back(&self, line: usize) -> impl Iterator<Item = usize> + '_ {
        std::iter::successors(self.lines[line].from, |at| self.lines[*at].from)
    }

    /// The line and all lines leading back to it, ended ones too.
    pub fn with_derived(&self, line: usize) -> Vec<usize> {
        let mut derived = vec![false; self.lines.len()];
        derived[line] = true;
        for later in line + 1..self.lines.len() {
            derived[later] = self.lines[later].from.is_some_and(|from| derived[from]);
        }
        (line..derived.len()).filter(|at| derived[*at]).collect()
    }

    /// A line's balance.
    pub fn balance(&self, line: usize) -> i128 {
        let derived = self.with_derived(line);
        let moved = derived.iter().map(|at| self.lines[*at].moved());
        self.lines[line].first_moneyword + moved.sum::<i128>()
    }

    /// The balances of all lines at once: what moved on a line counts for each line that it
    /// leads back to, and a line is derived from an earlier one.
    pub fn balances(&self) -> Vec<i128> {
        let mut moved: Vec<i128> = self.lines.iter().map(Line::moved).collect();
        for at in (0..self.lines.len()).rev() {
            if let Some(from) = self.lines[at].from {
                moved[from] += moved[at];
            }
        }
        let firsts = self.lines.iter().map(|line| line.first_moneyword);
        firsts.zip(moved).map(|(first, moved)| first + moved).collect()
    }

    /// Takes note of a call and of whether it was done.
    pub fn feed(&mut self, call: &Call, done: bool) {
        match &call.operation {
            Operation::MakeObj { drawn, .. } if done => {
                self.add(*drawn, None, 0);
                self.lockwords.remove(&drawn.name);
            }
            Operation::On(key, action) if done => {
                if let Some(found) = self.find(call.caller, *key) {
                    self.feed_action(found, action);
                }
            }
            _ => {}
        }
    }

    fn feed_action(&mut self, found: usize, action: &Action) {
        let name = self.lines[found].key.name;
        match *action {
            Action::DeriveCap { limit, p1, p2, .. } => {
                let first = i128::from(limit).min(self.balance(found));
                self.add(Key { name, p1, p2 }, Some(found), first);
            }
            Action::DeleteCap => {
                for ended in self.with_derived(found) {
                    self.lines[ended].living = false;
                }
            }
            Action::RenameObj { p1, p2 } => {
                let balance = self.balance(found);
                let of_object = self.lines.iter_mut().filter(|line| line.key.name == name);
                of_object.for_each(|line| line.living = false);
                self.add(Key { name, p1, p2 }, None, balance);
            }
            Action::Withdraw { sum } => self.lines[found].drawn += i128::from(sum),
            Action::Deposit { sum } => self.lines[found].paid_in += i128::from(sum),
            Action::ApplyLock { words } => {
                let lockword = self.lockwords.entry(name).or_default();
                *lockword = [lockword[0] ^ words[0], lockword[1] ^ words[1]];
            }
            _ => {}
        }
    }
}

impl Line {
    /// Paid in less drawn.
    fn moved(&self) -> i128 {
        self.paid_in - self.drawn
    }
}
