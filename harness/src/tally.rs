//! Counts the answers of a check by the kind of damage, and prints them as a table.

use std::collections::BTreeMap;
use std::fmt;
use trials::damage::Kind;

/// How often a check answered no and yes.
pub type Answers = [u32; 2];

/// Answers to stores undamaged, damaged by one kind alone, and by one kind among several.
#[derive(Default)]
pub struct Tally {
    pub undamaged: Answers,
    pub alone: BTreeMap<Kind, Answers>,
    pub among: BTreeMap<Kind, Answers>,
    pub all: Answers,
}

impl Tally {
    /// Counts an answer to a store damaged in these kinds.
    pub fn count(&mut self, kinds: &[Kind], answer: bool) {
        let at = usize::from(answer);
        self.all[at] += 1;
        match kinds {
            [] => self.undamaged[at] += 1,
            [kind] => self.alone.entry(*kind).or_default()[at] += 1,
            several => {
                for kind in several {
                    self.among.entry(*kind).or_default()[at] += 1;
                }
            }
        }
    }

    pub fn stores(&self) -> u32 {
        self.all.iter().sum()
    }

    /// The answers to stores damaged by this kind alone.
    pub fn alone(&self, kind: Kind) -> Answers {
        self.alone.get(&kind).copied().unwrap_or_default()
    }
}

impl fmt::Display for Tally {
    fn fmt(&self, to: &mut fmt::Formatter) -> fmt::Result {
        writeln!(to, "{:24}{:>16}{:>20}", "", "alone", "among several")?;
        writeln!(to, "{:24}{:>8}{:>8}{:>12}{:>8}", "kind of damage", "no", "yes", "no", "yes")?;
        for kind in Kind::all() {
            let alone = self.alone(kind);
            let among = self.among.get(&kind).copied().unwrap_or_default();
            write!(to, "{kind:24}{:>8}{:>8}", alone[0], alone[1])?;
            writeln!(to, "{:>12}{:>8}", among[0], among[1])?;
        }
        writeln!(to, "{:24}{:>8}{:>8}", "none", self.undamaged[0], self.undamaged[1])?;
        writeln!(to, "{:24}{:>8}{:>8}", "all stores", self.all[0], self.all[1])
    }
}
