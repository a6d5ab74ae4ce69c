//! 02's count of passwords, a free question: "the number of the 2 to the power 64 passwords which,
//! presented by a named process for one object and one right, would get past 5 and 6", and past 19
//! between the two: the count "leaves expired ones out".
//!
//! So many cannot be tried. A password is looked up as it stands or XORed with the process's
//! lockword, so one that finds a capability is that capability's own or its own so XORed: these two
//! are tried for each capability of the object, and no password twice. Whether it opens is asked of
//! the look-up itself, and so it is in a cut-down space, where all passwords are tried: where the
//! bits of every password and of the lockword lie in a few places, so do those of every password
//! that opens, and trying all with bits in these places counts the same.

use crate::call::{Key, Name};
use crate::kernel::{in_range, refuse_if, Store};
use crate::numbers::{right, Refusal};
use std::collections::BTreeSet;

/// A password's two halves.
pub type Password = (u32, u32);

/// All numbers whose bits lie in the mask.
fn numbers_within(mask: u32) -> Vec<u32> {
    let places = (0..u32::BITS).map(|place| 1 << place).filter(|bit| mask & bit != 0);
    places.fold(vec![0], |numbers, bit| {
        numbers.iter().copied().chain(numbers.iter().map(|number| number | bit)).collect()
    })
}

/// A cut-down space: all passwords whose halves' bits lie in the masks, each once.
pub fn passwords_within(masks: [u32; 2]) -> Vec<Password> {
    let halves = masks.map(numbers_within);
    halves[0].iter().flat_map(|p1| halves[1].iter().map(move |p2| (*p1, *p2))).collect()
}

/// The question, with everything that is handed over with it.
#[derive(Clone, Copy, Debug, PartialEq, Eq)]
pub struct PasswordCount {
    /// The process that would present the passwords.
    pub caller: Name,
    /// The object that they would be presented for.
    pub object: Name,
    /// The right that would be asked for.
    pub right: u32,
}

impl PasswordCount {
    /// Whether a password would get past 5, 19 and 6.
    fn opens(&self, store: &Store, (p1, p2): Password) -> bool {
        let key = Key { name: self.object, p1, p2 };
        store.presented(self.caller, key, self.right).is_ok()
    }

    /// How many of these passwords, which are all different, would get past 5, 19 and 6.
    pub fn among(&self, store: &Store, passwords: impl IntoIterator<Item = Password>) -> u32 {
        passwords.into_iter().filter(|password| self.opens(store, *password)).count() as u32
    }

    /// Those that could: each capability's own, and its own XORed with the caller's lockword.
    fn candidates(&self, store: &Store) -> BTreeSet<Password> {
        let [first, second] = store.objects.get(&self.caller).map_or([0, 0], |o| o.lockword);
        let both = |(p1, p2): Password| [(p1, p2), (p1 ^ first, p2 ^ second)];
        store.tree(self.object).flat_map(|(p1, found)| both((p1, found.p2))).collect()
    }

    /// The count, or its refusal: "a right that is not one of the thirteen, or a name out of range,
    /// is 2. Then an absent process or a data object as the caller is 3, and marks are not looked
    /// at. After that an absent object gives 0."
    pub fn ask(&self, store: &Store) -> Result<u32, Refusal> {
        let names = in_range(self.caller) && in_range(self.object);
        refuse_if(!(names && right::ALL.contains(&self.right)), Refusal::OutOfRange)?;
        let process = store.objects.get(&self.caller).is_some_and(|caller| caller.process);
        refuse_if(!process, Refusal::NotRunning)?;
        Ok(self.among(store, self.candidates(store)))
    }
}
