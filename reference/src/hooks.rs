//! 02's patterns by hook: reads and writes whose data is turned, tile by tile. They use the store
//! by the plain calls alone.

use crate::call::{Action, Answer, Call, Key, Name, Operation};
use crate::kernel::Store;

/// "8 by 8 bit tiles, 8 bytes each"
pub const TILE: usize = 8;

/// The data turned "so that bit j of byte i becomes bit i of byte j, bits counted from the lowest",
/// in each tile from the data's start on. It "keeps its last, incomplete tile unturned".
pub fn turned(data: &[u8]) -> Vec<u8> {
    let mut bytes = data.to_vec();
    for (tile, turned) in data.chunks_exact(TILE).zip(bytes.chunks_exact_mut(TILE)) {
        turned.fill(0);
        for (i, from) in tile.iter().enumerate() {
            for (j, to) in turned.iter_mut().enumerate() {
                let bit = from >> j & 1;
                *to |= bit << i;
            }
        }
    }
    bytes
}

/// A read or a write by hook, with everything that is handed over with it.
#[derive(Clone, Debug, PartialEq, Eq)]
pub struct Hooked {
    pub caller: Name,
    /// The capability presented.
    pub key: Key,
    pub start: u32,
    pub end: u32,
    pub transfer: Transfer,
}

/// Which of the two it is, and what it alone is handed.
#[derive(Clone, Debug, PartialEq, Eq)]
pub enum Transfer {
    /// The data before it is turned.
    Write { data: Vec<u8> },
    /// Length in bytes of the answer buffer.
    Read { buffer: usize },
}

impl Hooked {
    /// The plain call with the same arguments, the data not turned.
    pub fn unturned(&self) -> Call {
        let Hooked { start, end, .. } = *self;
        let (action, buffer) = match &self.transfer {
            Transfer::Write { data } => (Action::Write { start, end, data: data.clone() }, 0),
            Transfer::Read { buffer } => (Action::Read { start, end }, *buffer),
        };
        let operation = Operation::On(self.key, action);
        Call { caller: self.caller, operation, buffer, scratch: 0 }
    }

    /// The plain call that it makes: it is paid and refused as this, and stands as this in demand
    /// 3's lists.
    pub fn plain(&self) -> Call {
        let mut call = self.unturned();
        if let Operation::On(_, Action::Write { data, .. }) = &mut call.operation {
            *data = turned(data);
        }
        call
    }

    /// Makes it on a store. The bytes that a done read answers with are turned; a write and a
    /// refusal have none.
    pub fn run(&self, store: &mut Store) -> Answer {
        let answer = store.run(&self.plain());
        Answer { bytes: turned(&answer.bytes), ..answer }
    }
}
