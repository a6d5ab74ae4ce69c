//! The process that calls in the tests of questions and products: the fresh store's. Each test uses
//! what it needs of it.
#![allow(dead_code)]

use reference::call::{Call, Key, Name, Operation};
use reference::kernel::Store;
use reference::numbers::{MIN_BUFFER, MIN_SCRATCH};

/// The fresh store's process, by its master.
pub const BOSS: Key = Key { name: Name { volume: 0, serial: 1 }, p1: 5, p2: 9 };

pub fn by_boss(operation: Operation) -> Call {
    Call { caller: BOSS.name, operation, buffer: MIN_BUFFER, scratch: MIN_SCRATCH }
}

/// It pays a fee to the house.
pub fn pay(store: &mut Store, fee: u32) {
    store.objects.get_mut(&BOSS.name).expect("the caller").cash -= fee;
    store.house += fee;
}
