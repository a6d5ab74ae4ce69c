//! 01's numbers by name and those of 02, each written once here: answers and limits as in the
//! verified code (crates/values/src/refusal.rt and limit.rt, and limit.rt of crates/product_drive and
//! crates/product_royalties, held to these by a test), rights, and the longest line.

/// The call was done.
pub const DONE: u32 = 0;
/// "the store is not well formed"
pub const ILL_FORMED: u32 = 1;
/// "unknown call or an argument out of range"
pub const OUT_OF_RANGE: u32 = 2;
/// "the caller is absent, a data object, suspended, waiting or terminated"
pub const NOT_RUNNING: u32 = 3;
/// "cash below the fee, and the caller becomes terminated"
pub const CANNOT_PAY: u32 = 4;
/// "no such object or password"
pub const NOT_FOUND: u32 = 5;
/// "right missing"
pub const RIGHT_MISSING: u32 = 6;
/// "the range is not inside the window"
pub const OUTSIDE_WINDOW: u32 = 7;
/// "not a process"
pub const NOT_PROCESS: u32 = 8;
/// "the caller's cash is below the sum"; of withdraw, "some moneyword .. is below the sum"
pub const TOO_LITTLE: u32 = 9;
/// "a moneyword on the climb would pass 4,294,967,295"
pub const OVERFLOWS: u32 = 10;
/// "not a master"
pub const NOT_MASTER: u32 = 11;
/// "the serial is taken on that volume"; "p1 is taken in the object"
pub const TAKEN: u32 = 12;
/// "64 objects or 512 capabilities live, or too few free blocks"
pub const NO_SPACE: u32 = 13;
/// "four messages in the box"
pub const BOX_FULL: u32 = 14;
/// "the box is empty"
pub const BOX_EMPTY: u32 = 15;
/// "not terminated, or sum 0"
pub const NOT_REVIVABLE: u32 = 16;
/// 02, CR 3: "the window is not N × W bytes long"
pub const WRONG_LENGTH: u32 = 17;
/// 02, CR 7: "the count would pass 4,294,967,295"
pub const COUNT_PASSES: u32 = 18;
/// 02, CR 9: "the store's day is after the capability's last day"
pub const EXPIRED: u32 = 19;
/// "the new day is before the store's"
pub const EARLIER_DAY: u32 = 20;
/// 02, CR 10: "none in the list will do"
pub const NONE_WILL_DO: u32 = 21;

/// 01's refusals 2 to 16, and of 02 the loom drive's own, 17, that of royalties, 18, those of
/// season licences, 19 and 20, and that of the question what can be lent, 21. Refusal 1 has no
/// case: a store over maps that began fresh is always well formed.
#[repr(u32)]
#[derive(Clone, Copy, Debug, PartialEq, Eq, PartialOrd, Ord)]
pub enum Refusal {
    OutOfRange = OUT_OF_RANGE,
    NotRunning = NOT_RUNNING,
    CannotPay = CANNOT_PAY,
    NotFound = NOT_FOUND,
    RightMissing = RIGHT_MISSING,
    OutsideWindow = OUTSIDE_WINDOW,
    NotProcess = NOT_PROCESS,
    TooLittle = TOO_LITTLE,
    Overflows = OVERFLOWS,
    NotMaster = NOT_MASTER,
    Taken = TAKEN,
    NoSpace = NO_SPACE,
    BoxFull = BOX_FULL,
    BoxEmpty = BOX_EMPTY,
    NotRevivable = NOT_REVIVABLE,
    WrongLength = WRONG_LENGTH,
    CountPasses = COUNT_PASSES,
    Expired = EXPIRED,
    EarlierDay = EARLIER_DAY,
    NoneWillDo = NONE_WILL_DO,
}

impl Refusal {
    /// The papers' number for the refusal.
    pub fn number(self) -> u32 {
        self as u32
    }
}

/// "Volumes are 0 to 3."
pub const MAX_VOLUME: u32 = 3;
/// "a serial, 0 to 65,535"
pub const MAX_SERIAL: u32 = 65_535;
/// "At most 64 objects live."
pub const MAX_OBJECTS: usize = 64;
/// "a size of 0 to 8,192 bytes"
pub const MAX_SIZE: u32 = 8_192;
/// "held in blocks of 64 bytes, 512 in all"
pub const BLOCK_SIZE: u32 = 64;
pub const MAX_BLOCKS: u32 = 512;
/// "At most 512 live in the store.", of capabilities
pub const MAX_CAPS: usize = 512;
/// "a box of at most 4 messages"
pub const MAX_MESSAGES: usize = 4;
/// "A message is 0 to 16 bytes"
pub const MAX_MESSAGE: usize = 16;
/// "Rights add up, 0 to 8191"
pub const MAX_RIGHTS: u32 = 8_191;
/// "a read or write of at most 256 bytes"
pub const MAX_TRANSFER: u32 = 256;
/// "answer buffer of at least 256 bytes"
pub const MIN_BUFFER: usize = 256;
/// 02, CR 6: "a scratch of 16 16-bit numbers, where 512 were needed"
pub const MIN_SCRATCH: usize = 16;
/// "a lock's first word below 2,147,483,648"; "If the presented p1 is 2,147,483,648 or more"
pub const TOP: u32 = 2_147_483_648;
/// The largest 32-bit number: "the money total is at most 4,294,967,295"
pub const MAX_WORD: u32 = 4_294_967_295;
/// The limit of a derive_cap line that has none; 02, CR 11: "A derive_cap line without a limit now gives moneyword 0."
pub const DEFAULT_LIMIT: u32 = 0;
/// 02, CR 9: "The store holds a day, 0 to 65,535"; "A master's is 65,535", of last days
pub const MAX_DAY: u32 = 65_535;
/// The last day of a derive_cap line that has none: "a line without it takes the parent's"
pub const DEFAULT_LAST_DAY: u32 = MAX_DAY;
/// "lines of at most 2,048 bytes ended by byte 10, which is not counted"
pub const MAX_LINE: usize = 2_048;
/// 02, CR 3: "N picks, 1 to 65,535"
pub const MAX_PICKS: u32 = 65_535;
/// "C motor counts, 0 to 16,777,215"
pub const MAX_COUNTS: u32 = 16_777_215;
/// "W bytes a row, 1 to 64"
pub const MAX_ROW: u32 = 64;
/// 02, CR 7: "The first 10,000 picks", and "those after up to 100,000"
pub const FIRST_PICKS: u32 = 10_000;
pub const NEXT_PICKS: u32 = 100_000;
/// "cost 40 thousandths each", "cost 30", "and the rest 20"
pub const FIRST_RATE: u32 = 40;
pub const NEXT_RATE: u32 = 30;
pub const LAST_RATE: u32 = 20;
/// Thousandths in the smallest credit: "divided by 1,000"
pub const CREDIT: u32 = 1_000;
/// "The pick count p is kept .. from 0 to 4,294,967,295"
pub const MAX_COUNT: u32 = 4_294_967_295;
/// 02, CR 10: "up to 32 capabilities"
pub const MAX_ENTRIES: usize = 32;
/// Numbers of an entry: volume, serial, p1 and p2
pub const ENTRY_NUMBERS: usize = 4;

/// "Rights add up": the thirteen, and none for a call that presents no capability.
pub mod right {
    pub const NONE: u32 = 0;
    pub const READ: u32 = 1;
    pub const WRITE: u32 = 2;
    pub const CAP_INFO: u32 = 4;
    pub const DERIVE_CAP: u32 = 8;
    pub const DELETE_CAP: u32 = 16;
    pub const RENAME_OBJ: u32 = 32;
    pub const WITHDRAW: u32 = 64;
    pub const DEPOSIT: u32 = 128;
    pub const SUSPEND: u32 = 256;
    pub const RESUME: u32 = 512;
    pub const APPLY_LOCK: u32 = 1_024;
    pub const SEND: u32 = 2_048;
    pub const REVIVE: u32 = 4_096;
    /// The thirteen.
    pub const ALL: [u32; 13] = [
        READ, WRITE, CAP_INFO, DERIVE_CAP, DELETE_CAP, RENAME_OBJ, WITHDRAW, DEPOSIT, SUSPEND,
        RESUME, APPLY_LOCK, SEND, REVIVE,
    ];
}
