//! The C functions of the verified kernel, of the questions, of the loom drive, of patterns by hook
//! and of royalties as safe functions on slices. All unsafe code is here, but for `stack`.

use crate::request::{Request, REPLY};
use trials::raw::RawStore;

extern "C" {
    fn store_check(
        bytes: *const u8,
        bytes_length: usize,
        links: *const u16,
        links_length: usize,
        words: *const u32,
        words_length: usize,
    ) -> bool;

    fn store_fresh(
        supply: u32,
        p1: u32,
        p2: u32,
        bytes: *mut u8,
        bytes_length: usize,
        links: *mut u16,
        links_length: usize,
        words: *mut u32,
        words_length: usize,
    ) -> u32;

    fn hook_write(
        bytes: *mut u8,
        bytes_length: usize,
        links: *mut u16,
        links_length: usize,
        words: *mut u32,
        words_length: usize,
        text: *const u8,
        text_length: usize,
        request: *const u32,
        request_length: usize,
        reply: *mut u32,
        reply_length: usize,
    ) -> u32;

    fn hook_turn(pattern: *mut u8, pattern_length: usize);

    fn lend_place(
        bytes: *const u8,
        bytes_length: usize,
        links: *const u16,
        links_length: usize,
        words: *const u32,
        words_length: usize,
        list: *const u32,
        list_length: usize,
        request: *const u32,
        request_length: usize,
        reply: *mut u32,
        reply_length: usize,
    ) -> u32;

    fn royalty_bill(
        bytes: *mut u8,
        bytes_length: usize,
        links: *mut u16,
        links_length: usize,
        words: *mut u32,
        words_length: usize,
        request: *const u32,
        request_length: usize,
        reply: *mut u32,
        reply_length: usize,
    ) -> u32;
}

/// Declares entry points of the kernel: the store's slices, the text, the buffer, the scratch, the
/// request's numbers and those of the reply.
macro_rules! entries {
    ($($name:ident),*) => {
        extern "C" {
            $(fn $name(
                bytes: *mut u8,
                bytes_length: usize,
                links: *mut u16,
                links_length: usize,
                words: *mut u32,
                words_length: usize,
                text: *const u8,
                text_length: usize,
                buffer: *mut u8,
                buffer_length: usize,
                scratch: *mut u16,
                scratch_length: usize,
                request: *const u32,
                request_length: usize,
                reply: *mut u32,
                reply_length: usize,
            ) -> u32;)*
        }
    };
}

entries!(store_call, store_step_unchecked);

/// Declares entry points of what makes a read: the store's slices, the buffer, the request's
/// numbers and those of the reply.
macro_rules! read_entries {
    ($($name:ident),*) => {
        extern "C" {
            $(fn $name(
                bytes: *mut u8,
                bytes_length: usize,
                links: *mut u16,
                links_length: usize,
                words: *mut u32,
                words_length: usize,
                buffer: *mut u8,
                buffer_length: usize,
                request: *const u32,
                request_length: usize,
                reply: *mut u32,
                reply_length: usize,
            ) -> u32;)*
        }
    };
}

read_entries!(drive_pick, drive_pick_unchecked, hook_read);

/// Declares entry points of the questions: the store's slices, which are only read, the request's
/// numbers and those of the reply.
macro_rules! question_entries {
    ($($name:ident),*) => {
        extern "C" {
            $(fn $name(
                bytes: *const u8,
                bytes_length: usize,
                links: *const u16,
                links_length: usize,
                words: *const u32,
                words_length: usize,
                request: *const u32,
                request_length: usize,
                reply: *mut u32,
                reply_length: usize,
            ) -> u32;)*
        }
    };
}

question_entries!(store_window, password_count);

/// The check of a store: whether it is well formed.
pub fn check(raw: &RawStore) -> bool {
    let RawStore { bytes, links, words } = raw;
    // SAFETY: each pointer comes with its slice's length, and the function only reads.
    unsafe {
        store_check(
            bytes.as_ptr(),
            bytes.len(),
            links.as_ptr(),
            links.len(),
            words.as_ptr(),
            words.len(),
        )
    }
}

/// The fresh store, written into the slices: 0, or 1 if a slice has another length.
pub fn fresh(supply: u32, [p1, p2]: [u32; 2], raw: &mut RawStore) -> u32 {
    let RawStore { bytes, links, words } = raw;
    // SAFETY: each pointer comes with its slice's length, and the slices are lent for writing.
    unsafe {
        store_fresh(
            supply,
            p1,
            p2,
            bytes.as_mut_ptr(),
            bytes.len(),
            links.as_mut_ptr(),
            links.len(),
            words.as_mut_ptr(),
            words.len(),
        )
    }
}

/// The type of `store_call` and `store_step_unchecked`.
type Entry = unsafe extern "C" fn(
    *mut u8,
    usize,
    *mut u16,
    usize,
    *mut u32,
    usize,
    *const u8,
    usize,
    *mut u8,
    usize,
    *mut u16,
    usize,
    *const u32,
    usize,
    *mut u32,
    usize,
) -> u32;

/// The code alone is handed back; the reply is written into its slice.
fn enter(
    entry: Entry,
    raw: &mut RawStore,
    (numbers, text): (&[u32], &[u8]),
    buffer: &mut [u8],
    scratch: &mut [u16],
    reply: &mut [u32],
) -> u32 {
    let RawStore { bytes, links, words } = raw;
    // SAFETY: each pointer comes with its slice's length; the slices that are written are lent
    // for writing, and no two overlap. `store_step_unchecked` is handed well-formed stores alone.
    unsafe {
        entry(
            bytes.as_mut_ptr(),
            bytes.len(),
            links.as_mut_ptr(),
            links.len(),
            words.as_mut_ptr(),
            words.len(),
            text.as_ptr(),
            text.len(),
            buffer.as_mut_ptr(),
            buffer.len(),
            scratch.as_mut_ptr(),
            scratch.len(),
            numbers.as_ptr(),
            numbers.len(),
            reply.as_mut_ptr(),
            reply.len(),
        )
    }
}

/// A request's numbers and its text.
fn handed(request: &Request) -> (&[u32], &[u8]) {
    (&request.numbers, &request.text)
}

fn reply_of(
    entry: Entry,
    raw: &mut RawStore,
    request: &Request,
    buffer: &mut [u8],
    scratch: &mut [u16],
) -> [u32; REPLY] {
    let mut reply = [0; REPLY];
    let code = enter(entry, raw, handed(request), buffer, scratch, &mut reply);
    assert_eq!(code, reply[0], "the code is returned, too");
    reply
}

/// A call on any store.
pub fn call(
    raw: &mut RawStore,
    request: &Request,
    buffer: &mut [u8],
    scratch: &mut [u16],
) -> [u32; REPLY] {
    reply_of(store_call, raw, request, buffer, scratch)
}

/// A call on any store, by a request and a reply of any length: its code.
pub fn call_by(
    raw: &mut RawStore,
    numbers: &[u32],
    buffer: &mut [u8],
    scratch: &mut [u16],
    reply: &mut [u32],
) -> u32 {
    enter(store_call, raw, (numbers, &[]), buffer, scratch, reply)
}

/// The type of `store_window` and `password_count`.
type QuestionEntry = unsafe extern "C" fn(
    *const u8,
    usize,
    *const u16,
    usize,
    *const u32,
    usize,
    *const u32,
    usize,
    *mut u32,
    usize,
) -> u32;

fn ask(entry: QuestionEntry, raw: &RawStore, request: &[u32], reply: &mut [u32]) -> u32 {
    let RawStore { bytes, links, words } = raw;
    // SAFETY: each pointer comes with its slice's length; the reply, which alone is written, is
    // lent for writing.
    unsafe {
        entry(
            bytes.as_ptr(),
            bytes.len(),
            links.as_ptr(),
            links.len(),
            words.as_ptr(),
            words.len(),
            request.as_ptr(),
            request.len(),
            reply.as_mut_ptr(),
            reply.len(),
        )
    }
}

/// The question for a window: its code; the reply is written into its slice.
pub fn window(raw: &RawStore, request: &[u32], reply: &mut [u32]) -> u32 {
    ask(store_window, raw, request, reply)
}

/// The question for the number of passwords, in the same way.
pub fn count(raw: &RawStore, request: &[u32], reply: &mut [u32]) -> u32 {
    ask(password_count, raw, request, reply)
}

/// The question what can be lent from a list, in the same way.
pub fn lend(raw: &RawStore, list: &[u32], request: &[u32], reply: &mut [u32]) -> u32 {
    let RawStore { bytes, links, words } = raw;
    // SAFETY: each pointer comes with its slice's length; the reply, which alone is written, is
    // lent for writing.
    unsafe {
        lend_place(
            bytes.as_ptr(),
            bytes.len(),
            links.as_ptr(),
            links.len(),
            words.as_ptr(),
            words.len(),
            list.as_ptr(),
            list.len(),
            request.as_ptr(),
            request.len(),
            reply.as_mut_ptr(),
            reply.len(),
        )
    }
}

/// The type of `drive_pick`, `drive_pick_unchecked` and `hook_read`.
type ReadEntry = unsafe extern "C" fn(
    *mut u8,
    usize,
    *mut u16,
    usize,
    *mut u32,
    usize,
    *mut u8,
    usize,
    *const u32,
    usize,
    *mut u32,
    usize,
) -> u32;

fn enter_read(
    entry: ReadEntry,
    raw: &mut RawStore,
    buffer: &mut [u8],
    request: &[u32],
    reply: &mut [u32],
) -> u32 {
    let RawStore { bytes, links, words } = raw;
    // SAFETY: each pointer comes with its slice's length; the slices that are written are lent
    // for writing, and no two overlap. `drive_pick_unchecked` is handed well-formed stores alone.
    unsafe {
        entry(
            bytes.as_mut_ptr(),
            bytes.len(),
            links.as_mut_ptr(),
            links.len(),
            words.as_mut_ptr(),
            words.len(),
            buffer.as_mut_ptr(),
            buffer.len(),
            request.as_ptr(),
            request.len(),
            reply.as_mut_ptr(),
            reply.len(),
        )
    }
}

/// A pick on any store: its code; the reply is written into its slice.
pub fn pick(raw: &mut RawStore, buffer: &mut [u8], request: &[u32], reply: &mut [u32]) -> u32 {
    enter_read(drive_pick, raw, buffer, request, reply)
}

/// A read by hook on any store: its code; the reply is written into its slice.
pub fn read_by_hook(
    raw: &mut RawStore,
    buffer: &mut [u8],
    request: &[u32],
    reply: &mut [u32],
) -> u32 {
    enter_read(hook_read, raw, buffer, request, reply)
}

/// A write by hook on any store: its code; the reply is written into its slice.
pub fn write_by_hook(raw: &mut RawStore, text: &[u8], request: &[u32], reply: &mut [u32]) -> u32 {
    let RawStore { bytes, links, words } = raw;
    // SAFETY: each pointer comes with its slice's length; the slices that are written are lent
    // for writing, and no two overlap.
    unsafe {
        hook_write(
            bytes.as_mut_ptr(),
            bytes.len(),
            links.as_mut_ptr(),
            links.len(),
            words.as_mut_ptr(),
            words.len(),
            text.as_ptr(),
            text.len(),
            request.as_ptr(),
            request.len(),
            reply.as_mut_ptr(),
            reply.len(),
        )
    }
}

/// Turns the whole tiles of a pattern in place.
pub fn turn(pattern: &mut [u8]) {
    // SAFETY: the pointer comes with its slice's length, and the slice is lent for writing.
    unsafe { hook_turn(pattern.as_mut_ptr(), pattern.len()) }
}

/// A bill on any store: its code; the reply is written into its slice.
pub fn bill(raw: &mut RawStore, request: &[u32], reply: &mut [u32]) -> u32 {
    let RawStore { bytes, links, words } = raw;
    // SAFETY: each pointer comes with its slice's length; the slices that are written are lent
    // for writing, and no two overlap.
    unsafe {
        royalty_bill(
            bytes.as_mut_ptr(),
            bytes.len(),
            links.as_mut_ptr(),
            links.len(),
            words.as_mut_ptr(),
            words.len(),
            request.as_ptr(),
            request.len(),
            reply.as_mut_ptr(),
            reply.len(),
        )
    }
}

/// A store that the verified check has found well formed, and only `step`, `step_into`, `step_by`
/// and `pick` have changed since.
#[derive(Clone)]
pub struct FormedStore(RawStore);

impl FormedStore {
    /// The store, if it is well formed.
    pub fn new(raw: RawStore) -> Option<FormedStore> {
        check(&raw).then_some(FormedStore(raw))
    }

    /// A call on the store, which is not checked again.
    pub fn step(
        &mut self,
        request: &Request,
        buffer: &mut [u8],
        scratch: &mut [u16],
    ) -> [u32; REPLY] {
        reply_of(store_step_unchecked, &mut self.0, request, buffer, scratch)
    }

    /// The same, with the reply written into its slice: its code.
    pub fn step_into(
        &mut self,
        request: &Request,
        buffer: &mut [u8],
        scratch: &mut [u16],
        reply: &mut [u32; REPLY],
    ) -> u32 {
        enter(store_step_unchecked, &mut self.0, handed(request), buffer, scratch, reply)
    }

    /// The same, by a request and a reply of any length.
    pub fn step_by(
        &mut self,
        numbers: &[u32],
        buffer: &mut [u8],
        scratch: &mut [u16],
        reply: &mut [u32],
    ) -> u32 {
        enter(store_step_unchecked, &mut self.0, (numbers, &[]), buffer, scratch, reply)
    }

    /// A pick on the store, which is not checked again: its code.
    pub fn pick(&mut self, buffer: &mut [u8], request: &[u32], reply: &mut [u32]) -> u32 {
        enter_read(drive_pick_unchecked, &mut self.0, buffer, request, reply)
    }

    pub fn raw(&self) -> &RawStore {
        &self.0
    }
}
