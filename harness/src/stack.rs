//! How deep a call goes on the stack. The other unsafe code is in `kernel`.

use std::arch::asm;
use std::thread;

/// How much of the stack below the caller is looked at.
const LOOKED_AT: usize = 4 << 20;
const PAINT: u64 = 0x5a17_ed5a_17ed_5a17;

/// The bytes of stack from the caller of `work` down to the deepest one that it wrote, on a
/// thread of its own.
pub fn depth(work: impl FnOnce() + Send) -> usize {
    let found = thread::scope(|scope| {
        let builder = thread::Builder::new().stack_size(2 * LOOKED_AT);
        let painted = builder.spawn_scoped(scope, || painted_depth(work));
        painted.expect("a thread").join().expect("its work")
    });
    assert!(found + 4096 < LOOKED_AT, "deeper than what is looked at");
    found
}

#[inline(never)]
fn painted_depth(work: impl FnOnce()) -> usize {
    let low: *const u64;
    // SAFETY: paints what lies below the stack pointer, within the thread's stack. Nothing that
    // lives stands there, since the block may use the stack (it has no option `nostack`).
    unsafe {
        asm!(
            "lea rdi, [rsp - {size}]",
            "mov {low}, rdi",
            "rep stosq",
            size = const LOOKED_AT,
            low = out(reg) low,
            inout("rcx") LOOKED_AT / 8 => _,
            in("rax") PAINT,
            out("rdi") _,
        );
    }
    work();
    // SAFETY: these words are in the thread's stack, below this frame.
    let kept = (0..LOOKED_AT / 8).take_while(|at| unsafe { low.add(*at).read_volatile() } == PAINT);
    LOOKED_AT - 8 * kept.count()
}
