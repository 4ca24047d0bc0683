//! How much stack a call touches. It runs on a stack of its own that is filled with a pattern before; afterwards the lowest word that
//! differs tells how deep it went. Space that a function takes and never writes is not seen.

use std::arch::asm;
use std::hint::black_box;

use crate::cases::Case;

const PATTERN: u64 = 0xC01D_11C4_C01D_11C4;
const WORDS: usize = 1 << 17;

/// What the new stack calls: one pointer finds all.
struct Job<'a, Q> {
    run: fn(&mut Q, &mut [u8]),
    queue: &'a mut Q,
    out: &'a mut [u8],
}

extern "C" fn start<Q>(job: &mut Job<Q>) {
    (job.run)(job.queue, job.out);
}

/// Bytes between the top of the stack and the lowest word that was written.
fn depth<Q>(job: &mut Job<Q>) -> usize {
    let mut stack = vec![PATTERN; WORDS];
    let top = stack.as_mut_ptr_range().end as usize & !15;
    // SAFETY: `top` is the aligned end of memory that lives until after the call and is far deeper than any of these calls; r12 is kept by
    // every callee, so the old stack comes back; `start` cannot unwind, being extern "C".
    unsafe {
        asm!(
            "mov r12, rsp",
            "mov rsp, {top}",
            "call {start}",
            "mov rsp, r12",
            top = in(reg) top,
            start = in(reg) start::<Q> as extern "C" fn(&mut Job<Q>),
            in("rdi") job,
            out("r12") _,
            clobber_abi("C"),
        );
    }
    let untouched = black_box(&stack).iter().take_while(|w| **w == PATTERN);
    top - stack.as_ptr() as usize - 8 * untouched.count()
}

fn deepest<Q>(made: &impl Fn() -> Q, lent: usize, run: fn(&mut Q, &mut [u8])) -> usize {
    let once = |_| {
        let mut queue = Box::new(made());
        let mut out = vec![0; lent];
        depth(&mut Job {
            run,
            queue: &mut *queue,
            out: &mut out,
        })
    };
    // The first call may also bind symbols or ask the system for memory, on this stack.
    (0..4).map(once).skip(1).max().unwrap_or(0)
}

/// Bytes of stack below the caller: arguments on the stack, return address, and the frames of all that is called. What the way there
/// takes is left out.
pub fn touched<Q>(made: &impl Fn() -> Q, lent: usize, run: fn(&mut Q, &mut [u8])) -> usize {
    deepest(made, lent, run) - deepest(made, lent, |_, _| {})
}

pub fn of<Q>(case: &Case<Q>) -> usize {
    touched(&case.made, case.lent, case.run)
}
