//! A stack of its own for a call, so that what the call takes of it is seen.

use crate::work::{Make, Work};
use std::arch::asm;

/// The words of such a stack, a mebibyte in all, and what each holds until it is written.
const WORDS: usize = 1 << 16;
const MARK: u128 = 0xA5A5_A5A5_A5A5_A5A5_5A5A_5A5A_5A5A_5A5A;

/// What a call gives, and how many bytes of stack it took: from the highest to the lowest written.
pub fn stack_taken<Call: FnOnce() -> Given, Given>(call: Call) -> (Given, usize) {
    let mut stack = vec![MARK; WORDS];
    let mut work = Work::new(call);
    // Sound: the stack pointer is the usual one again at the end, the call keeps r12 to r15 as every
    // C function does, begins with an aligned stack, and all that is used outlives the block.
    unsafe {
        asm!(
            "mov r12, rsp",
            "mov rsp, r14",
            "call r13",
            "mov rsp, r12",
            in("rdi") &mut work,
            in("r13") Work::make as Make<Call, Given>,
            in("r14") stack.as_mut_ptr_range().end,
            out("r12") _,
            clobber_abi("C"),
        );
    }
    let untouched = stack.iter().take_while(|&&word| word == MARK).count();
    (work.given(), (WORDS - untouched) * size_of::<u128>())
}
