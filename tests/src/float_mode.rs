//! The processor's modes for subnormal floats: those other than 0 with bits below hex 00800000.
//! A host may have set them, as one built with -ffast-math has set both, and no answer may depend
//! on them. The reference holds weights as whole numbers, so that its answers do not.

use crate::work::{Make, Work};
use std::arch::asm;

/// Which of the two modes are set.
#[derive(Clone, Copy, Debug, PartialEq, Eq)]
pub struct FloatMode {
    /// A subnormal result becomes 0.
    pub flush_to_zero: bool,
    /// A subnormal operand counts as 0.
    pub denormals_are_zero: bool,
}

pub const FLOAT_MODES: [FloatMode; 4] = [
    mode(false, false),
    mode(true, false),
    mode(false, true),
    mode(true, true),
];

const fn mode(flush_to_zero: bool, denormals_are_zero: bool) -> FloatMode {
    FloatMode {
        flush_to_zero,
        denormals_are_zero,
    }
}

/// Bits of the register MXCSR. The lowest six say which floating-point exceptions were raised.
const FLUSH_TO_ZERO: u32 = 1 << 15;
const DENORMALS_ARE_ZERO: u32 = 1 << 6;
const RAISED: u32 = 0x3F;

impl FloatMode {
    /// The place among the four.
    pub fn index(self) -> usize {
        usize::from(self.flush_to_zero) + 2 * usize::from(self.denormals_are_zero)
    }

    /// The register's bits, changed to this mode with no exception raised.
    fn put_into(self, bits: u32) -> u32 {
        let others = bits & !(FLUSH_TO_ZERO | DENORMALS_ARE_ZERO | RAISED);
        let flush = FLUSH_TO_ZERO * u32::from(self.flush_to_zero);
        let zero = DENORMALS_ARE_ZERO * u32::from(self.denormals_are_zero);
        others | flush | zero
    }
}

/// What a call gives while the processor is in a mode, which the call has to leave as it is, and
/// whether it raised a floating-point exception: a host may have asked to be ended by one. Rust
/// takes the usual mode for granted, so that the call has to compute with no float of Rust's.
pub fn in_mode<Call: FnOnce() -> Given, Given>(mode: FloatMode, call: Call) -> (Given, bool) {
    let mut work = Work::new(call);
    let usual = register();
    let changed = mode.put_into(usual);
    let mut left: u32 = 0;
    // Sound: the register has its usual bits again at the end, the call keeps r12 to r15 and the
    // stack as every C function does, and all that is read and written outlives the block.
    unsafe {
        asm!(
            "ldmxcsr [r12]",
            "call r13",
            "stmxcsr [r14]",
            "ldmxcsr [r15]",
            in("rdi") &mut work,
            in("r12") &changed,
            in("r13") Work::make as Make<Call, Given>,
            in("r14") &mut left,
            in("r15") &usual,
            clobber_abi("C"),
        );
    }
    assert_eq!(left & !RAISED, changed, "the call changed the mode");
    (work.given(), left != changed)
}

/// The bits of MXCSR.
fn register() -> u32 {
    let mut bits: u32 = 0;
    // Sound: the register is stored into a number of its size.
    unsafe { asm!("stmxcsr [{}]", in(reg) &mut bits, options(nostack, preserves_flags)) };
    bits
}

/// The mode that the processor is seen to be in, by a product that is subnormal and by comparing
/// the least subnormal float with 0.
pub fn observed() -> FloatMode {
    let (least_normal, half): (u32, u32) = (0x0080_0000, 0x3F00_0000);
    let product: u32;
    let same: u8;
    // Sound: only the registers named are changed.
    unsafe {
        asm!(
            "movd {one}, {least_normal:e}",
            "movd {other}, {half:e}",
            "mulss {one}, {other}",
            "movd {product:e}, {one}",
            "movd {one}, {least:e}",
            "xorps {other}, {other}",
            "ucomiss {one}, {other}",
            "sete {same}",
            one = out(xmm_reg) _,
            other = out(xmm_reg) _,
            least_normal = in(reg) least_normal,
            half = in(reg) half,
            least = in(reg) 1u32,
            product = out(reg) product,
            same = out(reg_byte) same,
            options(nomem, nostack),
        );
    }
    mode(product == 0, same == 1)
}
