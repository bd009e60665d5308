//! A painted stack: a call is made on it, and where the paint is gone, the call has been. (Linux on
//! x86-64, as the static library.)
//!
//! What a call takes is counted from the stack pointer at the call instruction: the return address
//! counts, the arguments that are passed on the stack do not, since they stand above it. What C's
//! memcpy, memmove and memset take counts where the library calls them. A word of which the call
//! leaves every byte as it was painted is not seen, nor is room that a function reserves at the low
//! end of its frame and does not use.
use crate::fence::{fenced, PAGE};
use std::arch::asm;

/// Integers and pointers; what is behind a name's last argument is not looked at.
pub type Arguments = [usize; 12];

/// Of the twelve arguments the last six are passed on the stack.
const ON_STACK: usize = 6 * WORD;

const WORD: usize = size_of::<usize>();
const BYTES: usize = 1 << 20;
const PAINT: usize = 0xC5A3_9D71_E2B8_86F4;
const STRIPE: usize = 64;

/// The stack, below which a page cannot be touched.
pub struct Painted {
    lowest: *mut usize,
}

impl Default for Painted {
    fn default() -> Painted {
        let start = fenced(PAGE + BYTES, 0);
        let mut stack = Painted { lowest: unsafe { start.add(PAGE) }.cast() };
        stack.words().fill(PAINT);
        stack
    }
}

impl Painted {
    /// All of it; it is not in use between two calls.
    fn words(&mut self) -> &mut [usize] {
        unsafe { std::slice::from_raw_parts_mut(self.lowest, BYTES / WORD) }
    }

    /// Calls a C name; gives the number that it returns and the bytes that it took.
    ///
    /// # Safety
    /// The arguments are those of the C name, which returns a number in a byte.
    pub unsafe fn call(&mut self, name: *const (), arguments: &Arguments) -> (u8, usize) {
        let top = self.lowest.byte_add(BYTES);
        let number = call_on(top, name, arguments);
        let words = self.words();
        let stripes = words.chunks_exact(STRIPE);
        let clean = stripes.take_while(|stripe| is_painted(stripe)).count() * STRIPE;
        let lowest = clean + words[clean..].iter().take_while(|word| **word == PAINT).count();
        words[lowest..].fill(PAINT);
        (number, BYTES - ON_STACK - lowest * WORD)
    }
}

/// Whether all words are painted, without a branch for each.
fn is_painted(words: &[usize]) -> bool {
    words.iter().fold(0, |changed, word| changed | (word ^ PAINT)) == 0
}

/// Calls a C name with the stack pointer at `top`, a multiple of 16. r12 keeps the stack pointer
/// meanwhile: the name leaves it as it is.
#[inline(never)]
unsafe fn call_on(top: *mut usize, name: *const (), arguments: &Arguments) -> u8 {
    let number: usize;
    asm!(
        "mov r12, rsp",
        "mov rsp, rax",
        "push qword ptr [r13 + 88]",
        "push qword ptr [r13 + 80]",
        "push qword ptr [r13 + 72]",
        "push qword ptr [r13 + 64]",
        "push qword ptr [r13 + 56]",
        "push qword ptr [r13 + 48]",
        "mov rdi, [r13]",
        "mov rsi, [r13 + 8]",
        "mov rdx, [r13 + 16]",
        "mov rcx, [r13 + 24]",
        "mov r8, [r13 + 32]",
        "mov r9, [r13 + 40]",
        "call r14",
        "mov rsp, r12",
        inlateout("rax") top as usize => number,
        in("r13") arguments,
        in("r14") name,
        out("r12") _,
        clobber_abi("C"),
    );
    number as u8
}
