//! How much stack a call of the proved desk takes. The call runs on a stack of its own that was
//! filled with a pattern, and the deepest word that has lost it tells how far the call came. The
//! address to return to counts, as it does for every caller.

use std::arch::asm;

use crate::desk::{self, DeskSheet, EXPLANATION_BYTES, TEXT_BYTES};

/// More than any call takes, by far: below it nothing guards the memory of others.
const ROOM: usize = 1 << 16;

const PATTERN: u64 = 0x5aa5_a55a_5aa5_a55a;

/// The words of the arguments, in the order in which C's calling form has them in registers.
type Words = [usize; 5];

/// What a call answered, and the bytes of stack that it took.
pub struct Taken<Answer> {
    pub answer: Answer,
    pub bytes: usize,
}

/// Two words: the calling form asks for a stack that ends at a multiple of 16 bytes.
#[derive(Clone, Copy, PartialEq)]
#[repr(align(16))]
struct Pair([u64; 2]);

/// A stack to measure on.
pub struct Stack(Vec<Pair>);

impl Default for Stack {
    fn default() -> Stack {
        Stack(vec![Pair([PATTERN; 2]); ROOM / size_of::<Pair>()])
    }
}

impl Stack {
    /// Tests the case.
    pub fn check_case(&mut self, case: &[u8]) -> Taken<u32> {
        let words = [case.as_ptr() as usize, case.len(), 0, 0, 0];
        // SAFETY: `desk_check_case` takes a pointer and a length, those of one live slice, which
        // is only read.
        let (answer, bytes) =
            unsafe { self.call(desk::desk_check_case as *const () as usize, words) };
        Taken {
            answer: answer as u32,
            bytes,
        }
    }

    /// Rules the case into `out`.
    pub fn rule_case(&mut self, case: &[u8], out: &mut [u8]) -> Taken<u32> {
        let words = [
            case.as_ptr() as usize,
            case.len(),
            out.as_mut_ptr() as usize,
            out.len(),
            0,
        ];
        // SAFETY: `desk_rule_case` takes two pointers with a length each, those of two live slices;
        // `out` is lent exclusively, so the two do not overlap.
        let (answer, bytes) =
            unsafe { self.call(desk::desk_rule_case as *const () as usize, words) };
        Taken {
            answer: answer as u32,
            bytes,
        }
    }

    /// Rules the sheet into `out`.
    pub fn rule_sheet(&mut self, sheet: &[u8], out: &mut [u8]) -> Taken<DeskSheet> {
        let mut answer = DeskSheet {
            refusal: 0,
            written: 0,
            ruled: 0,
            refused: 0,
        };
        let words = [
            &raw mut answer as usize,
            sheet.as_ptr() as usize,
            sheet.len(),
            out.as_mut_ptr() as usize,
            out.len(),
        ];
        // SAFETY: as for a case; the struct of 32 bytes is given back by the pointer in front.
        let (_, bytes) = unsafe { self.call(desk::desk_rule_sheet as *const () as usize, words) };
        Taken { answer, bytes }
    }

    /// Prints the sheet into `out`.
    pub fn print_sheet(&mut self, sheet: &[u8], out: &mut [u8; TEXT_BYTES]) -> Taken<u64> {
        let words = [
            sheet.as_ptr() as usize,
            sheet.len(),
            out.as_mut_ptr() as usize,
            0,
            0,
        ];
        // SAFETY: `desk_print_sheet` takes a pointer and a length, those of one live slice, and a
        // pointer to an array of the declared size, lent exclusively.
        let (answer, bytes) =
            unsafe { self.call(desk::desk_print_sheet as *const () as usize, words) };
        Taken { answer, bytes }
    }

    /// Explains the case into `out`.
    pub fn explain_case(&mut self, case: &[u8], out: &mut [u8; EXPLANATION_BYTES]) -> Taken<u64> {
        let words = [
            case.as_ptr() as usize,
            case.len(),
            out.as_mut_ptr() as usize,
            0,
            0,
        ];
        // SAFETY: `desk_explain_case` takes a pointer and a length, those of one live slice, and a
        // pointer to an array of the declared size, lent exclusively.
        let (answer, bytes) =
            unsafe { self.call(desk::desk_explain_case as *const () as usize, words) };
        Taken { answer, bytes }
    }

    /// What the function leaves in the register for an answer, and the bytes that it took.
    ///
    /// # Safety
    ///
    /// The function takes the words in C's calling form.
    unsafe fn call(&mut self, function: usize, words: Words) -> (u64, usize) {
        let Stack(pairs) = self;
        pairs.fill(Pair([PATTERN; 2]));
        // SAFETY: the stack is empty, nobody else has it, and its end is that of a `Pair`; the
        // caller answers for the words.
        let answer = unsafe { call_on(pairs.as_mut_ptr_range().end, function, words) };
        let kept = pairs
            .iter()
            .flat_map(|&Pair(words)| words)
            .take_while(|&word| word == PATTERN)
            .count();
        assert!(kept > 0, "the call took the whole stack");
        (answer, ROOM - kept * size_of::<u64>())
    }
}

/// Calls the function on another stack, which ends below `top`.
///
/// # Safety
///
/// The function takes the words in C's calling form. `top` is a multiple of 16, and below it are
/// more bytes than the function takes.
unsafe fn call_on(top: *mut Pair, function: usize, words: Words) -> u64 {
    let answer;
    // The registers that a function must keep are 0 at the call: what it saves of them could else
    // be the very pattern, and look like a word that was not touched.
    // SAFETY: each of those registers is put back, and every other that a call may change is named.
    unsafe {
        asm!(
            "push rbx",
            "push rbp",
            "push r13",
            "push r14",
            "push r15",
            "mov r12, rsp",
            "mov rsp, {top}",
            "xor ebx, ebx",
            "xor ebp, ebp",
            "xor r13d, r13d",
            "xor r14d, r14d",
            "xor r15d, r15d",
            "call rax",
            "mov rsp, r12",
            "pop r15",
            "pop r14",
            "pop r13",
            "pop rbp",
            "pop rbx",
            top = in(reg) top,
            inout("rax") function as u64 => answer,
            in("rdi") words[0],
            in("rsi") words[1],
            in("rdx") words[2],
            in("rcx") words[3],
            in("r8") words[4],
            out("r12") _,
            clobber_abi("C"),
        );
    }
    answer
}
