//! How much stack a call takes: it is made on a stack of its own, painted beforehand, and the lowest byte that lost its paint says how far
//! down the call went.

use std::arch::asm;

/// More than any call takes.
const ROOM: usize = 1 << 20;
const PAINT: u8 = 0xA5;

/// What is run on the painted stack: a call behind a pointer to its fat pointer.
extern "C" fn enter(call: *mut &mut dyn FnMut()) {
    // SAFETY: `depth` hands over a pointer to its own local.
    unsafe { (*call)() }
}

/// The bytes between the top of a fresh stack and the lowest byte that the call writes. `call` may not unwind.
pub fn depth(mut call: &mut dyn FnMut()) -> usize {
    let mut room = vec![PAINT; ROOM];
    let range = room.as_mut_ptr_range();
    let top = range.end as usize / 16 * 16;
    // SAFETY: the stack pointer is kept in r12, which a C function leaves as it is, and put back after the call. What runs in between has a
    // mebibyte, aligned as C has it at a call.
    unsafe {
        asm!(
            "mov r12, rsp",
            "mov rsp, {top}",
            "call {enter}",
            "mov rsp, r12",
            top = in(reg) top,
            enter = in(reg) enter as extern "C" fn(*mut &mut dyn FnMut()),
            in("rdi") &mut call,
            out("r12") _,
            clobber_abi("C"),
        );
    }
    let untouched = room.iter().take_while(|&&byte| byte == PAINT).count();
    top - (range.start as usize + untouched)
}
