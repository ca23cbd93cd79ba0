//! Measures the stack of a call: the call is made on a region of our own, filled beforehand.

use crate::vectors::Line;
use std::arch::asm;

/// The bytes of the region.
const SIZE: usize = 64 * 1024;

/// A region that serves as a stack.
#[repr(align(16))]
struct Region([u8; SIZE]);

/// Calls an entry on the region's stack. An entry takes n, the table and its length, the buffer and
/// its length; one that takes fewer leaves the last.
fn call_on(region: &mut Region, entry: usize, line: &Line) {
    let top = region.0.as_mut_ptr_range().end;
    let mut out = [0u8; 10];
    unsafe {
        asm!(
            "mov r12, rsp",
            "mov rsp, {top}",
            "call {entry}",
            "mov rsp, r12",
            top = in(reg) top,
            entry = in(reg) entry,
            out("r12") _,
            in("rdi") line.n as u64,
            in("rsi") line.table.as_ptr(),
            in("rdx") line.table.len(),
            in("rcx") out.as_mut_ptr(),
            in("r8") out.len(),
            clobber_abi("C"),
        );
    }
}

/// The bytes between the top of the region and the deepest one that a call changed.
fn used(region: &mut Region, entry: usize, line: &Line, filling: u8) -> usize {
    region.0.fill(filling);
    call_on(region, entry, line);
    let kept = region.0.iter().take_while(|byte| **byte == filling).count();
    SIZE - kept
}

/// The most stack that an entry uses on any of some functions, with either of two fillings.
fn most(entry: usize, lines: &[Line]) -> usize {
    let mut region = Box::new(Region([0; SIZE]));
    let mut most = 0;
    for line in lines {
        for filling in [0xA5, 0x5A] {
            most = most.max(used(&mut region, entry, line, filling));
        }
    }
    assert!(most < SIZE, "the region is too small");
    most
}

/// Prints the stack of one call of each entry, and how it was measured.
pub fn report(entries: &[(&str, usize)], lines: &[Line]) {
    for (name, entry) in entries {
        let bytes = most(*entry, lines);
        println!("Stack of one call, {name}: at most {bytes} bytes over all functions above.");
    }
    println!(
        "Each function is called on a region of {SIZE} bytes, filled with A5 and again with 5A;"
    );
    println!("counted from its top, the return address included, to the deepest byte changed.");
}
