//! The last call through C. One that reads or writes outside its slices is printed, and the program ends.
use crate::hex;
use std::cell::Cell;
use std::ffi::c_int;
use std::ptr;

extern "C" {
    fn signal(number: c_int, handler: extern "C" fn(c_int)) -> usize;
    fn _exit(status: c_int) -> !;
}

/// The place and the number of bytes of a slice.
type Span = (*const u8, usize);

#[derive(Clone, Copy)]
struct Call {
    name: &'static str,
    numbers: [u64; 3],
    slices: [Span; 5],
}

const NO_CALL: Call = Call { name: "none", numbers: [0; 3], slices: [(ptr::null(), 0); 5] };

thread_local! {
    static LAST: Cell<Call> = const { Cell::new(NO_CALL) };
}

/// Notes the call that follows: its entry, its numbers and its slices.
pub fn note(name: &'static str, numbers: &[u64], slices: &[Span]) {
    let mut call = Call { name, ..NO_CALL };
    call.numbers[..numbers.len()].copy_from_slice(numbers);
    call.slices[..slices.len()].copy_from_slice(slices);
    LAST.with(|last| last.set(call));
}

/// Prints the inputs of the last call and ends the program.
extern "C" fn on_bad_access(_signal: c_int) {
    let call = LAST.with(Cell::get);
    println!("bad access in {}: numbers {:?}, slices", call.name, call.numbers);
    for (start, count) in call.slices {
        if count > 0 {
            // SAFETY: the slices of the last call still lie in the areas.
            println!("  {}", hex::text(unsafe { std::slice::from_raw_parts(start, count) }));
        }
    }
    // SAFETY: ends the process.
    unsafe { _exit(1) }
}

const BUS_ERROR: c_int = 7;
const SEGMENTATION_FAULT: c_int = 11;

/// From now on a bad access is printed.
pub fn report() {
    // SAFETY: the handler does not return.
    unsafe {
        signal(BUS_ERROR, on_bad_access);
        signal(SEGMENTATION_FAULT, on_bad_access);
    }
}
