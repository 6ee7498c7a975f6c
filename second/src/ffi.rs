//! The archive's C names, wrapped so that the rest of this program needs no `unsafe`.

use crate::steps::{Checked, Compared, Count, Opened, Steps, Written};

extern "C" {
    fn graupenzelt_open(block: *const u8, block_bytes: usize) -> Opened;
    fn graupenzelt_frame(
        payload: *const u8,
        payload_bytes: usize,
        area: *mut u8,
        area_bytes: usize,
    ) -> Written;
    fn graupenzelt_check(payload: *const u8, payload_bytes: usize) -> Checked;
    fn graupenzelt_compare(
        first: *const Count,
        first_counts: usize,
        second: *const Count,
        second_counts: usize,
    ) -> Compared;
    fn graupenzelt_handle(
        block: *const u8,
        block_bytes: usize,
        area: *mut u8,
        area_bytes: usize,
        work: *mut u16,
        work_numbers: usize,
    ) -> Written;
}

/// The library as it stands in `libgraupenzelt.a`.
pub struct Archive;

// Each call passes whole slices as pointer and count, which is all that the library asks for:
// it reads and writes inside them and keeps none of the pointers.
impl Steps for Archive {
    fn name(&self) -> &'static str {
        "library"
    }

    fn open(&self, block: &[u8]) -> Opened {
        unsafe { graupenzelt_open(block.as_ptr(), block.len()) }
    }

    fn frame(&self, payload: &[u8], area: &mut [u8]) -> Written {
        unsafe { graupenzelt_frame(payload.as_ptr(), payload.len(), area.as_mut_ptr(), area.len()) }
    }

    fn check(&self, payload: &[u8]) -> Checked {
        unsafe { graupenzelt_check(payload.as_ptr(), payload.len()) }
    }

    fn compare(&self, first: &[Count], second: &[Count]) -> Compared {
        unsafe { graupenzelt_compare(first.as_ptr(), first.len(), second.as_ptr(), second.len()) }
    }

    fn handle(&self, block: &[u8], area: &mut [u8], work: &mut [u16]) -> Written {
        unsafe {
            graupenzelt_handle(
                block.as_ptr(),
                block.len(),
                area.as_mut_ptr(),
                area.len(),
                work.as_mut_ptr(),
                work.len(),
            )
        }
    }
}
