//! The office library itself, linked from its archive.

use crate::office::{Office, Packed};

// Slices pass as a pointer and a length in elements. The library reads what is
// `const` and writes what is `mut`, neither past its length, and keeps no pointer.
extern "C" {
    fn office_calculate(job: *const u8, job_length: usize, out: *mut i64, out_length: usize)
        -> u64;
    fn office_text(job: *const u8, job_length: usize, out: *mut u8, out_length: usize) -> usize;
    fn office_drawing(
        job: *const u8,
        job_length: usize,
        wall: u32,
        out: *mut f64,
        out_length: usize,
    ) -> u64;
    fn office_has_failed(failures: u16, check: u16) -> bool;
    fn office_write(
        walls: *const u32,
        walls_length: usize,
        loads: *const u32,
        loads_length: usize,
        out: *mut u8,
        out_length: usize,
    ) -> u64;
    fn office_records(
        job: *const u8,
        job_length: usize,
        walls: *mut u32,
        walls_length: usize,
        loads: *mut u32,
        loads_length: usize,
    ) -> u64;
}

/// The library's answers.
pub struct Library;

impl Office for Library {
    fn calculate(&self, job: &[u8], out: &mut [i64]) -> Packed {
        // SAFETY: both are whole slices, and the library asks nothing of them.
        Packed(unsafe { office_calculate(job.as_ptr(), job.len(), out.as_mut_ptr(), out.len()) })
    }

    fn text(&self, job: &[u8], out: &mut [u8]) -> usize {
        // SAFETY: as above.
        unsafe { office_text(job.as_ptr(), job.len(), out.as_mut_ptr(), out.len()) }
    }

    fn drawing(&self, job: &[u8], wall: u32, out: &mut [f64]) -> Packed {
        let (figures, room) = (out.as_mut_ptr(), out.len());
        // SAFETY: as above.
        Packed(unsafe { office_drawing(job.as_ptr(), job.len(), wall, figures, room) })
    }

    fn has_failed(&self, failures: u16, check: u16) -> bool {
        // SAFETY: two numbers are all that the library is given.
        unsafe { office_has_failed(failures, check) }
    }
    fn write(&self, walls: &[u32], loads: &[u32], out: &mut [u8]) -> Packed {
        // SAFETY: all are whole slices, and the library asks nothing of them.
        Packed(unsafe {
            office_write(
                walls.as_ptr(),
                walls.len(),
                loads.as_ptr(),
                loads.len(),
                out.as_mut_ptr(),
                out.len(),
            )
        })
    }

    fn records(&self, job: &[u8], walls: &mut [u32], loads: &mut [u32]) -> Packed {
        // SAFETY: as above.
        Packed(unsafe {
            office_records(
                job.as_ptr(),
                job.len(),
                walls.as_mut_ptr(),
                walls.len(),
                loads.as_mut_ptr(),
                loads.len(),
            )
        })
    }
}
