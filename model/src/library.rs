//! The proved planner, linked as a static library.

use crate::line::Filling;
use crate::planner::Planner;

#[link(name = "interface", kind = "static")]
extern "C" {
    fn givrethans_perform_ethernet(
        codes: *const u8,
        codes_len: usize,
        calls: *const u8,
        calls_len: usize,
        answers: *mut u8,
        answers_len: usize,
        buffer: *mut u8,
        buffer_len: usize,
    ) -> i64;

    fn givrethans_perform_cells(
        ports: u8,
        cell_size: u16,
        cell_time: u32,
        calls: *const u8,
        calls_len: usize,
        answers: *mut u8,
        answers_len: usize,
        buffer: *mut u8,
        buffer_len: usize,
    ) -> i64;
}

pub struct Library;

impl Planner for Library {
    fn perform(&self, filling: &Filling, calls: &[u8], answers: &mut [u8], buffer: &mut [u8]) -> i64 {
        // Each pointer goes with the length of the slice that it is of, and no two slices share octets.
        match filling {
            Filling::Ethernet(codes) => unsafe {
                givrethans_perform_ethernet(
                    codes.as_ptr(),
                    codes.len(),
                    calls.as_ptr(),
                    calls.len(),
                    answers.as_mut_ptr(),
                    answers.len(),
                    buffer.as_mut_ptr(),
                    buffer.len(),
                )
            },
            Filling::Cells { ports, size, time } => unsafe {
                givrethans_perform_cells(
                    *ports,
                    *size,
                    *time,
                    calls.as_ptr(),
                    calls.len(),
                    answers.as_mut_ptr(),
                    answers.len(),
                    buffer.as_mut_ptr(),
                    buffer.len(),
                )
            },
        }
    }
}
