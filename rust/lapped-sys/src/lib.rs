//! The C interface of liblapped.a, item by item as in `include/lapped.h`.
//!
//! Nothing is checked or renamed here; the crate `lapped` has safe calls over these. Each function
//! that takes pointers takes any mode, size, step indices, tolerance and lengths with them, and answers
//! the number of the first check that fails, 0 if none does. Each pointer must be non-null and aligned,
//! even where its length is 0, with as many elements behind it as its length says, and what is written
//! must overlap nothing else that is passed.
//!
//! ```
//! use lapped_sys::{lapped_answer, lapped_quarter, lapped_size};
//!
//! let size = lapped_size { width: 1, height: 1 };
//! let (dc, low, mut view) = ([64], [0; 15], [0; 16]);
//! // SAFETY: each pointer comes with the length of its array, and only `view` is written.
//! let answer = unsafe {
//!     let (dc, low, view) = (dc.as_ptr(), low.as_ptr(), view.as_mut_ptr());
//!     lapped_quarter(0, size, dc, 1, low, 15, view, 16)
//! };
//! assert_eq!(answer, lapped_answer { number: 0, wrapped: false });
//! assert_eq!(view, [16; 16]);
//! ```

#![no_std]
#![allow(non_camel_case_types)] // The names are those of the header.

/// The size of a picture, in macroblocks.
#[repr(C)]
#[derive(Clone, Copy, Debug, PartialEq, Eq)]
pub struct lapped_size {
    pub width: u32,
    pub height: u32,
}

/// The step indices of the bands, 0 to 255 each.
#[repr(C)]
#[derive(Clone, Copy, Debug, PartialEq, Eq)]
pub struct lapped_steps {
    pub dc: u32,
    pub low: u32,
    pub high: u32,
}

/// What the transform answers: the number and, if it is 0, whether a sum wrapped; else false.
#[repr(C)]
#[derive(Clone, Copy, Debug, PartialEq, Eq)]
pub struct lapped_answer {
    pub number: u32,
    pub wrapped: bool,
}

/// What reading a plane file gives: the answer and, if it is 0, the mode and the size; else zeros.
#[repr(C)]
#[derive(Clone, Copy, Debug, PartialEq, Eq)]
pub struct lapped_header {
    pub number: u32,
    pub mode: u32,
    pub size: lapped_size,
}

/// What finding a step gives: the answer and, if it is 0, the step index; else zeros.
#[repr(C)]
#[derive(Clone, Copy, Debug, PartialEq, Eq)]
pub struct lapped_found {
    pub number: u32,
    pub index: u32,
}

/// How much work the inverse of a picture is: the answer and, if it is 0, how often each operator
/// runs, and the bytes of the planes and of the samples; else zeros.
#[repr(C)]
#[derive(Clone, Copy, Debug, PartialEq, Eq)]
pub struct lapped_work {
    pub number: u32,
    pub cores: u32,
    pub square_filters: u32,
    pub four_filters: u32,
    pub plane_bytes: u32,
    pub sample_bytes: u32,
}

extern "C" {
    /// From coefficient planes to samples. Checks 1, 2, 3, 4, 5, 6, 7.
    pub fn lapped_inverse(
        mode: u32,
        size: lapped_size,
        dc: *const i32,
        dc_len: usize,
        low: *const i32,
        low_len: usize,
        high: *const i32,
        high_len: usize,
        samples: *mut i32,
        samples_len: usize,
    ) -> lapped_answer;

    /// The quarter-size view, from the DC and low-pass planes alone. Checks 1, 2, 3, 4, 5, 8.
    pub fn lapped_quarter(
        mode: u32,
        size: lapped_size,
        dc: *const i32,
        dc_len: usize,
        low: *const i32,
        low_len: usize,
        view: *mut i32,
        view_len: usize,
    ) -> lapped_answer;

    /// From samples to coefficient planes. Checks 1, 2, 3, 7, 4, 5, 6.
    pub fn lapped_forward(
        mode: u32,
        size: lapped_size,
        samples: *const i32,
        samples_len: usize,
        dc: *mut i32,
        dc_len: usize,
        low: *mut i32,
        low_len: usize,
        high: *mut i32,
        high_len: usize,
    ) -> lapped_answer;

    /// The work of a picture, from its mode and size alone. Checks 1, 2, 3.
    pub fn lapped_forecast(mode: u32, size: lapped_size) -> lapped_work;

    /// The step of an index; 0 for an index above 255.
    pub fn lapped_step(index: u32) -> u32;

    /// From coefficients to levels. Checks 1, 2, 3, 14, then 4, 5, 6 of the planes read, then 4, 5, 6
    /// of those written.
    pub fn lapped_quantise(
        mode: u32,
        size: lapped_size,
        steps: lapped_steps,
        dc: *const i32,
        dc_len: usize,
        low: *const i32,
        low_len: usize,
        high: *const i32,
        high_len: usize,
        dc_levels: *mut i32,
        dc_levels_len: usize,
        low_levels: *mut i32,
        low_levels_len: usize,
        high_levels: *mut i32,
        high_levels_len: usize,
    ) -> u32;

    /// From levels to coefficients. Checks 1, 2, 3, 14, then 4, 5, 6 of the planes read, then 4, 5, 6
    /// of those written, then 15.
    pub fn lapped_restore(
        mode: u32,
        size: lapped_size,
        steps: lapped_steps,
        dc_levels: *const i32,
        dc_levels_len: usize,
        low_levels: *const i32,
        low_levels_len: usize,
        high_levels: *const i32,
        high_levels_len: usize,
        dc: *mut i32,
        dc_len: usize,
        low: *mut i32,
        low_len: usize,
        high: *mut i32,
        high_len: usize,
    ) -> u32;

    /// An index for all bands that keeps a tolerance, with the restored coefficients and their samples.
    /// Checks 1, 2, 3, then 7 of the samples, then 7 of the second ones, then 4, 5, 6.
    pub fn lapped_find_step(
        mode: u32,
        size: lapped_size,
        tolerance: u32,
        samples: *const i32,
        samples_len: usize,
        dc: *mut i32,
        dc_len: usize,
        low: *mut i32,
        low_len: usize,
        high: *mut i32,
        high_len: usize,
        second: *mut i32,
        second_len: usize,
    ) -> lapped_found;

    /// The mode and the size of a plane file that is lent whole. Checks 9, 1, 2, 3, 10, 11, 12.
    pub fn lapped_read_header(bytes: *const u8, len: usize) -> lapped_header;

    /// Fills the planes from a plane file. Checks 9, 1, 2, 3, 10, 11, 12, 4, 5, 6.
    pub fn lapped_load(
        bytes: *const u8,
        len: usize,
        dc: *mut i32,
        dc_len: usize,
        low: *mut i32,
        low_len: usize,
        high: *mut i32,
        high_len: usize,
    ) -> lapped_header;

    /// Writes a plane file. Checks 1, 2, 3, 4, 5, 6, 12.
    pub fn lapped_save(
        mode: u32,
        size: lapped_size,
        dc: *const i32,
        dc_len: usize,
        low: *const i32,
        low_len: usize,
        high: *const i32,
        high_len: usize,
        bytes: *mut u8,
        len: usize,
    ) -> u32;
}
