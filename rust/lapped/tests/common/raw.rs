//! The functions of the C interface on slices, with any mode, size, steps, tolerance and lengths, and
//! their numbers.

use lapped_sys::{
    lapped_answer, lapped_found, lapped_header, lapped_size, lapped_steps, lapped_work,
};

/// Calls a function with plain arguments, then slices that it reads, then slices that it writes.
macro_rules! call {
    ($function:ident($($plain:ident),*); $($read:ident),*; $($written:ident),*) => {
        // SAFETY: each pointer comes with its slice's length; no slice that is written overlaps another.
        unsafe {
            lapped_sys::$function(
                $($plain,)*
                $($read.as_ptr(), $read.len(),)*
                $($written.as_mut_ptr(), $written.len(),)*
            )
        }
    };
}

pub fn inverse(mode: u32, size: lapped_size, slices: [&mut [i32]; 4]) -> lapped_answer {
    let [dc, low, high, samples] = slices;
    call!(lapped_inverse(mode, size); dc, low, high; samples)
}

pub fn quarter(mode: u32, size: lapped_size, slices: [&mut [i32]; 3]) -> lapped_answer {
    let [dc, low, view] = slices;
    call!(lapped_quarter(mode, size); dc, low; view)
}

pub fn forward(mode: u32, size: lapped_size, slices: [&mut [i32]; 4]) -> lapped_answer {
    let [samples, dc, low, high] = slices;
    call!(lapped_forward(mode, size); samples; dc, low, high)
}

pub fn forecast(mode: u32, size: lapped_size) -> lapped_work {
    call!(lapped_forecast(mode, size);;)
}

pub fn step(index: u32) -> u32 {
    call!(lapped_step(index);;)
}

/// From the first three slices to the others; the steps are those of DC, low-pass and high-pass.
pub fn quantise(mode: u32, size: lapped_size, steps: [u32; 3], slices: [&mut [i32]; 6]) -> u32 {
    let steps = raw_steps(steps);
    let [dc, low, high, dc_levels, low_levels, high_levels] = slices;
    call!(lapped_quantise(mode, size, steps); dc, low, high; dc_levels, low_levels, high_levels)
}

/// As `quantise`.
pub fn restore(mode: u32, size: lapped_size, steps: [u32; 3], slices: [&mut [i32]; 6]) -> u32 {
    let steps = raw_steps(steps);
    let [dc_levels, low_levels, high_levels, dc, low, high] = slices;
    call!(lapped_restore(mode, size, steps); dc_levels, low_levels, high_levels; dc, low, high)
}

fn raw_steps([dc, low, high]: [u32; 3]) -> lapped_steps {
    lapped_steps { dc, low, high }
}

pub fn find_step(
    mode: u32,
    size: lapped_size,
    tolerance: u32,
    slices: [&mut [i32]; 5],
) -> lapped_found {
    let [samples, dc, low, high, second] = slices;
    call!(lapped_find_step(mode, size, tolerance); samples; dc, low, high, second)
}

pub fn read_header(bytes: &[u8]) -> lapped_header {
    call!(lapped_read_header(); bytes;)
}

pub fn load(bytes: &[u8], planes: [&mut [i32]; 3]) -> lapped_header {
    let [dc, low, high] = planes;
    call!(lapped_load(); bytes; dc, low, high)
}

pub fn save(mode: u32, size: lapped_size, planes: [&mut [i32]; 3], bytes: &mut [u8]) -> u32 {
    let [dc, low, high] = planes;
    call!(lapped_save(mode, size); dc, low, high; bytes)
}
