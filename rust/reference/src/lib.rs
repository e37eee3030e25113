//! The lapped transform of JPEG XR in plain Rust, written from the papers alone.
//!
//! It exists to be compared with the proved library, so it shares no code and no design with it.
//! "01" is the scope paper, "02" the paper of later requests, and "003" the source document with
//! Figures 4.4 to 4.14. Every operation gives `Err(number)` with the number of these papers where it
//! refuses, and has then changed nothing.

pub mod find_step;
pub mod forecast;
pub mod level;
pub mod number;
pub mod operators;
pub mod picture;
pub mod plane_file;
pub mod program;
pub mod random;
pub mod step_sizes;

pub use picture::{forward, inverse, quarter_view, Size};
