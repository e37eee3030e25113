//! The lapped transform of JPEG XR on one component of a picture, exact to the bit.
//!
//! A picture is made of macroblocks of 16 × 16 samples. [`forward`] takes its samples to three planes
//! of coefficients, [`inverse`] takes the planes back to the same samples, and [`quarter_view`] shows
//! the picture at a quarter of its width and height. A [`PlaneFile`] keeps planes as bytes. Samples
//! and coefficients are `i32`, any values; sums wrap, and the transform tells where one did by
//! [`Wrapped`]. For a smaller archive, [`quantise`] takes coefficients to levels, smaller numbers
//! that [`restore`] takes back to nearly the same coefficients; the step of each band, chosen by
//! [`Steps`], says how nearly, and [`find_step`] finds one that keeps every sample within a
//! tolerance. [`forecast`] says beforehand how much work a picture is.
//!
//! The calls are functions of `liblapped.a`, which is proved to meet its definitions for every input.
//! This crate adds the types: a call that gets a [`Mode`] and a [`Size`] can only be refused for the
//! length of a slice, for the bytes of a file or for a level too large to be restored, and a call that
//! refuses has changed nothing that was lent to it. The library is stateless; calls on different memory
//! may run concurrently.
//!
//! ```
//! use lapped::{Mode, Planes, Size, Wrapped};
//!
//! let size = Size::new(2, 3)?; // in macroblocks
//! let samples: Vec<i32> = (0..256 * 6).collect();
//!
//! let (planes, _) = Planes::from_samples(Mode::BothLevels, size, &samples)?;
//! let (back, wrapped) = planes.to_samples(Mode::BothLevels)?;
//! assert_eq!(back, samples);
//! assert_eq!(wrapped, Wrapped::No); // no extreme values here
//! # Ok::<(), lapped::Refusal>(())
//! ```
//!
//! Every operation comes in two kinds: a method that allocates its result, as above, and a function
//! that writes into memory lent by the caller and allocates nothing ([`inverse`], [`forward`],
//! [`quarter_view`], [`quantise`], [`restore`], [`find_step`], [`read_header`], [`load`], [`save`]).

#![deny(missing_docs)]

#[macro_use]
mod call;
mod find_step;
mod forecast;
mod levels;
mod mode;
mod plane_file;
mod planes;
mod refusal;
mod size;
mod steps;
mod transform;
mod wrapped;

pub use find_step::{find_step, Found};
pub use forecast::{forecast, Work};
pub use levels::{quantise, restore};
pub use mode::Mode;
pub use plane_file::{load, read_header, save, Header, PlaneFile};
pub use planes::{Planes, PlanesMut, PlanesRef};
pub use refusal::Refusal;
pub use size::Size;
pub use steps::{step, Steps};
pub use transform::{forward, inverse, quarter_view};
pub use wrapped::Wrapped;
