//! How a function of the C interface is called with slices.

/// Calls a function of the C interface: plain arguments first, then the slices that it reads, then
/// those that it writes, each as a pointer and a length.
macro_rules! call {
    ($function:ident($($plain:expr),*); $($read:expr),*; $($written:expr),*) => {
        // SAFETY: each pointer comes with the length of the slice that it is taken from, and the
        // borrow checker keeps what is written apart from all else.
        unsafe {
            lapped_sys::$function(
                $($plain,)*
                $($read.as_ptr(), $read.len(),)*
                $($written.as_mut_ptr(), $written.len(),)*
            )
        }
    };
}
