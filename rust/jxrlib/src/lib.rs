//! Three kernels of jxrlib, the JPEG XR reference software, found at run time.
//!
//! Debian's package libjxr0 has them. Nothing needs them to be built or to run: where they are, the
//! tests compare the proved library with them, and the benchmark times them beside it.
//!
//! They are C: where one of their sums leaves 32 bits, nothing is said of what they give. The sums
//! inside a kernel stay below 12 times the largest number that goes in.

use std::ffi::{c_void, CStr};
use std::mem::transmute;
use std::os::raw::{c_char, c_int};

const LIBRARY: &[u8] = b"libjpegxr.so.0\0";

/// A flag of Linux, the only system of liblapped.a: every name is looked up at once.
const RTLD_NOW: c_int = 2;

type CoreKernel = unsafe extern "C" fn(*mut i32);
type SquareKernel = unsafe extern "C" fn(*mut i32, *mut i32, c_int, c_int, c_int);
type FourKernel = unsafe extern "C" fn(*mut i32, *mut i32, *mut i32, *mut i32);

/// Where coefficient (row r, column c) of a block stands for the core kernel, by 4 c + r.
const COEFFICIENTS: [usize; 16] = [0, 5, 1, 6, 10, 12, 8, 14, 2, 4, 3, 7, 9, 13, 11, 15];

/// Where it leaves sample (row r, column c), by 4 r + c.
const SAMPLES: [usize; 16] = [0, 1, 5, 4, 2, 3, 7, 6, 10, 11, 15, 14, 8, 9, 13, 12];

/// Where the square filter has the numbers a to p of Figure 4.14, if its two pointers are the same.
/// A picture in jxrlib's memory is blocks of 16 numbers, and each block has four numbers of each of
/// the four squares that it lies under: so the square that is 16 cells further on shares none.
const SQUARE: [usize; 16] = [15, 14, 74, 75, 13, 12, 72, 73, 5, 4, 64, 65, 7, 6, 66, 67];

/// The cells from the pointer of a square to the last that its filter touches.
pub const SQUARE_CELLS: usize = 76;

/// The inverse core transform and the two overlap filters that follow it.
pub struct Kernels {
    core: CoreKernel,
    square_filter: SquareKernel,
    four_filter: FourKernel,
}

impl Kernels {
    /// Finds the kernels, or says in words why there are none.
    pub fn load() -> Result<Kernels, String> {
        // SAFETY: the names end in a zero, the types are those of jxrlib's sources, and the library
        // is never closed, so that its functions stay where they are.
        unsafe {
            let library = dlopen(LIBRARY.as_ptr().cast(), RTLD_NOW);
            if library.is_null() {
                return Err(reason());
            }
            let core = symbol(library, b"strIDCT4x4Stage1\0")?;
            let square_filter = symbol(library, b"strPost4x4Stage1Split\0")?;
            let four_filter = symbol(library, b"strPost4\0")?;
            Ok(Kernels {
                core: transmute::<*mut c_void, CoreKernel>(core),
                square_filter: transmute::<*mut c_void, SquareKernel>(square_filter),
                four_filter: transmute::<*mut c_void, FourKernel>(four_filter),
            })
        }
    }

    /// Figure 4.8, on a block in raster order.
    pub fn core(&self, coefficients: [i32; 16]) -> [i32; 16] {
        let mut block = [0; 16];
        for (k, coefficient) in coefficients.into_iter().enumerate() {
            let (row, column) = (k / 4, k % 4);
            block[COEFFICIENTS[4 * column + row]] = coefficient;
        }
        self.core_in_place(&mut block);
        SAMPLES.map(|place| block[place])
    }

    /// Figure 4.14, on a square in raster order.
    pub fn square_filter(&self, square: [i32; 16]) -> [i32; 16] {
        let mut cells = [0; SQUARE_CELLS];
        for (place, number) in SQUARE.into_iter().zip(square) {
            cells[place] = number;
        }
        self.square_filter_in_place(&mut cells);
        SQUARE.map(|place| cells[place])
    }

    /// Figure 4.13.
    pub fn four_filter(&self, mut numbers: [i32; 4]) -> [i32; 4] {
        self.four_filter_in_place(&mut numbers);
        numbers
    }

    /// The core kernel as it is, in its own order of the numbers.
    #[inline]
    pub fn core_in_place(&self, block: &mut [i32; 16]) {
        // SAFETY: the kernel reads and writes the sixteen numbers.
        unsafe { (self.core)(block.as_mut_ptr()) }
    }

    /// The square kernel as it is, on the cells that `SQUARE` names.
    #[inline]
    pub fn square_filter_in_place(&self, cells: &mut [i32; SQUARE_CELLS]) {
        let p = cells.as_mut_ptr();
        // SAFETY: the kernel reads and writes those cells. The last three arguments leave out what
        // belongs to other modes of jxrlib.
        unsafe { (self.square_filter)(p, p, 0, 0, 0) }
    }

    /// The four-number kernel as it is.
    #[inline]
    pub fn four_filter_in_place(&self, numbers: &mut [i32; 4]) {
        let p = numbers.as_mut_ptr();
        // SAFETY: the kernel reads and writes the four numbers.
        unsafe { (self.four_filter)(p, p.add(1), p.add(2), p.add(3)) }
    }
}

extern "C" {
    fn dlopen(name: *const c_char, flags: c_int) -> *mut c_void;
    fn dlsym(library: *mut c_void, name: *const c_char) -> *mut c_void;
    fn dlerror() -> *const c_char;
}

/// The address of a function, which is not null.
unsafe fn symbol(library: *mut c_void, name: &'static [u8]) -> Result<*mut c_void, String> {
    let address = dlsym(library, name.as_ptr().cast());
    if address.is_null() {
        return Err(reason());
    }
    Ok(address)
}

/// What the loader says of its last failure, and what to do about it.
unsafe fn reason() -> String {
    let message = dlerror();
    let message = match message.is_null() {
        true => "no reason given".into(),
        false => CStr::from_ptr(message).to_string_lossy(),
    };
    format!("{message}; `apt-get install libjxr0` brings jxrlib")
}
