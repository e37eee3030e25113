//! Plane files: planes with their mode and size as bytes.

use crate::{Mode, Planes, PlanesMut, PlanesRef, Refusal, Size, Wrapped};
use lapped_sys::lapped_header;

/// Planes with the mode in which they are to be read: what a plane file holds.
///
/// A plane file is little-endian: eight unsigned 32-bit words (mode, width, height, the offsets in
/// bytes of the DC, low-pass and high-pass planes: 32, 32 + 4 n, 32 + 64 n, the total length in
/// bytes: 32 + 1024 n, and a zero), then the three planes in two's complement.
///
/// ```
/// use lapped::{Mode, PlaneFile, Planes, Size};
///
/// let (planes, _) = Planes::from_samples(Mode::BothLevels, Size::new(2, 2)?, &[4; 1024])?;
/// let file = PlaneFile { mode: Mode::BothLevels, planes };
/// let bytes = file.to_bytes()?;
/// assert_eq!(bytes.len(), 32 + 4 * 1024);
/// assert_eq!(PlaneFile::from_bytes(&bytes)?, file);
/// # Ok::<(), lapped::Refusal>(())
/// ```
#[derive(Clone, Debug, PartialEq, Eq)]
pub struct PlaneFile {
    /// The mode of the picture.
    pub mode: Mode,
    /// The planes, with the size of the picture.
    pub planes: Planes,
}

impl PlaneFile {
    /// What the bytes of a plane file hold.
    ///
    /// ```
    /// use lapped::{PlaneFile, Refusal};
    ///
    /// assert_eq!(PlaneFile::from_bytes(&[0; 31]), Err(Refusal::FileTooShort));
    /// ```
    ///
    /// # Errors
    ///
    /// Those of [`read_header`].
    pub fn from_bytes(bytes: &[u8]) -> Result<PlaneFile, Refusal> {
        let Header { mode, size } = read_header(bytes)?;
        let mut planes = Planes::zeroed(size);
        load(bytes, planes.as_mut())?;
        Ok(PlaneFile { mode, planes })
    }

    /// The bytes of a plane file.
    ///
    /// ```
    /// use lapped::{Mode, PlaneFile, Planes, Size};
    ///
    /// let planes = Planes::zeroed(Size::new(3, 2)?);
    /// let bytes = PlaneFile { mode: Mode::SampleLevel, planes }.to_bytes()?;
    /// assert_eq!((bytes[0], bytes[4], bytes[8]), (1, 3, 2)); // mode, width, height
    /// # Ok::<(), lapped::Refusal>(())
    /// ```
    ///
    /// # Errors
    ///
    /// [`Refusal::DcLength`], [`Refusal::LowPassLength`] or [`Refusal::HighPassLength`] if a plane
    /// does not fit the size.
    pub fn to_bytes(&self) -> Result<Vec<u8>, Refusal> {
        let size = self.planes.size;
        let mut bytes = vec![0; size.file_bytes()];
        save(self.mode, size, self.planes.as_ref(), &mut bytes)?;
        Ok(bytes)
    }

    /// The samples of the picture, in raster order, and whether a sum wrapped.
    ///
    /// ```
    /// use lapped::{Mode, PlaneFile, Planes, Size, Wrapped};
    ///
    /// let planes = Planes::zeroed(Size::new(1, 1)?);
    /// let mut file = PlaneFile { mode: Mode::Unfiltered, planes };
    /// file.planes.dc[0] = 64;
    /// assert_eq!(file.to_samples()?, (vec![4; 256], Wrapped::No));
    /// assert_eq!(file.to_quarter_view()?, (vec![16; 16], Wrapped::No));
    /// # Ok::<(), lapped::Refusal>(())
    /// ```
    ///
    /// # Errors
    ///
    /// Those of [`Planes::to_samples`].
    pub fn to_samples(&self) -> Result<(Vec<i32>, Wrapped), Refusal> {
        self.planes.to_samples(self.mode)
    }

    /// The picture at a quarter of its width and height, in raster order, and whether a sum wrapped in
    /// the level that makes it.
    ///
    /// # Errors
    ///
    /// Those of [`Planes::to_quarter_view`].
    pub fn to_quarter_view(&self) -> Result<(Vec<i32>, Wrapped), Refusal> {
        self.planes.to_quarter_view(self.mode)
    }
}

/// What the header of a plane file tells: enough to lend planes to [`load`].
#[derive(Clone, Copy, Debug, PartialEq, Eq, Hash)]
pub struct Header {
    /// The mode of the picture.
    pub mode: Mode,
    /// The size of the picture.
    pub size: Size,
}

impl Header {
    fn from_raw(header: lapped_header) -> Result<Header, Refusal> {
        Refusal::answer(header.number)?;
        let mode = Mode::try_from(header.mode)?;
        let size = Size::new(header.size.width, header.size.height)?;
        Ok(Header { mode, size })
    }
}

/// The mode and the size of a plane file that is lent whole.
///
/// ```
/// use lapped::{read_header, save, Mode, Planes, Refusal, Size};
///
/// let size = Size::new(3, 2)?;
/// let mut bytes = vec![0; size.file_bytes()];
/// save(Mode::BothLevels, size, Planes::zeroed(size).as_ref(), &mut bytes)?;
/// let header = read_header(&bytes)?;
/// assert_eq!((header.mode, header.size), (Mode::BothLevels, size));
///
/// bytes.pop();
/// assert_eq!(read_header(&bytes), Err(Refusal::FileLength));
/// # Ok::<(), Refusal>(())
/// ```
///
/// # Errors
///
/// [`Refusal::FileTooShort`], [`Refusal::Mode`], [`Refusal::Width`], [`Refusal::Height`],
/// [`Refusal::LastWord`], [`Refusal::Offsets`] and [`Refusal::FileLength`], in this order.
pub fn read_header(bytes: &[u8]) -> Result<Header, Refusal> {
    Header::from_raw(call!(lapped_read_header(); bytes;))
}

/// Fills planes from the bytes of a plane file.
///
/// ```
/// use lapped::{load, read_header, save, Mode, Planes, Size};
///
/// let size = Size::new(1, 1)?;
/// let mut bytes = vec![0; size.file_bytes()];
/// let (planes, _) = Planes::from_samples(Mode::SampleLevel, size, &[4; 256])?;
/// save(Mode::SampleLevel, size, planes.as_ref(), &mut bytes)?;
///
/// let mut loaded = Planes::zeroed(read_header(&bytes)?.size);
/// let header = load(&bytes, loaded.as_mut())?;
/// assert_eq!((header.mode, header.size), (Mode::SampleLevel, size));
/// assert_eq!(loaded, planes);
/// # Ok::<(), lapped::Refusal>(())
/// ```
///
/// # Errors
///
/// Those of [`read_header`], then [`Refusal::DcLength`], [`Refusal::LowPassLength`] and
/// [`Refusal::HighPassLength`], in this order, for a plane that does not fit the file's size.
pub fn load(bytes: &[u8], planes: PlanesMut) -> Result<Header, Refusal> {
    let PlanesMut { dc, low, high } = planes;
    Header::from_raw(call!(lapped_load(); bytes; dc, low, high))
}

/// Writes a plane file of [`Size::file_bytes`] bytes.
///
/// ```
/// use lapped::{save, Mode, Planes, Size};
///
/// let size = Size::new(3, 2)?;
/// let mut bytes = vec![0; size.file_bytes()];
/// save(Mode::BothLevels, size, Planes::zeroed(size).as_ref(), &mut bytes)?;
/// assert_eq!(bytes[..12], [2, 0, 0, 0, 3, 0, 0, 0, 2, 0, 0, 0]); // mode, width, height
/// # Ok::<(), lapped::Refusal>(())
/// ```
///
/// # Errors
///
/// [`Refusal::DcLength`], [`Refusal::LowPassLength`], [`Refusal::HighPassLength`] and
/// [`Refusal::FileLength`], in this order, for a slice that does not fit the size.
pub fn save(mode: Mode, size: Size, planes: PlanesRef, bytes: &mut [u8]) -> Result<(), Refusal> {
    let PlanesRef { dc, low, high } = planes;
    Refusal::answer(call!(lapped_save(mode.number(), size.raw()); dc, low, high; bytes))
}
