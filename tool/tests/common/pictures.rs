//! Picture files for the tests: PGM made here, PNG by the library's calls for whole pictures.

use png::{BitDepth, ColorType};

/// A grey picture.
#[derive(Clone, Debug, PartialEq, Eq)]
pub struct Grey {
    pub width: usize,
    pub height: usize,
    pub bits: u32,
    pub samples: Vec<i32>,
}

impl Grey {
    /// A picture whose samples take all values, with the ends of the range in its last row.
    pub fn any(width: usize, height: usize, bits: u32) -> Self {
        let white = (1 << bits) - 1;
        let count = width * height;
        let mut samples: Vec<i32> =
            (0..count as i64).map(|i| (i * i * 37 % (white + 1)) as i32).collect();
        samples[count - 1] = white as i32;
        samples[count - width.min(2)] = 0;
        Grey { width, height, bits, samples }
    }

    /// The rows' bytes, the high byte first.
    pub fn bytes(&self) -> Vec<u8> {
        match self.bits {
            8 => self.samples.iter().map(|&sample| u8::try_from(sample).unwrap()).collect(),
            _ => {
                self.samples.iter().flat_map(|&s| u16::try_from(s).unwrap().to_be_bytes()).collect()
            }
        }
    }

    fn from_bytes(width: usize, height: usize, bits: u32, bytes: &[u8]) -> Self {
        assert_eq!(bytes.len(), width * height * bits as usize / 8, "the bytes of all rows");
        let samples = match bits {
            8 => bytes.iter().map(|&byte| i32::from(byte)).collect(),
            _ => {
                bytes.chunks(2).map(|pair| i32::from(pair[0]) * 256 + i32::from(pair[1])).collect()
            }
        };
        Grey { width, height, bits, samples }
    }

    pub fn to_file(&self, format: &str) -> Vec<u8> {
        match format {
            "pgm" => pgm(self.width, self.height, (1 << self.bits) - 1, &self.bytes()),
            _ => self.to_png(),
        }
    }

    fn to_png(&self) -> Vec<u8> {
        let depth = if self.bits == 8 { BitDepth::Eight } else { BitDepth::Sixteen };
        png(self.width, self.height, ColorType::Grayscale, depth, &self.bytes())
    }

    pub fn from_file(format: &str, file: &[u8]) -> Self {
        match format {
            "pgm" => Grey::from_pgm(file),
            _ => Grey::from_png(file),
        }
    }

    fn from_pgm(file: &[u8]) -> Self {
        let mut parts = file.splitn(4, |&byte| byte == b'\n');
        let mut line = || std::str::from_utf8(parts.next().unwrap()).unwrap();
        assert_eq!(line(), "P5");
        let sides: Vec<usize> = line().split(' ').map(|side| side.parse().unwrap()).collect();
        let bits = if line() == "255" { 8 } else { 16 };
        Grey::from_bytes(sides[0], sides[1], bits, parts.next().unwrap())
    }

    fn from_png(file: &[u8]) -> Self {
        let (info, bytes) = decode(file);
        assert_eq!(info.color_type, ColorType::Grayscale);
        Grey::from_bytes(info.width as usize, info.height as usize, info.bit_depth as u32, &bytes)
    }
}

/// A PGM file with these bytes after its header.
pub fn pgm(width: usize, height: usize, white: u32, bytes: &[u8]) -> Vec<u8> {
    [format!("P5\n{width} {height}\n{white}\n").as_bytes(), bytes].concat()
}

/// A PNG file of any kind.
pub fn png(
    width: usize,
    height: usize,
    colour: ColorType,
    depth: BitDepth,
    bytes: &[u8],
) -> Vec<u8> {
    let mut file = Vec::new();
    let mut encoder = png::Encoder::new(&mut file, width as u32, height as u32);
    encoder.set_color(colour);
    encoder.set_depth(depth);
    if colour == ColorType::Indexed {
        encoder.set_palette(vec![0; 3]);
    }
    encoder.write_header().unwrap().write_image_data(bytes).unwrap();
    file
}

/// A PNG file's pixels, red, green and blue.
pub fn coloured(file: &[u8]) -> (usize, usize, Vec<[u8; 3]>) {
    let (info, bytes) = decode(file);
    assert_eq!((info.color_type, info.bit_depth), (ColorType::Rgb, BitDepth::Eight));
    let pixels = bytes.chunks(3).map(|pixel| [pixel[0], pixel[1], pixel[2]]).collect();
    (info.width as usize, info.height as usize, pixels)
}

fn decode(file: &[u8]) -> (png::OutputInfo, Vec<u8>) {
    let mut reader = png::Decoder::new(file).read_info().unwrap();
    let mut bytes = vec![0; reader.output_buffer_size()];
    let info = reader.next_frame(&mut bytes).unwrap();
    bytes.truncate(info.buffer_size());
    (info, bytes)
}
