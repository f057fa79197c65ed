//! What the originals take from the encoder: the frame type, its errors, and names that no answer reaches.

#[derive(Debug, Clone, Copy, PartialEq, Eq)]
pub enum EncodeError {
    InvalidDimensions { width: u32, height: u32 },
    ReferenceDimensionsMismatch { source: (u32, u32), reference: (u32, u32) },
}

/// A picture of three planes, lent; nothing is checked where one is made.
#[derive(Debug, Clone, Copy)]
pub struct I420Frame<'a> {
    pub width: u32,
    pub height: u32,
    pub y: &'a [u8],
    pub u: &'a [u8],
    pub v: &'a [u8],
    pub y_stride: usize,
    pub uv_stride: usize,
}

impl<'a> I420Frame<'a> {
    pub fn packed(width: u32, height: u32, y: &'a [u8], u: &'a [u8], v: &'a [u8]) -> Self {
        I420Frame { width, height, y, u, v, y_stride: width as usize, uv_stride: width.div_ceil(2) as usize }
    }
}

pub struct BoolEncoder;

impl BoolEncoder {
    pub fn write_bool(&mut self, _prob: u8, _bit: bool) {
        unreachable!("no answer writes a stream")
    }
}

pub fn bool_bits(_prob: u8, _bit: bool) -> f64 {
    unreachable!("no answer counts bits")
}
