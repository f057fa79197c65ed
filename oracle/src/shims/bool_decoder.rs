//! Names that the originals import and no answer reaches.

use std::marker::PhantomData;

#[derive(Debug, Clone, Copy, PartialEq, Eq)]
pub struct BoolDecoderError;

pub struct BoolDecoder<'a> {
    _stream: PhantomData<&'a [u8]>,
}

impl BoolDecoder<'_> {
    pub fn read_bool(&mut self, _prob: u8) -> Result<bool, BoolDecoderError> {
        unreachable!("no answer reads a stream")
    }
}
