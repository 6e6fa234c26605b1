// Stub: the one method that the diagnostics name.
use std::io::{Read, Seek};

pub struct BitstreamIoReader<R: Read + Seek> {
    pub inner: R,
}

impl<R: Read + Seek> BitstreamIoReader<R> {
    pub fn position(&mut self) -> std::io::Result<u64> {
        self.inner.stream_position()
    }
}
