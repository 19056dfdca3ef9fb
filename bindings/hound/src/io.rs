//! What the proved code names of `std::io`, where there is no `std`. Nothing is read, written, or fails there.
pub type Result<T> = core::result::Result<T, Error>;
pub type Error = ErrorKind;

#[derive(Debug)]
pub enum ErrorKind {
    InvalidData,
    InvalidInput,
    Other,
    OutOfMemory,
    UnexpectedEof,
    WriteZero,
}

impl ErrorKind {
    pub fn new(self, _: &str) -> Error {
        self
    }
}

pub trait Read {
    fn read(&mut self, _: &mut [u8]) -> Result<usize> {
        Ok(0)
    }
}
impl<T: ?Sized> Read for &T {}
impl<T: ?Sized> Read for &mut T {}

pub trait Write {
    fn write(&mut self, bytes: &[u8]) -> Result<usize>;
}
