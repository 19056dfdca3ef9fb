//! What the proved code reads from and writes into: any reader, and any writer, of the user's.
use crate::proved::durable::Target;
use crate::proved::medium::{Medium, Placed, Source};
use std::any::Any;
use std::fs::File;
use std::io::{self, BufReader, ErrorKind, Read, Seek, SeekFrom, Write};
use std::panic::{self, AssertUnwindSafe};
use std::sync::{Mutex, PoisonError};

/// A reader. Where it claims more bytes than fit, it has given as many as fit. A read of a repair that was
/// interrupted is repeated; others aren't, as by hound.
pub struct Input<R>(pub(crate) R);

impl<R: Read> Read for Input<R> {
    #[inline(always)]
    fn read(&mut self, bytes: &mut [u8]) -> io::Result<usize> {
        let most = bytes.len();
        self.0.read(bytes).map(|count| count.min(most))
    }
}

impl<R: Seek> Placed for Input<R> {
    fn go(&mut self, to: u64) -> io::Result<()> {
        self.0.seek(SeekFrom::Start(to)).map(drop)
    }

    fn shift(&mut self, by: i64) -> io::Result<()> {
        self.0.seek(SeekFrom::Current(by)).map(drop)
    }
}

impl<R: Read + Seek> Source for Input<R> {
    fn get(&mut self, bytes: &mut [u8]) -> io::Result<usize> {
        loop {
            match self.read(bytes) {
                Err(error) if error.kind() == ErrorKind::Interrupted => {}
                result => return result,
            }
        }
    }
}

/// What a `WavReader` reads from: a reader of the user's, or a file that this crate has opened. The function makes that
/// the reader which it is, since other code doesn't know that `R` is its type.
pub enum Origin<R> {
    Reader(R),
    Opened(BufReader<File>, fn(BufReader<File>) -> R),
}

impl<R: Read> Read for Origin<R> {
    #[inline(always)]
    fn read(&mut self, bytes: &mut [u8]) -> io::Result<usize> {
        match self {
            Origin::Reader(reader) => reader.read(bytes),
            Origin::Opened(file, _) => file.read(bytes),
        }
    }
}

impl<R: Seek> Seek for Origin<R> {
    fn seek(&mut self, to: SeekFrom) -> io::Result<u64> {
        match self {
            Origin::Reader(reader) => reader.seek(to),
            Origin::Opened(file, _) => file.seek(to),
        }
    }
}

/// How a file is synced.
pub(crate) type SyncBy = fn(&File) -> io::Result<()>;

/// A writer, or a file whose flush returns once the disk has what was written.
///
/// The proved code doesn't know of panics. So where the writer panics, its call has failed for that code, and the panic
/// goes on once it has returned ([`resume`](Output::resume)). A writer that claims more bytes than it was given took
/// these, one that takes none is full, and a write that was interrupted is repeated, as by `write_all`.
pub struct Output<W> {
    inner: W,
    panic: Option<Mutex<Box<dyn Any + Send>>>, // It is `Sync`, and nobody locks it.
    disk: Option<(File, SyncBy)>,              // The same file, and how a flush syncs it.
    place: u64,
    has_gone_back: bool,
    // Whether it writes where it has gone back to, if that was looked at: a file with `O_APPEND` doesn't.
    writes_there: Option<bool>,
}

impl<W> Output<W> {
    /// A file is given once more where its flushes are syncs.
    pub(crate) fn new(inner: W, disk: Option<(File, SyncBy)>, writes_there: Option<bool>) -> Output<W> {
        Output { inner, panic: None, disk, place: 0, has_gone_back: false, writes_there }
    }

    // No call is made after one that panicked, until that goes on, nor where the writer isn't where it was to write.
    fn call<A>(&mut self, call: impl FnOnce(&mut W) -> io::Result<A>) -> io::Result<A> {
        if self.panic.is_some() {
            return Err(ErrorKind::Other.into());
        }
        if self.writes_there == Some(false) {
            let text = "the file takes all bytes at its end, and no sizes into its header: open it without `append`";
            return Err(io::Error::new(ErrorKind::InvalidInput, text));
        }
        let inner = &mut self.inner;
        panic::catch_unwind(AssertUnwindSafe(|| call(inner))).unwrap_or_else(|payload| {
            self.panic = Some(Mutex::new(payload));
            Err(ErrorKind::Other.into())
        })
    }

    /// Lets the panic of a call go on.
    pub(crate) fn resume(&mut self) {
        if let Some(payload) = self.panic.take() {
            panic::resume_unwind(payload.into_inner().unwrap_or_else(PoisonError::into_inner))
        }
    }
}

impl<W: Seek> Placed for Output<W> {
    fn go(&mut self, to: u64) -> io::Result<()> {
        self.call(|inner| inner.seek(SeekFrom::Start(to)))?;
        self.has_gone_back |= to < self.place;
        self.place = to;
        Ok(())
    }

    fn shift(&mut self, by: i64) -> io::Result<()> {
        self.go(self.place.wrapping_add(by as u64))
    }
}

impl<W: Write + Seek> Medium for Output<W> {
    fn put(&mut self, bytes: &[u8]) -> io::Result<usize> {
        let count = self.call(|inner| loop {
            match inner.write(bytes) {
                Ok(0) => return Err(io::Error::new(ErrorKind::WriteZero, "failed to write whole buffer")),
                Ok(count) => return Ok(count.min(bytes.len())),
                Err(error) if error.kind() == ErrorKind::Interrupted => {}
                Err(error) => return Err(error),
            }
        })?;
        self.place += count as u64;
        if self.has_gone_back && self.writes_there.is_none() {
            let place = self.call(|inner| inner.stream_position());
            // A writer that doesn't say where it is is believed.
            self.writes_there = Some(place.map_or(true, |place| place == self.place));
        }
        self.call(|_| Ok(count))
    }

    fn flush(&mut self) -> io::Result<()> {
        self.call(|inner| inner.flush())?;
        let (disk, sync) = match &mut self.disk {
            Some(disk) => disk,
            None => return Ok(()),
        };
        // After a failed sync another one would succeed, though the system may have dropped what it couldn't store.
        sync(disk).map_err(|error| {
            *sync = |_| Err(io::Error::new(ErrorKind::Other, "an earlier sync of the file failed"));
            error
        })
    }
}

impl<W: Write + Seek> Target<Output<W>> {
    pub(crate) fn resume(&mut self) {
        if let Target::Plain(output) = self {
            output.resume(); // A durable file doesn't panic.
        }
    }
}
