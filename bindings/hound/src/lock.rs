//! Files that no other program records to, appends to or repairs.
use std::{fs, io, path, thread, time};

/// Opens the file at a path, which no other program that locks it records to, appends to or repairs.
pub(crate) fn open_locked(options: &fs::OpenOptions, filename: &path::Path) -> io::Result<fs::File> {
    // Where another file was renamed to the path before the lock, that one is opened. Some systems number a file anew
    // each time, so that none seems to be at its path: the last attempt believes that it is.
    for attempts_left in (0..10).rev() {
        let file = options.open(filename)?;
        lock(&file)?;
        if attempts_left == 0 || is_at(&file, filename)? {
            return Ok(file);
        }
    }
    unreachable!("the last attempt returns")
}

#[cfg_attr(not(unix), allow(unused_variables))]
fn is_at(file: &fs::File, filename: &path::Path) -> io::Result<bool> {
    #[cfg(unix)]
    if let (opened, Ok(found)) = (file.metadata()?, fs::metadata(filename)) {
        use std::os::unix::fs::MetadataExt;
        return Ok((found.dev(), found.ino()) == (opened.dev(), opened.ino()));
    }
    Ok(!cfg!(unix)) // Elsewhere a file has no number that std knows.
}

/// Locks an open file until it is closed, in ten attempts 2 ms apart (own): where it is locked already, the error is
/// `WouldBlock`. See the [page of the crate](crate#recordings-that-survive-a-power-failure).
pub fn lock(file: &fs::File) -> io::Result<()> {
    // A program that follows a recording locks it for a moment, to see whether it is still recorded.
    for attempts_left in (0..10).rev() {
        if !is_locked_by_another(file) {
            return Ok(());
        }
        if attempts_left > 0 {
            thread::sleep(time::Duration::from_millis(2));
        }
    }
    let text = "another program records to, appends to or repairs this file";
    Err(io::Error::new(io::ErrorKind::WouldBlock, text))
}

#[cfg(unix)]
#[allow(unsafe_code)]
fn is_locked_by_another(file: &fs::File) -> bool {
    use std::os::{raw::c_int, unix::io::AsRawFd};
    extern "C" {
        fn flock(file: c_int, operation: c_int) -> c_int;
    }
    const EXCLUSIVE_WITHOUT_WAITING: c_int = 2 + 4;
    // SAFETY: the file is open, and no pointer is passed.
    let result = unsafe { flock(file.as_raw_fd(), EXCLUSIVE_WITHOUT_WAITING) };
    result != 0 && io::Error::last_os_error().kind() == io::ErrorKind::WouldBlock
}

// Locks one byte that no file has, since others can't read what is locked.
#[cfg(windows)]
#[allow(unsafe_code)]
fn is_locked_by_another(file: &fs::File) -> bool {
    use std::os::windows::io::{AsRawHandle, RawHandle};
    extern "system" {
        fn LockFileEx(file: RawHandle, flags: u32, zero: u32, low: u32, high: u32, place: &mut [u64; 4]) -> i32;
    }
    const EXCLUSIVE_WITHOUT_WAITING: u32 = 3;
    const IS_LOCKED: i32 = 33;
    let mut place = [0; 4];
    // The offset comes after two words, and before another one.
    place[std::mem::size_of::<usize>() / 4] = 1 << 62;
    // SAFETY: the file is open, and without waiting nothing of the call is kept.
    let result = unsafe { LockFileEx(file.as_raw_handle(), EXCLUSIVE_WITHOUT_WAITING, 0, 1, 0, &mut place) };
    result == 0 && io::Error::last_os_error().raw_os_error() == Some(IS_LOCKED)
}

#[cfg(not(any(unix, windows)))]
fn is_locked_by_another(_: &fs::File) -> bool {
    false
}
