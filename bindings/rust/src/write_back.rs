//! Between the bytes in memory and the inner reader and writer.
use crate::handle::Handle;
use crate::sys;
use std::io::{self, Read, Seek, SeekFrom, Write};
use std::sync::{Mutex, MutexGuard, PoisonError};

/// How many bytes are read or compared at once.
const PIECE: usize = 1 << 18;

/// The unit in which what has changed is written.
const BLOCK: usize = 512;

/// What a file and its streams share.
pub struct Shared<F> {
    pub handle: Handle,
    /// It is gone once the file is taken apart.
    pub inner: Option<F>,
    /// How many calls may have changed the file.
    pub changes: u64,
    /// How many of them are written back.
    pub written: u64,
    /// How they are; known from the first of them on, since only they need a writer.
    pub write_back: Option<fn(&mut Handle, &mut F) -> io::Result<()>>,
}

/// What is shared, for one call. A panic of the inner reader and writer leaves it as it was.
pub fn lock<F>(shared: &Mutex<Shared<F>>) -> MutexGuard<'_, Shared<F>> {
    shared.lock().unwrap_or_else(PoisonError::into_inner)
}

impl<F> Shared<F> {
    /// Writes back what has changed.
    pub fn write_back(&mut self) -> io::Result<()> {
        if let (Some(write), Some(inner), true) = (self.write_back, &mut self.inner, self.written < self.changes) {
            write(&mut self.handle, inner)?;
            self.written = self.changes;
        }
        Ok(())
    }
}

/// Reads all bytes into the handle, which can be opened then.
pub fn read_whole<F: Read + Seek>(handle: &mut Handle, inner: &mut F) -> io::Result<()> {
    let len = inner.seek(SeekFrom::End(0))?;
    inner.seek(SeekFrom::Start(0))?;
    // SAFETY: the handle is this library's own.
    let number = unsafe { sys::cfb_bytes_begin(&mut handle.0, usize::try_from(len).unwrap_or(0)) };
    handle.done(number)?;
    let mut piece = vec![0; PIECE];
    loop {
        let count = match inner.read(&mut piece) {
            Ok(0) => return Ok(()),
            Ok(count) => count,
            Err(e) if e.kind() == io::ErrorKind::Interrupted => continue,
            Err(e) => return Err(e),
        };
        let bytes = &piece[..count];
        // SAFETY: the handle is this library's own, and pointer and length are those of a slice.
        let number = unsafe { sys::cfb_bytes_add(&mut handle.0, bytes.as_ptr(), bytes.len()) };
        handle.done(number)?;
    }
}

/// Writes the blocks that differ from what the inner writer has.
pub fn write_back<F: Read + Write + Seek>(handle: &mut Handle, inner: &mut F) -> io::Result<()> {
    let (mut new, mut old) = (vec![0; PIECE], vec![0; PIECE]);
    let mut at = 0;
    loop {
        let mut count = 0;
        // SAFETY: the handle is this library's own, and pointer and length are those of a vector.
        let number = unsafe { sys::cfb_image(&mut handle.0, at, new.as_mut_ptr(), new.len(), &mut count) };
        handle.done(number)?;
        if count == 0 {
            return inner.flush();
        }
        inner.seek(SeekFrom::Start(at))?;
        let had = read_all(inner, &mut old[..count])?;
        write_changed(inner, at, &new[..count], &old[..had])?;
        at += count as u64;
    }
}

/// Reads until there is no more room or nothing more.
fn read_all<F: Read>(inner: &mut F, into: &mut [u8]) -> io::Result<usize> {
    let mut count = 0;
    while count < into.len() {
        match inner.read(&mut into[count..]) {
            Ok(0) => break,
            Ok(more) => count += more,
            Err(e) if e.kind() == io::ErrorKind::Interrupted => {}
            Err(e) => return Err(e),
        }
    }
    Ok(count)
}

fn write_changed<F: Write + Seek>(inner: &mut F, at: u64, new: &[u8], old: &[u8]) -> io::Result<()> {
    let block = |bytes: &[u8], from: usize| bytes.get(from..(from + BLOCK).min(new.len())).map(<[u8]>::to_vec);
    let mut from = 0;
    while from < new.len() {
        let mut to = from;
        while to < new.len() && block(old, to).as_deref() != Some(&new[to..(to + BLOCK).min(new.len())]) {
            to = (to + BLOCK).min(new.len());
        }
        if from < to {
            inner.seek(SeekFrom::Start(at + from as u64))?;
            inner.write_all(&new[from..to])?;
            from = to;
        } else {
            from += BLOCK;
        }
    }
    Ok(())
}
