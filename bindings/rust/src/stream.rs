//! Streams, each with a path and a position of its own.
use crate::handle::failure;
use crate::sys;
use crate::write_back::{lock, write_back, Shared};
use std::fmt;
use std::io::{self, BufRead, Read, Seek, SeekFrom, Write};
use std::sync::{Arc, Mutex, MutexGuard, Weak};

/// How many bytes are read ahead, and how many written ones are held back.
const ROOM: usize = 1 << 16;

/// A stream of a file, as long as that is there. Bytes that were written are held back until the
/// stream is flushed, read from or dropped, or there is no more room for them.
pub struct Stream<F> {
    file: Weak<Mutex<Shared<F>>>,
    path: String,
    len: u64,
    at: u64,
    /// Bytes of the stream from `buffer_at` on: read ahead, or not written yet.
    buffer: Vec<u8>,
    buffer_at: u64,
    is_written: bool,
    /// The number of changes when they were read.
    changes: u64,
}

/// A file that cannot go before the streams' call ends.
struct Open<F>(Arc<Mutex<Shared<F>>>);

impl<F> Open<F> {
    fn lock(&self) -> MutexGuard<'_, Shared<F>> {
        lock(&self.0)
    }
}

impl<F> Stream<F> {
    pub(crate) fn new(file: &Arc<Mutex<Shared<F>>>, path: String, len: u64) -> Stream<F> {
        Stream { file: Arc::downgrade(file), path, len, at: 0, buffer: Vec::new(), buffer_at: 0, is_written: true, changes: 0 }
    }

    /// The length in bytes.
    pub fn len(&self) -> u64 {
        self.len
    }

    pub fn is_empty(&self) -> bool {
        self.len == 0
    }

    fn file(&self) -> io::Result<Open<F>> {
        self.file.upgrade().map(Open).ok_or_else(|| io::Error::new(io::ErrorKind::Other, "CompoundFile was dropped"))
    }

    /// Reads at most `room` bytes from the position on.
    ///
    /// # Safety
    ///
    /// There is memory for `room` bytes at `into`.
    unsafe fn read_at(&self, shared: &mut Shared<F>, into: *mut u8, room: usize) -> io::Result<usize> {
        let mut count = 0;
        let path = self.path.as_bytes();
        // SAFETY: the handle is this library's own; the path's pointer and length are those of a text.
        let number = unsafe { sys::cfb_read_n(&mut shared.handle.0, path.as_ptr(), path.len(), self.at, into, room, &mut count) };
        shared.handle.done(number)?;
        Ok(count)
    }

    /// Appends at most `room` bytes from the position on.
    fn append_to(&self, shared: &mut Shared<F>, into: &mut Vec<u8>, room: usize) -> io::Result<usize> {
        into.try_reserve(room).map_err(|_| failure(sys::MEMORY, ""))?;
        // SAFETY: that much memory is free behind the vector, and the call wrote the first `count` bytes.
        unsafe {
            let count = self.read_at(shared, into.spare_capacity_mut().as_mut_ptr().cast(), room)?;
            into.set_len(into.len() + count);
            Ok(count)
        }
    }

    /// Writes at a place of the stream.
    fn write_at(&self, shared: &mut Shared<F>, at: u64, bytes: &[u8]) -> io::Result<()> {
        shared.changes += 1;
        // SAFETY: the handle is this library's own; pointers and lengths are those of slices.
        let number = unsafe {
            let path = self.path.as_bytes();
            sys::cfb_write_n(&mut shared.handle.0, path.as_ptr(), path.len(), at, bytes.as_ptr(), bytes.len())
        };
        shared.handle.done(number)
    }

    /// Writes what is held back. If that fails it is lost.
    fn put_held(&mut self) -> io::Result<()> {
        if !self.is_written {
            self.is_written = true;
            let bytes = std::mem::take(&mut self.buffer);
            let file = self.file()?;
            let done = self.write_at(&mut file.lock(), self.buffer_at, &bytes);
            self.buffer = bytes;
            self.buffer.clear();
            return done;
        }
        Ok(())
    }

    /// The bytes at the position that were read ahead and are those of the stream still.
    fn held(&self, shared: &Shared<F>) -> &[u8] {
        let end = self.buffer_at + self.buffer.len() as u64;
        if self.changes != shared.changes || self.at < self.buffer_at || self.at >= end {
            return &[];
        }
        &self.buffer[(self.at - self.buffer_at) as usize..]
    }

    /// Holds these bytes back, if they go on where those end that are held.
    fn hold(&mut self, bytes: &[u8]) -> bool {
        let end = self.buffer_at + self.buffer.len() as u64;
        if self.is_written || self.at != end || bytes.len() > ROOM - self.buffer.len() {
            return false;
        }
        self.buffer.extend_from_slice(bytes);
        true
    }
}

impl<F: Read + Write + Seek> Stream<F> {
    /// Cuts the stream to a length, or pads it with zeros.
    pub fn set_len(&mut self, len: u64) -> io::Result<()> {
        self.put_held()?;
        let file = self.file()?;
        let mut shared = file.lock();
        shared.changes += 1;
        shared.write_back = Some(write_back::<F>);
        // SAFETY: the handle is this library's own; pointer and length are those of a text.
        let number = unsafe { sys::cfb_set_len_n(&mut shared.handle.0, self.path.as_ptr(), self.path.len(), len) };
        shared.handle.done(number)?;
        self.len = len;
        self.at = self.at.min(len);
        Ok(())
    }
}

impl<F: Read + Seek> Read for Stream<F> {
    fn read(&mut self, into: &mut [u8]) -> io::Result<usize> {
        if into.len() >= ROOM {
            self.put_held()?;
            let file = self.file()?;
            // SAFETY: pointer and length are those of a slice.
            let count = unsafe { self.read_at(&mut file.lock(), into.as_mut_ptr(), into.len())? };
            self.at += count as u64;
            return Ok(count);
        }
        let count = self.fill_buf()?.read(into)?;
        self.consume(count);
        Ok(count)
    }

    fn read_to_end(&mut self, into: &mut Vec<u8>) -> io::Result<usize> {
        self.put_held()?;
        let left = usize::try_from(self.len.saturating_sub(self.at)).map_err(|_| failure(sys::MEMORY, ""))?;
        let count = if left < ROOM {
            let rest = self.fill_buf()?;
            into.try_reserve(rest.len()).map_err(|_| failure(sys::MEMORY, ""))?;
            into.extend_from_slice(rest);
            rest.len()
        } else {
            let file = self.file()?;
            let mut shared = file.lock();
            self.append_to(&mut shared, into, left)?
        };
        self.at += count as u64;
        Ok(count)
    }
}

impl<F: Read + Seek> BufRead for Stream<F> {
    fn fill_buf(&mut self) -> io::Result<&[u8]> {
        self.put_held()?;
        let file = self.file()?;
        let mut shared = file.lock();
        if self.held(&shared).is_empty() {
            let mut ahead = std::mem::take(&mut self.buffer);
            ahead.clear();
            let read = self.append_to(&mut shared, &mut ahead, ROOM);
            self.buffer = ahead;
            self.buffer_at = self.at;
            self.changes = shared.changes;
            read?;
        }
        Ok(self.held(&shared))
    }

    fn consume(&mut self, amount: usize) {
        let end = self.buffer_at + self.buffer.len() as u64;
        self.at = (self.at + amount as u64).min(end.max(self.at));
    }
}

impl<F: Read + Write + Seek> Write for Stream<F> {
    fn write(&mut self, bytes: &[u8]) -> io::Result<usize> {
        if !bytes.is_empty() && !self.hold(bytes) {
            self.put_held()?;
            let file = self.file()?;
            let mut shared = file.lock();
            shared.write_back = Some(write_back::<F>);
            if bytes.len() < ROOM {
                self.buffer.clear();
                self.buffer.extend_from_slice(bytes);
                self.buffer_at = self.at;
                self.is_written = false;
            } else {
                self.write_at(&mut shared, self.at, bytes)?;
            }
        }
        self.at += bytes.len() as u64;
        self.len = self.len.max(self.at);
        Ok(bytes.len())
    }

    /// Writes back what has changed in the file.
    fn flush(&mut self) -> io::Result<()> {
        self.put_held()?;
        self.file()?.lock().write_back()
    }
}

impl<F: Read + Seek> Seek for Stream<F> {
    fn seek(&mut self, to: SeekFrom) -> io::Result<u64> {
        let (base, offset) = match to {
            SeekFrom::Start(at) => (0, i128::from(at)),
            SeekFrom::Current(by) => (i128::from(self.at), i128::from(by)),
            SeekFrom::End(by) => (i128::from(self.len), i128::from(by)),
        };
        match u64::try_from(base + offset) {
            Ok(at) if at <= self.len => {
                self.at = at;
                Ok(at)
            }
            _ => Err(failure(sys::INVALID_INPUT, "a place outside of the stream")),
        }
    }
}

impl<F> Drop for Stream<F> {
    fn drop(&mut self) {
        let _ = self.put_held();
    }
}

impl<F> fmt::Debug for Stream<F> {
    fn fmt(&self, f: &mut fmt::Formatter<'_>) -> fmt::Result {
        f.debug_struct("Stream").field("path", &self.path).field("len", &self.len).field("position", &self.at).finish()
    }
}
