//! Compound files (MS-CFB) by a library that is proved, under the names of the crate `cfb` 0.16.0.
//!
//! ```
//! use cfb_proved as cfb;
//! use std::io::{Cursor, Read, Write};
//! # fn main() -> std::io::Result<()> {
//! let mut comp = cfb::CompoundFile::create(Cursor::new(Vec::new()))?;
//! comp.create_storage("/foo")?;
//! comp.create_stream("/foo/bar")?.write_all(b"Hello, world!")?;
//! let mut comp = cfb::CompoundFile::open(comp.into_inner())?;
//! let mut text = String::new();
//! comp.open_stream("/foo/bar")?.read_to_string(&mut text)?;
//! assert_eq!(text, "Hello, world!");
//! # Ok(())
//! # }
//! ```
//!
//! A file is read whole when it is opened, and read and changed in memory. `flush` writes what has
//! changed back to the inner reader and writer; so do `Stream::flush`, `into_inner` and dropping
//! the file, but the last two cannot report an error. All of them write in place, where a crash can leave the
//! inner file between the old and the new one; `save` replaces a file all or nothing. What a stream holds back, at most 64 KiB, is
//! in the file once it is flushed, read from or dropped, as in `cfb`.
//!
//! `Uuid` is a type of this crate, and compares with any that has 16 bytes, as that of `uuid`.
mod entry;
mod handle;
mod stream;
mod sys;
mod write_back;

pub use crate::entry::{Entries, Entry, Uuid};
pub use crate::handle::Failure;
pub use crate::stream::Stream;

use crate::handle::{on_path, text, Handle};
use crate::write_back::{lock, read_whole, write_back, Shared};
use std::ffi::CString;
use std::fmt;
use std::fs;
use std::io::{self, Read, Seek, Write};
use std::os::unix::ffi::OsStrExt;
use std::path::{Component, Path, PathBuf};
use std::sync::{Arc, Mutex, MutexGuard};
use std::time::SystemTime;

/// The two versions of the format.
#[derive(Clone, Copy, Debug, PartialEq, Eq, PartialOrd, Ord, Hash)]
pub enum Version {
    V3,
    V4,
}

impl Version {
    /// The version of this number.
    pub fn from_number(number: u16) -> Option<Version> {
        match number {
            3 => Some(Version::V3),
            4 => Some(Version::V4),
            _ => None,
        }
    }

    /// The number of the version.
    pub fn number(self) -> u16 {
        match self {
            Version::V3 => 3,
            Version::V4 => 4,
        }
    }

    /// The power of 2 that a sector's length is.
    pub fn sector_shift(self) -> u16 {
        match self {
            Version::V3 => 9,
            Version::V4 => 12,
        }
    }

    /// The length of a sector in bytes.
    pub fn sector_len(self) -> usize {
        1 << self.sector_shift()
    }

    /// The bits that count in the length of a stream.
    pub fn stream_len_mask(self) -> u64 {
        match self {
            Version::V3 => u64::from(u32::MAX),
            Version::V4 => u64::MAX,
        }
    }

    /// How many directory entries a sector has.
    pub fn dir_entries_per_sector(self) -> usize {
        self.sector_len() / 128
    }
}

/// How a file is opened or created.
#[derive(Clone, Copy, Debug, Default)]
pub struct OpenOptions {
    is_strict: bool,
}

impl OpenOptions {
    pub fn new() -> OpenOptions {
        OpenOptions::default()
    }

    /// Does nothing: streams here have no buffer that grows.
    pub fn max_buffer_size(self, _size: usize) -> OpenOptions {
        self
    }

    /// Opening also rejects what other writers are known to leave behind, and what does no harm.
    pub fn strict(self) -> OpenOptions {
        OpenOptions { is_strict: true }
    }

    pub fn open<P: AsRef<Path>>(self, path: P) -> io::Result<CompoundFile<fs::File>> {
        self.open_with(fs::File::open(path)?)
    }

    pub fn open_rw<P: AsRef<Path>>(self, path: P) -> io::Result<CompoundFile<fs::File>> {
        self.open_with(fs::OpenOptions::new().read(true).write(true).open(path)?)
    }

    pub fn create<P: AsRef<Path>>(self, path: P) -> io::Result<CompoundFile<fs::File>> {
        let file = fs::OpenOptions::new().read(true).write(true).create(true).truncate(true).open(path)?;
        self.create_with(file)
    }

    pub fn open_with<F: Read + Seek>(self, mut inner: F) -> io::Result<CompoundFile<F>> {
        let mut handle = Handle::closed();
        read_whole(&mut handle, &mut inner)?;
        // SAFETY: the handle is this library's own.
        let number = unsafe { sys::cfb_bytes_open(&mut handle.0, self.is_strict) };
        handle.done(number)?;
        Ok(CompoundFile::over(handle, inner))
    }

    pub fn create_with<F: Read + Write + Seek>(self, inner: F) -> io::Result<CompoundFile<F>> {
        CompoundFile::create_with_version(Version::V4, inner)
    }
}

/// Opens a file to be read.
pub fn open<P: AsRef<Path>>(path: P) -> io::Result<CompoundFile<fs::File>> {
    OpenOptions::new().open(path)
}

/// Opens a file to be read and changed.
pub fn open_rw<P: AsRef<Path>>(path: P) -> io::Result<CompoundFile<fs::File>> {
    OpenOptions::new().open_rw(path)
}

/// Creates an empty file of version 4; a file that is there is emptied.
pub fn create<P: AsRef<Path>>(path: P) -> io::Result<CompoundFile<fs::File>> {
    OpenOptions::new().create(path)
}

/// An open compound file over a reader and writer.
pub struct CompoundFile<F> {
    shared: Arc<Mutex<Shared<F>>>,
}

impl<F: fmt::Debug> fmt::Debug for CompoundFile<F> {
    fn fmt(&self, f: &mut fmt::Formatter<'_>) -> fmt::Result {
        let shared = lock(&self.shared);
        let inner: &dyn fmt::Debug = match &shared.inner {
            Some(inner) => inner,
            None => &"closed",
        };
        f.debug_tuple("CompoundFile").field(inner).finish()
    }
}

impl<F> CompoundFile<F> {
    fn over(handle: Handle, inner: F) -> CompoundFile<F> {
        let shared = Shared { handle, inner: Some(inner), changes: 0, written: 0, write_back: None };
        CompoundFile { shared: Arc::new(Mutex::new(shared)) }
    }

    fn ask<T: Default>(&self, call: unsafe extern "C" fn(*mut sys::Handle, *mut T) -> u8) -> T {
        let mut told = T::default();
        // SAFETY: the handle is this library's own, and `told` lives through the call.
        unsafe { call(&mut lock(&self.shared).handle.0, &mut told) };
        told
    }

    fn flag(&self, path: &Path, call: sys::Flag) -> bool {
        let Ok(path) = text(path) else { return false };
        let mut told = false;
        // SAFETY: as in `ask`; pointer and length are those of a text.
        unsafe { call(&mut lock(&self.shared).handle.0, path.as_ptr(), path.len(), &mut told) };
        told
    }

    /// The version of the format.
    pub fn version(&self) -> Version {
        let number: u32 = self.ask(sys::cfb_version);
        if number == 3 { Version::V3 } else { Version::V4 }
    }

    /// Whether no sector has two uses and every stream can be read to its end.
    pub fn is_sound(&self) -> bool {
        self.ask(sys::cfb_is_sound)
    }

    /// Whether an earlier change broke off.
    pub fn is_failed(&self) -> bool {
        self.ask(sys::cfb_is_failed)
    }

    pub fn exists<P: AsRef<Path>>(&self, path: P) -> bool {
        self.flag(path.as_ref(), sys::cfb_exists_n)
    }

    pub fn is_stream<P: AsRef<Path>>(&self, path: P) -> bool {
        self.flag(path.as_ref(), sys::cfb_is_stream_n)
    }

    pub fn is_storage<P: AsRef<Path>>(&self, path: P) -> bool {
        self.flag(path.as_ref(), sys::cfb_is_storage_n)
    }

    fn info(&self, path: &Path) -> io::Result<sys::Info> {
        let mut info = sys::Info::none();
        let mut shared = lock(&self.shared);
        on_path!(shared, cfb_entry_n, path, &mut info)?;
        Ok(info)
    }

    pub fn root_entry(&self) -> Entry {
        self.entry("/").expect("the root is there")
    }

    /// The object at this path. The entry has the path as it was asked for.
    pub fn entry<P: AsRef<Path>>(&self, path: P) -> io::Result<Entry> {
        let path = path.as_ref();
        let info = self.info(path)?;
        Ok(Entry::new(&info, whole_path(path)))
    }

    pub fn read_root_storage(&self) -> Entries<'_, F> {
        self.read_storage("/").expect("the root is there")
    }

    pub fn read_storage<P: AsRef<Path>>(&self, path: P) -> io::Result<Entries<'_, F>> {
        self.listed(path.as_ref(), sys::cfb_list_n)
    }

    pub fn walk(&self) -> Entries<'_, F> {
        self.walk_storage("/").expect("the root is there")
    }

    pub fn walk_storage<P: AsRef<Path>>(&self, path: P) -> io::Result<Entries<'_, F>> {
        self.listed(path.as_ref(), sys::cfb_walk_n)
    }

    fn listed(&self, path: &Path, call: sys::List) -> io::Result<Entries<'_, F>> {
        let path = text(path)?;
        let mut list = Handle::closed();
        {
            let mut shared = lock(&self.shared);
            // SAFETY: both handles are this library's own; pointer and length are those of a text.
            let number = unsafe { call(&mut shared.handle.0, path.as_ptr(), path.len(), &mut list.0) };
            shared.handle.done(number)?;
        }
        entry::entries_of(&mut list)
    }

    /// Replaces the file at the path with a copy without free sectors, all of it or nothing: the copy is written beside it, synced and renamed.
    /// The inner writer stays as it is.
    pub fn save<P: AsRef<Path>>(&mut self, path: P) -> io::Result<()> {
        let path = CString::new(path.as_ref().as_os_str().as_bytes())?;
        let mut shared = lock(&self.shared);
        // SAFETY: the handle is this library's own, and the path ends in 0.
        let number = unsafe { sys::cfb_save(&mut shared.handle.0, path.as_ptr().cast()) };
        if number == sys::MEDIUM {
            return Err(io::Error::last_os_error());
        }
        shared.handle.done(number)
    }

    /// The inner reader and writer, to which what has changed is written first.
    pub fn into_inner(self) -> F {
        let mut shared = lock(&self.shared);
        let _ = shared.write_back();
        shared.inner.take().expect("the inner value leaves the file once")
    }
}

/// The path from the root, with `.` and `..` done.
fn whole_path(path: &Path) -> PathBuf {
    let mut whole = PathBuf::from("/");
    for part in path.components() {
        match part {
            Component::Normal(name) => whole.push(name),
            Component::ParentDir => drop(whole.pop()),
            _ => {}
        }
    }
    whole
}

impl<F: Seek> CompoundFile<F> {
    /// Opens a stream at its start.
    pub fn open_stream<P: AsRef<Path>>(&mut self, path: P) -> io::Result<Stream<F>> {
        let path = path.as_ref();
        let info = self.info(path)?;
        if info.kind != sys::STREAM {
            return Err(handle::failure(sys::INVALID_INPUT, "no stream is at this path"));
        }
        Ok(Stream::new(&self.shared, text(path)?.to_owned(), info.len))
    }
}

impl<F: Read + Seek> CompoundFile<F> {
    pub fn open(inner: F) -> io::Result<CompoundFile<F>> {
        OpenOptions::new().open_with(inner)
    }

    pub fn open_strict(inner: F) -> io::Result<CompoundFile<F>> {
        OpenOptions::new().strict().open_with(inner)
    }

    /// Copies the file without its free sectors.
    pub fn copy_to<W: Read + Write + Seek>(&mut self, dest: W) -> io::Result<CompoundFile<W>> {
        let mut copy = Handle::closed();
        {
            let mut shared = lock(&self.shared);
            // SAFETY: both handles are this library's own.
            let number = unsafe { sys::cfb_copy_bytes(&mut shared.handle.0, &mut copy.0) };
            shared.handle.done(number)?;
        }
        CompoundFile::made(copy, dest)
    }
}

impl<F: Read + Write + Seek> CompoundFile<F> {
    /// A file that was made in memory, written to the inner writer.
    fn made(handle: Handle, inner: F) -> io::Result<CompoundFile<F>> {
        let file = CompoundFile::over(handle, inner);
        drop(file.change());
        lock(&file.shared).write_back()?;
        Ok(file)
    }

    /// Says that the next call changes the file.
    fn change(&self) -> MutexGuard<'_, Shared<F>> {
        let mut shared = lock(&self.shared);
        shared.changes += 1;
        shared.write_back = Some(write_back::<F>);
        shared
    }

    pub fn create(inner: F) -> io::Result<CompoundFile<F>> {
        CompoundFile::create_with_version(Version::V4, inner)
    }

    pub fn create_with_version(version: Version, inner: F) -> io::Result<CompoundFile<F>> {
        let mut handle = Handle::closed();
        // SAFETY: the handle is this library's own.
        let number = unsafe { sys::cfb_create_bytes(&mut handle.0, version.number().into()) };
        handle.done(number)?;
        CompoundFile::made(handle, inner)
    }

    pub fn create_storage<P: AsRef<Path>>(&mut self, path: P) -> io::Result<()> {
        let mut shared = self.change();
        on_path!(shared, cfb_create_storage_n, path, entry::units_of(SystemTime::now()))
    }

    pub fn create_storage_all<P: AsRef<Path>>(&mut self, path: P) -> io::Result<()> {
        let mut shared = self.change();
        on_path!(shared, cfb_create_storage_all_n, path, entry::units_of(SystemTime::now()))
    }

    pub fn remove_storage<P: AsRef<Path>>(&mut self, path: P) -> io::Result<()> {
        let mut shared = self.change();
        on_path!(shared, cfb_remove_storage_n, path)
    }

    pub fn remove_storage_all<P: AsRef<Path>>(&mut self, path: P) -> io::Result<()> {
        let mut shared = self.change();
        on_path!(shared, cfb_remove_storage_all_n, path)
    }

    /// Gives a storage this class id, 16 bytes in the order of its text.
    pub fn set_storage_clsid<P: AsRef<Path>>(&mut self, path: P, clsid: impl AsRef<[u8]>) -> io::Result<()> {
        let clsid: [u8; 16] = clsid.as_ref().try_into().map_err(|_| handle::failure(sys::INVALID_INPUT, "a class id has 16 bytes"))?;
        let mut shared = self.change();
        on_path!(shared, cfb_set_clsid_n, path, &clsid)
    }

    pub fn set_state_bits<P: AsRef<Path>>(&mut self, path: P, bits: u32) -> io::Result<()> {
        let mut shared = self.change();
        on_path!(shared, cfb_set_state_bits_n, path, bits)
    }

    pub fn set_created_time<P: AsRef<Path>>(&mut self, path: P, time: SystemTime) -> io::Result<()> {
        let mut shared = self.change();
        on_path!(shared, cfb_set_created_n, path, entry::units_of(time))
    }

    pub fn set_modified_time<P: AsRef<Path>>(&mut self, path: P, time: SystemTime) -> io::Result<()> {
        let mut shared = self.change();
        on_path!(shared, cfb_set_modified_n, path, entry::units_of(time))
    }

    /// Says that a storage was changed now. A stream and the root stay as they are.
    pub fn touch<P: AsRef<Path>>(&mut self, path: P) -> io::Result<()> {
        let path = path.as_ref();
        let kind = self.info(path)?.kind;
        if kind == sys::STREAM || kind == sys::ROOT {
            return Ok(());
        }
        self.set_modified_time(path, SystemTime::now())
    }

    pub fn create_stream<P: AsRef<Path>>(&mut self, path: P) -> io::Result<Stream<F>> {
        on_path!(self.change(), cfb_create_stream_n, &path, false)?;
        self.open_stream(path)
    }

    pub fn create_new_stream<P: AsRef<Path>>(&mut self, path: P) -> io::Result<Stream<F>> {
        on_path!(self.change(), cfb_create_stream_n, &path, true)?;
        self.open_stream(path)
    }

    pub fn remove_stream<P: AsRef<Path>>(&mut self, path: P) -> io::Result<()> {
        let mut shared = self.change();
        on_path!(shared, cfb_remove_stream_n, path)
    }

    /// Writes what has changed to the inner writer, and flushes that. It writes in place: if it breaks off, the inner file may be neither the
    /// old nor the new one. `save` is all or nothing.
    pub fn flush(&mut self) -> io::Result<()> {
        lock(&self.shared).write_back()
    }
}

impl<F> Drop for CompoundFile<F> {
    fn drop(&mut self) {
        let _ = lock(&self.shared).write_back();
    }
}
