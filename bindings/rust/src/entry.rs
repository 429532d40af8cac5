//! Objects, as they were when they were asked for.
use crate::handle::Handle;
use crate::sys;
use std::marker::PhantomData;
use std::path::{Path, PathBuf};
use std::time::{Duration, SystemTime, UNIX_EPOCH};
use std::{fmt, io, vec};

/// A class id, in the order of its text. It equals whatever has the same 16 bytes.
#[derive(Clone, Copy, Default, Eq, Hash, PartialOrd, Ord)]
pub struct Uuid([u8; 16]);

impl AsRef<[u8]> for Uuid {
    fn as_ref(&self) -> &[u8] {
        &self.0
    }
}

impl<T: AsRef<[u8]>> PartialEq<T> for Uuid {
    fn eq(&self, other: &T) -> bool {
        self.0 == other.as_ref()
    }
}

impl From<[u8; 16]> for Uuid {
    fn from(bytes: [u8; 16]) -> Uuid {
        Uuid(bytes)
    }
}

impl fmt::Debug for Uuid {
    fn fmt(&self, f: &mut fmt::Formatter<'_>) -> fmt::Result {
        fmt::Display::fmt(self, f)
    }
}

impl Uuid {
    /// All zero.
    pub const fn nil() -> Uuid {
        Uuid([0; 16])
    }

    pub fn is_nil(&self) -> bool {
        self.0 == [0; 16]
    }

    pub const fn as_bytes(&self) -> &[u8; 16] {
        &self.0
    }

    pub const fn from_bytes(bytes: [u8; 16]) -> Uuid {
        Uuid(bytes)
    }

    pub const fn from_u128(number: u128) -> Uuid {
        Uuid(number.to_be_bytes())
    }
}

impl fmt::Display for Uuid {
    fn fmt(&self, f: &mut fmt::Formatter<'_>) -> fmt::Result {
        for (at, byte) in self.0.iter().enumerate() {
            if [4, 6, 8, 10].contains(&at) {
                f.write_str("-")?;
            }
            write!(f, "{byte:02x}")?;
        }
        Ok(())
    }
}

/// 1970, in units of 100 nanoseconds since 1601.
const UNIX_EPOCH_UNITS: u64 = 116_444_736_000_000_000;

fn time_of(units: u64) -> SystemTime {
    let span = |units: u64| Duration::new(units / 10_000_000, (units % 10_000_000) as u32 * 100);
    match units.checked_sub(UNIX_EPOCH_UNITS) {
        Some(since) => UNIX_EPOCH + span(since),
        None => UNIX_EPOCH - span(UNIX_EPOCH_UNITS - units),
    }
}

/// A time in units of 100 nanoseconds since 1601, cut to what 64 bits hold.
pub fn units_of(time: SystemTime) -> u64 {
    let units = |span: Duration| u64::try_from(span.as_nanos() / 100).unwrap_or(u64::MAX);
    match time.duration_since(UNIX_EPOCH) {
        Ok(since) => UNIX_EPOCH_UNITS.saturating_add(units(since)),
        Err(e) => UNIX_EPOCH_UNITS.saturating_sub(units(e.duration())),
    }
}

/// One object.
#[derive(Clone, PartialEq, Eq)]
pub struct Entry {
    name: String,
    path: PathBuf,
    kind: u8,
    len: u64,
    clsid: Uuid,
    state_bits: u32,
    created: u64,
    modified: u64,
}

impl Entry {
    pub(crate) fn new(info: &sys::Info, path: PathBuf) -> Entry {
        Entry {
            name: String::from_utf8_lossy(&info.name[..usize::from(info.name_len)]).into_owned(),
            path,
            kind: info.kind,
            len: info.len,
            clsid: Uuid(info.clsid),
            state_bits: info.state_bits,
            created: info.created,
            modified: info.modified,
        }
    }

    pub fn name(&self) -> &str {
        &self.name
    }

    pub fn path(&self) -> &Path {
        &self.path
    }

    pub fn is_stream(&self) -> bool {
        self.kind == sys::STREAM
    }

    /// Whether the object is a storage, the root among them.
    pub fn is_storage(&self) -> bool {
        self.kind != sys::STREAM
    }

    pub fn is_root(&self) -> bool {
        self.kind == sys::ROOT
    }

    pub fn len(&self) -> u64 {
        self.len
    }

    pub fn is_empty(&self) -> bool {
        self.len == 0
    }

    pub fn clsid(&self) -> &Uuid {
        &self.clsid
    }

    pub fn state_bits(&self) -> u32 {
        self.state_bits
    }

    pub fn created(&self) -> SystemTime {
        time_of(self.created)
    }

    pub fn modified(&self) -> SystemTime {
        time_of(self.modified)
    }
}

impl fmt::Debug for Entry {
    fn fmt(&self, f: &mut fmt::Formatter<'_>) -> fmt::Result {
        write!(f, "{} ({} bytes)", self.path.display(), self.len)
    }
}

/// An iterator over objects. It was taken when it was asked for.
pub struct Entries<'a, F> {
    left: vec::IntoIter<Entry>,
    file: PhantomData<&'a F>,
}

impl<F> Iterator for Entries<'_, F> {
    type Item = Entry;

    fn next(&mut self) -> Option<Entry> {
        self.left.next()
    }

    fn size_hint(&self) -> (usize, Option<usize>) {
        self.left.size_hint()
    }
}

/// The objects of a list that a handle holds.
pub(crate) fn entries_of<'a, F>(list: &mut Handle) -> io::Result<Entries<'a, F>> {
    let (mut count, mut len) = (0, 0);
    let mut info = sys::Info::none();
    let mut room = vec![0; 256];
    // SAFETY of the calls here: the handle is this library's own, and the rest are variables and a
    // vector with its length.
    let number = unsafe { sys::cfb_entries_len(&mut list.0, &mut count) };
    list.done(number)?;
    let mut entries = Vec::with_capacity(count);
    for at in 0..count {
        let number = unsafe { sys::cfb_entries_get(&mut list.0, at, &mut info) };
        list.done(number)?;
        let mut number = unsafe { sys::cfb_entries_path(&mut list.0, at, room.as_mut_ptr(), room.len(), &mut len) };
        if number == sys::TOO_SMALL {
            room.resize(len, 0);
            number = unsafe { sys::cfb_entries_path(&mut list.0, at, room.as_mut_ptr(), room.len(), &mut len) };
        }
        list.done(number)?;
        entries.push(Entry::new(&info, PathBuf::from(String::from_utf8_lossy(&room[..len]).into_owned())));
    }
    Ok(Entries { left: entries.into_iter(), file: PhantomData })
}
