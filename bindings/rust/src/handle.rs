//! What is open, and how calls fail.
use crate::sys;
use std::path::Path;
use std::{error, fmt, io};

/// Why a call failed, as `io::Error::get_ref` gives it.
#[derive(Clone, Debug, PartialEq, Eq)]
pub struct Failure {
    /// As in cfb.h: 1 to 11.
    pub number: u8,
    /// The details.
    pub reason: String,
}

impl fmt::Display for Failure {
    fn fmt(&self, f: &mut fmt::Formatter<'_>) -> fmt::Result {
        if self.reason.is_empty() {
            return write!(f, "failed with number {}", self.number);
        }
        f.write_str(&self.reason)
    }
}

impl error::Error for Failure {}

/// The error of a number of cfb.h.
pub fn failure(number: u8, reason: &str) -> io::Error {
    let kind = match number {
        sys::NOT_FOUND => io::ErrorKind::NotFound,
        sys::ALREADY_EXISTS => io::ErrorKind::AlreadyExists,
        sys::INVALID_INPUT => io::ErrorKind::InvalidInput,
        sys::INVALID_DATA => io::ErrorKind::InvalidData,
        // bytes in memory fail for no other reason
        sys::MEMORY | sys::MEDIUM => io::ErrorKind::OutOfMemory,
        _ => io::ErrorKind::Other,
    };
    io::Error::new(kind, Failure { number, reason: reason.to_owned() })
}

/// What is open. It is closed once, when it is dropped.
pub struct Handle(pub sys::Handle);

// SAFETY: what a handle holds is memory of the heap that nothing else points to. The library has no
// variable, of the process or of a thread, and any thread may free what another allocated. No proof
// says so; bindings/documented looks for variables.
unsafe impl Send for Handle {}

impl Handle {
    pub fn closed() -> Handle {
        Handle(sys::Handle { at: std::ptr::null_mut(), source: std::ptr::null_mut() })
    }

    /// What a call returned, as a result.
    pub fn done(&mut self, number: u8) -> io::Result<()> {
        if number == sys::DONE {
            return Ok(());
        }
        let (mut text, mut len) = ([0; 256], 0);
        // SAFETY: the handle is this library's own, and pointer and length are those of an array.
        let told = unsafe { sys::cfb_reason(&mut self.0, text.as_mut_ptr(), text.len(), &mut len) };
        let reason = if told == sys::DONE { String::from_utf8_lossy(&text[..len]).into_owned() } else { String::new() };
        Err(failure(number, &reason))
    }
}

impl Drop for Handle {
    fn drop(&mut self) {
        // SAFETY: the handle is this library's own.
        unsafe { sys::cfb_close(&mut self.0) }
    }
}

/// A path as the library reads it.
pub fn text(path: &Path) -> io::Result<&str> {
    path.to_str().ok_or_else(|| failure(sys::INVALID_INPUT, "a path is not UTF-8"))
}

/// A call by path. The handle is this library's own; pointers and lengths are those of slices and
/// variables that live through the call and do not overlap; the declarations are those of cfb.h.
macro_rules! on_path {
    ($shared:expr, $call:ident, $path:expr $(, $more:expr)*) => {{
        let path: &std::path::Path = $path.as_ref();
        let path = crate::handle::text(path)?;
        let handle = &mut $shared.handle;
        // SAFETY: as said above.
        let number = unsafe { crate::sys::$call(&mut handle.0, path.as_ptr(), path.len() $(, $more)*) };
        handle.done(number)
    }};
}
pub(crate) use on_path;
