//! The calls of cfb.h. bindings/declarations compares the two.
#[repr(C)]
pub struct Handle {
    pub at: *mut std::ffi::c_void,
    pub source: *mut std::ffi::c_void,
}

#[repr(C)]
pub struct Info {
    pub len: u64,
    pub created: u64,
    pub modified: u64,
    pub state_bits: u32,
    pub kind: u8,
    pub name_len: u8,
    pub clsid: [u8; 16],
    pub name: [u8; 96],
}

impl Info {
    /// What a call fills.
    pub fn none() -> Info {
        Info { len: 0, created: 0, modified: 0, state_bits: 0, kind: 0, name_len: 0, clsid: [0; 16], name: [0; 96] }
    }
}

/// A question about a path, and a list of what is there.
pub type Flag = unsafe extern "C" fn(*mut Handle, *const u8, usize, *mut bool) -> u8;
pub type List = unsafe extern "C" fn(*mut Handle, *const u8, usize, *mut Handle) -> u8;

pub const DONE: u8 = 0;
pub const NOT_FOUND: u8 = 1;
pub const ALREADY_EXISTS: u8 = 2;
pub const INVALID_INPUT: u8 = 3;
pub const INVALID_DATA: u8 = 4;
pub const MEDIUM: u8 = 5;
pub const MEMORY: u8 = 6;
pub const TOO_SMALL: u8 = 10;
pub const STREAM: u8 = 2;
pub const ROOT: u8 = 5;

#[allow(dead_code)]
extern "C" {
    pub fn cfb_open_bytes(file: *mut Handle, bytes: *const u8, len: usize, is_strict: bool) -> u8;
    pub fn cfb_open_lent(file: *mut Handle, bytes: *const u8, len: usize, is_strict: bool) -> u8;
    pub fn cfb_create_bytes(file: *mut Handle, version: u32) -> u8;
    pub fn cfb_bytes_begin(file: *mut Handle, room: usize) -> u8;
    pub fn cfb_bytes_add(file: *mut Handle, bytes: *const u8, len: usize) -> u8;
    pub fn cfb_bytes_open(file: *mut Handle, is_strict: bool) -> u8;
    pub fn cfb_copy_bytes(file: *mut Handle, copy: *mut Handle) -> u8;
    pub fn cfb_into_bytes(file: *mut Handle, len: *mut usize) -> u8;
    pub fn cfb_bytes(file: *mut Handle, into: *mut u8, room: usize, len: *mut usize) -> u8;
    pub fn cfb_image_len(file: *mut Handle, len: *mut u64) -> u8;
    pub fn cfb_image(file: *mut Handle, at: u64, into: *mut u8, room: usize, len: *mut usize) -> u8;
    pub fn cfb_close(file: *mut Handle);
    pub fn cfb_save(file: *mut Handle, path: *const u8) -> u8;
    pub fn cfb_version(file: *mut Handle, version: *mut u32) -> u8;
    pub fn cfb_is_sound(file: *mut Handle, is_so: *mut bool) -> u8;
    pub fn cfb_is_failed(file: *mut Handle, is_so: *mut bool) -> u8;
    pub fn cfb_exists_n(file: *mut Handle, path: *const u8, path_len: usize, is_so: *mut bool) -> u8;
    pub fn cfb_is_stream_n(file: *mut Handle, path: *const u8, path_len: usize, is_so: *mut bool) -> u8;
    pub fn cfb_is_storage_n(file: *mut Handle, path: *const u8, path_len: usize, is_so: *mut bool) -> u8;
    pub fn cfb_entry_n(file: *mut Handle, path: *const u8, path_len: usize, info: *mut Info) -> u8;
    pub fn cfb_reason(file: *mut Handle, into: *mut u8, room: usize, len: *mut usize) -> u8;
    pub fn cfb_list_n(file: *mut Handle, path: *const u8, path_len: usize, entries: *mut Handle) -> u8;
    pub fn cfb_walk_n(file: *mut Handle, path: *const u8, path_len: usize, entries: *mut Handle) -> u8;
    pub fn cfb_entries_len(entries: *mut Handle, len: *mut usize) -> u8;
    pub fn cfb_entries_get(entries: *mut Handle, number: usize, info: *mut Info) -> u8;
    pub fn cfb_entries_path(entries: *mut Handle, number: usize, into: *mut u8, room: usize, len: *mut usize) -> u8;
    pub fn cfb_read_n(file: *mut Handle, path: *const u8, path_len: usize, at: u64, into: *mut u8, room: usize, len: *mut usize) -> u8;
    pub fn cfb_get_n(file: *mut Handle, path: *const u8, path_len: usize, into: *mut u8, room: usize, len: *mut usize) -> u8;
    pub fn cfb_put_n(file: *mut Handle, path: *const u8, path_len: usize, bytes: *const u8, len: usize) -> u8;
    pub fn cfb_create_stream_n(file: *mut Handle, path: *const u8, path_len: usize, is_new: bool) -> u8;
    pub fn cfb_write_n(file: *mut Handle, path: *const u8, path_len: usize, at: u64, bytes: *const u8, len: usize) -> u8;
    pub fn cfb_set_len_n(file: *mut Handle, path: *const u8, path_len: usize, len: u64) -> u8;
    pub fn cfb_remove_stream_n(file: *mut Handle, path: *const u8, path_len: usize) -> u8;
    pub fn cfb_create_storage_n(file: *mut Handle, path: *const u8, path_len: usize, moment: u64) -> u8;
    pub fn cfb_create_storage_all_n(file: *mut Handle, path: *const u8, path_len: usize, moment: u64) -> u8;
    pub fn cfb_remove_storage_n(file: *mut Handle, path: *const u8, path_len: usize) -> u8;
    pub fn cfb_remove_storage_all_n(file: *mut Handle, path: *const u8, path_len: usize) -> u8;
    pub fn cfb_set_clsid_n(file: *mut Handle, path: *const u8, path_len: usize, clsid: *const [u8; 16]) -> u8;
    pub fn cfb_set_state_bits_n(file: *mut Handle, path: *const u8, path_len: usize, bits: u32) -> u8;
    pub fn cfb_set_created_n(file: *mut Handle, path: *const u8, path_len: usize, moment: u64) -> u8;
    pub fn cfb_set_modified_n(file: *mut Handle, path: *const u8, path_len: usize, moment: u64) -> u8;
}
