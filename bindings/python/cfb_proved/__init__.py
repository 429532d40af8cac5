"""Compound files (MS-CFB: .doc, .xls, .msg, .msi, Thumbs.db) by a library that is proved.

A script that reads with olefile runs after one change:

    import cfb_proved as olefile

Files can be changed too, in memory: `put`, `create_storage`, `remove` and more. `save(path)` replaces
the file at the path, all of it or nothing. `close` saves what changed in a file that `open(path, "r+")`
or `OleFileIO(path, write_mode=True)` opened, and what `create(path)` made.

Threads can share a file: its calls wait for each other.

Not here, of olefile 0.46: `getproperties`, `get_metadata` and `OleMetadata` need olefile itself, because
property sets are not part of compound files. There is no `OleDirectoryEntry` (`root` and `walk` give
`Entry`), nothing of sectors and tables (`fp`, `fat`, `direntries`, `sect2array`, `dumpfat` and so on) and
no logging. `path_encoding` is ignored, and `parsing_issues` has only what property sets have.
"""
from __future__ import annotations

import ctypes
import datetime
import errno
import glob
import io
import os
import threading
import warnings
from typing import Any, BinaryIO, List, Optional, Sequence, Union

__version__ = "0.1.0"

STGTY_EMPTY, STGTY_STORAGE, STGTY_STREAM, STGTY_LOCKBYTES, STGTY_PROPERTY, STGTY_ROOT = range(6)
MAGIC = b"\xd0\xcf\x11\xe0\xa1\xb1\x1a\xe1"
MINIMAL_OLEFILE_SIZE = 1536
DEFECT_UNSURE, DEFECT_POTENTIAL, DEFECT_INCORRECT, DEFECT_FATAL = 10, 20, 30, 40
DEFAULT_PATH_ENCODING = None
KEEP_UNICODE_NAMES = True

Name = Union[str, Sequence[str]]

_TEXTS = [
    "done", "not found", "already exists", "invalid path, name or argument", "not a valid compound file",
    "the file could not be opened, read or written", "out of memory", "the compound file is full",
    "the compound file is damaged and can only be read", "an earlier change broke off", "the buffer is too small", "nothing is open",
]
_INVALID_INPUT, _INVALID_DATA, _MEDIUM, _MEMORY, _TOO_SMALL = 3, 4, 5, 6, 10


_BY_PATH = ("open", "save")


class Error(IOError):
    """A call failed: `number` says why, as in cfb.h, `reason` has the details, and `path` what it was about."""

    def __init__(self, number: int, reason: str = "", path: str = ""):
        self.number, self.reason, self.path = number, reason, path
        super().__init__((f"{path}: " if path else "") + _TEXTS[number] + (f" ({reason})" if reason else ""))


class OleFileError(Error):
    """As olefile names it."""


class NotOleFileError(OleFileError):
    """The bytes are not a valid compound file."""


class _Info(ctypes.Structure):
    _fields_ = [
        ("len", ctypes.c_uint64), ("created", ctypes.c_uint64), ("modified", ctypes.c_uint64), ("state_bits", ctypes.c_uint32),
        ("kind", ctypes.c_uint8), ("name_len", ctypes.c_uint8), ("clsid", ctypes.c_uint8 * 16), ("name", ctypes.c_char * 96),
    ]


def _library():
    here = os.path.dirname(os.path.abspath(__file__))
    for path in [os.environ.get("CFB_LIBRARY"), *glob.glob(os.path.join(here, "libcfb.so*")), "libcfb.so.0", "libcfb.so"]:
        if path:
            try:
                return ctypes.CDLL(path, use_errno=True)
            except OSError as e:
                fault = e
    raise ImportError(f"libcfb is not found: put it beside {here}, or say where it is in CFB_LIBRARY ({fault})")


_lib = _library()
# C types: a pointer to a handle, a struct or a buffer; to bytes that are only read; numbers; and pointers to what is reported.
_H, _P, _N, _Q, _U, _B = ctypes.c_void_p, ctypes.c_char_p, ctypes.c_size_t, ctypes.c_uint64, ctypes.c_uint32, ctypes.c_bool
_ByN, _ByQ, _ByU, _ByB = map(ctypes.POINTER, (_N, _Q, _U, _B))
# The calls of cfb.h but cfb_close. bindings/declarations compares the two.
_CALLS = {
    "open_bytes": [_H, _P, _N, _B], "open_lent": [_H, _P, _N, _B], "create_bytes": [_H, _U],
    "bytes_begin": [_H, _N], "bytes_add": [_H, _P, _N], "bytes_open": [_H, _B],
    "copy_bytes": [_H, _H], "into_bytes": [_H, _ByN], "bytes": [_H, _H, _N, _ByN],
    "image_len": [_H, _ByQ], "image": [_H, _Q, _H, _N, _ByN],
    "open": [_H, _P, _B], "save": [_H, _P],
    "version": [_H, _ByU], "is_sound": [_H, _ByB], "is_failed": [_H, _ByB],
    "exists_n": [_H, _P, _N, _ByB], "is_stream_n": [_H, _P, _N, _ByB], "is_storage_n": [_H, _P, _N, _ByB],
    "entry_n": [_H, _P, _N, _H], "reason": [_H, _H, _N, _ByN],
    "list_n": [_H, _P, _N, _H], "walk_n": [_H, _P, _N, _H],
    "entries_len": [_H, _ByN], "entries_get": [_H, _N, _H], "entries_path": [_H, _N, _H, _N, _ByN],
    "read_n": [_H, _P, _N, _Q, _H, _N, _ByN], "get_n": [_H, _P, _N, _H, _N, _ByN], "put_n": [_H, _P, _N, _P, _N],
    "create_stream_n": [_H, _P, _N, _B], "write_n": [_H, _P, _N, _Q, _P, _N], "set_len_n": [_H, _P, _N, _Q],
    "remove_stream_n": [_H, _P, _N], "create_storage_n": [_H, _P, _N, _Q], "create_storage_all_n": [_H, _P, _N, _Q],
    "remove_storage_n": [_H, _P, _N], "remove_storage_all_n": [_H, _P, _N], "set_clsid_n": [_H, _P, _N, _P],
    "set_state_bits_n": [_H, _P, _N, _U], "set_created_n": [_H, _P, _N, _Q], "set_modified_n": [_H, _P, _N, _Q],
}
for _name, _types in _CALLS.items():
    _call = getattr(_lib, "cfb_" + _name)
    _call.argtypes, _call.restype = _types, ctypes.c_uint8
_lib.cfb_close.argtypes, _lib.cfb_close.restype = [_H], None


# what most streams fit into; a read of less room than this costs more
_Piece = ctypes.c_char * (1 << 16)


class _Handle:
    """A `cfb_file`, which the library fills; it is closed when nobody has it. One thread at a time holds its lock in a call."""

    def __init__(self):
        self.lock = threading.Lock()
        self.at = (ctypes.c_void_p * 2)()
        self.lent: Any = None  # bytes that the library reads as long as the file is open
        self.ref = ctypes.addressof(self.at)

    def close(self):
        with self.lock:
            _lib.cfb_close(self.ref)
            self.lent = None

    def __del__(self):
        if _lib is not None:
            self.close()


def _flat(path: Name) -> bytes:
    """A path of the library from olefile's: a list of names, or names with '/' between."""
    if isinstance(path, (list, tuple)):
        path = "/".join(path)
    return ("/" + path.strip("/")).encode("utf-8", "surrogatepass")


def _bytes_of(data: Any) -> bytes:
    return data if isinstance(data, bytes) else memoryview(data).tobytes()


def _system_path(path: Union[str, bytes, os.PathLike]) -> bytes:
    path = os.fsencode(path)
    if b"\0" in path:
        raise ValueError("embedded null byte")
    return path


def filetime2datetime(filetime: int) -> datetime.datetime:
    """A FILETIME as a datetime in UTC."""
    return datetime.datetime(1601, 1, 1) + datetime.timedelta(microseconds=filetime // 10)


def datetime2filetime(moment: datetime.datetime) -> int:
    """A FILETIME; a datetime without a zone is in UTC."""
    if moment.tzinfo:
        moment = moment.astimezone(datetime.timezone.utc).replace(tzinfo=None)
    return (moment - datetime.datetime(1601, 1, 1)) // datetime.timedelta(microseconds=1) * 10


def _moment(moment: Union[int, datetime.datetime]) -> int:
    number = moment if isinstance(moment, int) else datetime2filetime(moment)
    if not 0 <= number < 1 << 64:
        raise ValueError("a FILETIME is 64 bits, from 1601 on")
    return number


def _clsid_text(clsid: Any) -> str:
    text = bytes(clsid).hex().upper()
    return "" if not any(clsid) else f"{text[:8]}-{text[8:12]}-{text[12:16]}-{text[16:20]}-{text[20:]}"


class Entry:
    """One object, as it was when it was asked for."""

    def __init__(self, info, path):
        self.path, self.size, self.entry_type, self.state_bits = path, info.len, info.kind, info.state_bits
        self.name = info.name.decode("utf-8", "replace")
        self.clsid, self.createTime, self.modifyTime = _clsid_text(info.clsid), info.created, info.modified

    is_stream = property(lambda self: self.entry_type == STGTY_STREAM)
    is_storage = property(lambda self: self.entry_type != STGTY_STREAM)

    def getmtime(self) -> Optional[datetime.datetime]:
        return filetime2datetime(self.modifyTime) if self.modifyTime else None

    def getctime(self) -> Optional[datetime.datetime]:
        return filetime2datetime(self.createTime) if self.createTime else None

    def __repr__(self):
        return f"<Entry {self.path!r} {self.size}>"


class OleStream(io.BytesIO):
    """All bytes of a stream, in memory."""

    def __init__(self, data: bytes):
        super().__init__(data)
        self.size = len(data)


class Stream(io.RawIOBase):
    """A stream of an open file. `OleFileIO.stream` puts a buffer before one that is only read."""

    def __init__(self, file, path, writable):
        self._file, self._path, self._at, self._writable = file, path, 0, writable
        file._info(path)

    def readable(self):
        return True

    def writable(self):
        return self._writable

    def seekable(self):
        return True

    def tell(self):
        return self._at

    def seek(self, offset, whence=0):
        self._checkClosed()
        if whence not in (0, 1, 2):
            raise ValueError("whence is 0, 1 or 2")
        base = (0, self._at, self._file._info(self._path).len)[whence]
        if base + offset < 0:
            raise ValueError("a place before the beginning")
        self._at = base + offset
        return self._at

    def readinto(self, buffer):
        self._checkClosed()
        view = (ctypes.c_char * len(buffer)).from_buffer(buffer) if len(buffer) else ctypes.create_string_buffer(1)
        got = self._file._call_len("read_n", self._path, len(self._path), self._at, ctypes.addressof(view), len(buffer))
        self._at += got
        return got

    def readall(self):
        left = max(0, self._file._info(self._path).len - self._at)
        whole = bytearray(left)
        got = self.readinto(whole)
        return bytes(whole[:got])

    def write(self, data):
        self._checkClosed()
        data = _bytes_of(data)
        if not self._writable:
            raise io.UnsupportedOperation("write")
        len_ = self._file._info(self._path).len
        if self._at > len_:
            self._file._change("set_len_n", self._path, self._at)
        self._file._change("write_n", self._path, self._at, data, len(data))
        self._at += len(data)
        return len(data)

    def truncate(self, size=None):
        self._checkClosed()
        if not self._writable:
            raise io.UnsupportedOperation("truncate")
        size = self._at if size is None else size
        if size < 0:
            raise ValueError("a negative length")
        self._file._change("set_len_n", self._path, size)
        return size


class OleFileIO:
    """An open compound file."""

    def __init__(self, filename=None, raise_defects=DEFECT_FATAL, write_mode=False, debug=False, path_encoding=None, *, strict=False):
        self._handle = _Handle()
        self._path: Any = None
        self._is_changed = False
        self.parsing_issues: List[Any] = []
        self.metadata: Any = None
        self.strict = strict or raise_defects <= DEFECT_INCORRECT
        if filename is not None:
            self.open(filename, write_mode)

    # -- how calls fail
    def _call(self, name: str, *arguments: Any) -> None:
        with self._handle.lock:
            number = getattr(_lib, "cfb_" + name)(self._handle.ref, *arguments)
            if name == "open_lent":
                self._handle.lent = arguments[0]
            if number:
                raise self._error(number, name, arguments[0] if name.endswith("_n") or name in _BY_PATH else b"")

    def _change(self, name: str, path: bytes, *arguments: Any) -> None:
        self._is_changed = True
        self._call(name, path, len(path), *arguments)

    def _error(self, number: int, name: str, path: bytes) -> Exception:
        about = os.fsdecode(path) if name in _BY_PATH else path.decode("utf-8", "replace")
        if number == _MEDIUM and (name in _BY_PATH or ctypes.get_errno() == errno.ESTALE):
            return OSError(ctypes.get_errno(), os.strerror(ctypes.get_errno()), about)
        if number == _MEDIUM:
            number = _MEMORY  # bytes in memory fail for no other reason
        text, length = ctypes.create_string_buffer(256), _N()
        refused = _lib.cfb_reason(self._handle.ref, text, 256, ctypes.byref(length))
        reason = "" if refused else text.raw[: length.value].decode("utf-8", "replace")
        return (NotOleFileError if number == _INVALID_DATA else OleFileError)(number, reason, about)

    def _call_len(self, name: str, *arguments: Any) -> int:
        length = _N()
        self._call(name, *arguments, ctypes.byref(length))
        return length.value

    def _flag(self, name: str, path: Name) -> bool:
        flag, path = ctypes.c_bool(), _flat(path)
        self._call(name, path, len(path), ctypes.byref(flag))
        return flag.value

    def _info(self, path: bytes) -> _Info:
        info = _Info()
        self._call("entry_n", path, len(path), ctypes.addressof(info))
        return info

    def _entries(self, name: str, path: Name) -> List[Entry]:
        path, entries, count, info, length = _flat(path), _Handle(), _N(), _Info(), _N()
        self._call(name, path, len(path), entries.ref)
        _lib.cfb_entries_len(entries.ref, ctypes.byref(count))
        room = ctypes.create_string_buffer(1024)
        out = []
        for number in range(count.value):
            _lib.cfb_entries_get(entries.ref, number, ctypes.addressof(info))
            while _lib.cfb_entries_path(entries.ref, number, room, len(room), ctypes.byref(length)) == _TOO_SMALL:
                room = ctypes.create_string_buffer(length.value)
            out.append(Entry(info, room.raw[: length.value].decode("utf-8", "replace")))
        return out

    # -- opening and closing
    def open(self, filename: Union[str, os.PathLike, bytes, BinaryIO], write_mode: bool = False) -> None:
        """Opens a path, the bytes of a file, or an object with `read`."""
        data = None
        if hasattr(filename, "read"):
            filename.seek(0)
            data = _bytes_of(filename.read())
        elif isinstance(filename, (bytes, bytearray)) and len(filename) >= MINIMAL_OLEFILE_SIZE:
            data = bytes(filename)
        self._path, self._is_changed = None, False
        if data is not None:
            self._call("open_lent", data, len(data), self.strict)
        else:
            self._call("open", _system_path(filename), self.strict)
            self._path = filename if write_mode else None

    def save(self, filename: Optional[Union[str, os.PathLike]] = None) -> None:
        """Replaces the file at the path with a copy without free sectors: all of it, or nothing."""
        path = self._path if filename is None else filename
        if path is None:
            raise ValueError("save: this file has no path")
        self._call("save", _system_path(path))
        if filename is None or filename == self._path:
            self._is_changed = False

    def close(self) -> None:
        """Saves what changed, if the file was opened or made to be saved."""
        if self._path is not None and self._is_changed:
            self.save()
        self._path = None
        self._handle.close()

    def __del__(self):
        if getattr(self, "_path", None) is not None and self._is_changed:
            warnings.warn(f"changes of {self._path!r} were not saved: close the file", ResourceWarning, source=self)

    def __enter__(self) -> OleFileIO:
        return self

    def __exit__(self, kind, *_):
        if kind is not None:
            self._path = None
        self.close()

    # -- asking, as olefile does
    version = property(lambda self: self._number("version"))

    def _number(self, name):
        number = _U()
        self._call(name, ctypes.byref(number))
        return number.value

    def is_sound(self) -> bool:
        flag = ctypes.c_bool()
        self._call("is_sound", ctypes.byref(flag))
        return flag.value

    def is_failed(self) -> bool:
        flag = ctypes.c_bool()
        self._call("is_failed", ctypes.byref(flag))
        return flag.value

    def listdir(self, streams: bool = True, storages: bool = False) -> List[List[str]]:
        """The paths of all streams, or storages, as lists of names."""
        return sorted(e.path[1:].split("/") for e in self.walk()[1:] if (streams if e.is_stream else storages))

    def exists(self, filename: Name) -> bool:
        try:
            return self._flag("exists_n", filename)
        except OleFileError as e:
            if e.number == _INVALID_INPUT:  # nothing can be there
                return False
            raise

    def get_type(self, filename: Name) -> Union[int, bool]:
        """STGTY_STREAM, STGTY_STORAGE, STGTY_ROOT, or False where nothing is there."""
        return self._info(_flat(filename)).kind if self.exists(filename) else False

    def get_size(self, filename: Name) -> int:
        info = self._info(_flat(filename))
        if info.kind != STGTY_STREAM:
            raise TypeError("object is not an OLE stream")
        return info.len

    def getclsid(self, filename: Name) -> str:
        return _clsid_text(self._info(_flat(filename)).clsid)

    def getmtime(self, filename: Name) -> Optional[datetime.datetime]:
        return Entry(self._info(_flat(filename)), "").getmtime()

    def getctime(self, filename: Name) -> Optional[datetime.datetime]:
        return Entry(self._info(_flat(filename)), "").getctime()

    def get_rootentry_name(self) -> str:
        return self.root.name

    @property
    def root(self) -> Entry:
        root = Entry(self._info(b"/"), "/")
        # the library reports the name that the format wants; olefile the one that is stored
        header = self._image(0, 52)
        start = int.from_bytes(header[48:52], "little") + 1 << int.from_bytes(header[30:32], "little")
        stored = self._image(start, 66)
        name = stored[: max(0, min(64, int.from_bytes(stored[64:66], "little")) - 2)].decode("utf-16-le", "replace")
        root.name = name.partition("\0")[0]
        return root

    def _image(self, at: int, room: int) -> bytes:
        """Up to this many bytes of the file as it stands."""
        into = ctypes.create_string_buffer(room)
        count = self._call_len("image", at, ctypes.addressof(into), room)
        return into.raw[:count]

    def openstream(self, filename: Name) -> OleStream:
        """All bytes of a stream, as a file in memory."""
        return OleStream(self.read(filename))

    def dumpdirectory(self) -> None:
        for e in self.walk():
            print(f"{'  ' * (e.path.count('/') if e.path != '/' else 0)}{e.name!r} {('stream ' + str(e.size)) if e.is_stream else 'storage'}")

    def get_metadata(self):
        import olefile  # property sets are no part of compound files

        self.metadata = olefile.OleMetadata()
        self.metadata.parse_properties(self)
        return self.metadata

    def getproperties(self, filename, convert_time=False, no_conversion=None):
        import olefile

        return olefile.OleFileIO.getproperties(self, filename, convert_time, no_conversion)

    # olefile's own code for property sets calls these two
    def _raise_defect(self, defect_level, message, exception_type=OSError):
        self.parsing_issues.append((exception_type, message))

    def _decode_utf16_str(self, text, errors="replace"):
        return text.decode("utf-16-le", errors)

    # -- more
    def walk(self, path: Name = "/") -> List[Entry]:
        """The object at this path and all below it."""
        return self._entries("walk_n", path)

    def list(self, path: Name = "/") -> List[Entry]:
        """The objects of a storage, on its first level."""
        return self._entries("list_n", path)

    def read(self, filename: Name) -> bytes:
        """All bytes of a stream."""
        path, first = _flat(filename), _Piece()
        got = self._call_len("read_n", path, len(path), 0, ctypes.addressof(first), len(first))
        if got < len(first):
            return ctypes.string_at(first, got)
        # no part of a stream can be read that has fewer bytes in the file than its length says
        length = self._stream_info(path).len
        room = ctypes.create_string_buffer(length)
        got = self._call_len("read_n", path, len(path), 0, ctypes.addressof(room), length)
        return ctypes.string_at(room, got)

    def _stream_info(self, path: bytes) -> _Info:
        info = self._info(path)
        if info.kind != STGTY_STREAM:
            raise OleFileError(_INVALID_INPUT, "this is not a stream", path.decode("utf-8", "replace"))
        return info

    def stream(self, filename: Name, mode: str = "r") -> Union[io.BufferedReader, Stream]:
        """A stream, as a file. Modes: r (read through a buffer), r+, w (new or emptied), x (new); the last three write through."""
        path = _flat(filename)
        if mode not in ("r", "r+", "w", "x"):
            raise ValueError("stream: the mode is r, r+, w or x")
        if mode in "wx":
            self._change("create_stream_n", path, mode == "x")
        raw = Stream(self, path, mode != "r")
        return io.BufferedReader(raw, 1 << 18) if mode == "r" else raw

    def write_stream(self, stream_name: Name, data: bytes) -> None:
        """As olefile: the stream exists and has this length."""
        if not isinstance(data, bytes):
            raise TypeError("write_stream: data must be a bytes string")
        if len(data) != self._stream_info(_flat(stream_name)).len:
            raise ValueError("write_stream: data must be the same size as the existing stream")
        self.put(stream_name, data)

    def put(self, filename: Name, data: bytes) -> None:
        """A stream with these bytes, new or in place of what was there."""
        data = _bytes_of(data)
        self._change("put_n", _flat(filename), data, len(data))

    def create_storage(self, path: Name, parents: bool = False, moment: Union[int, datetime.datetime] = 0) -> None:
        """A storage; with `parents`, those that are missing on the way, too, and none is no error."""
        self._change("create_storage_all_n" if parents else "create_storage_n", _flat(path), _moment(moment))

    def remove(self, path: Name) -> None:
        """Removes a stream or an empty storage."""
        self._change("remove_stream_n" if self._flag("is_stream_n", path) else "remove_storage_n", _flat(path))

    def remove_all(self, path: Name) -> None:
        """Removes an object and all that is in it."""
        self._change("remove_storage_all_n", _flat(path))

    def set_clsid(self, path: Name, clsid: str) -> None:
        number = bytes.fromhex(clsid.strip("{}").replace("-", ""))
        if len(number) != 16:
            raise ValueError("a class id has 16 bytes")
        self._change("set_clsid_n", _flat(path), number)

    def set_state_bits(self, path: Name, bits: int) -> None:
        if not 0 <= bits < 1 << 32:
            raise ValueError("state bits are 32 bits")
        self._change("set_state_bits_n", _flat(path), bits)

    def set_times(self, path: Name, created: Union[int, datetime.datetime, None] = None, modified: Union[int, datetime.datetime, None] = None) -> None:
        for name, moment in (("set_created_n", created), ("set_modified_n", modified)):
            if moment is not None:
                self._change(name, _flat(path), _moment(moment))

    def copied(self) -> OleFileIO:
        """A copy without free sectors, in memory."""
        copy = OleFileIO()
        self._call("copy_bytes", copy._handle.ref)
        return copy

    def into_bytes(self) -> bytes:
        """Closes the file and returns its bytes. Nothing is saved."""
        count = self._call_len("into_bytes")
        room = ctypes.create_string_buffer(count or 1)
        got = self._call_len("bytes", ctypes.addressof(room), count)
        self._path = None
        self.close()
        return ctypes.string_at(room, got)


def open(filename: Union[str, os.PathLike, bytes, BinaryIO], mode: str = "r", strict: bool = False) -> OleFileIO:
    """Opens a path, the bytes of a file, or an object with `read`. With `r+` closing saves the changes."""
    if mode not in ("r", "r+"):
        raise ValueError("open: the mode is r or r+")
    return OleFileIO(filename, write_mode=mode == "r+", strict=strict)


def create(filename: Optional[Union[str, os.PathLike]] = None, version: int = 4) -> OleFileIO:
    """An empty file of version 3 or 4, in memory. If a path is given, closing saves it there."""
    file = OleFileIO()
    file._call("create_bytes", version)
    file._path, file._is_changed = filename, True
    return file


def enable_logging() -> None:
    """Does nothing: nothing is logged."""


def __getattr__(name: str) -> Any:
    if name == "OleMetadata":
        import olefile

        return olefile.OleMetadata
    raise AttributeError(f"module {__name__!r} has no attribute {name!r}")


def isOleFile(filename: Any = None, data: Optional[bytes] = None) -> bool:
    """Whether the first bytes are those of a compound file."""
    if data is None:
        if hasattr(filename, "read"):
            data = filename.read(len(MAGIC))
            filename.seek(0)
        elif isinstance(filename, bytes) and len(filename) >= MINIMAL_OLEFILE_SIZE:
            data = filename
        else:
            with io.open(filename, "rb") as file:
                data = file.read(len(MAGIC))
    return data[: len(MAGIC)] == MAGIC
