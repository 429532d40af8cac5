//! Times, paths, lists, threads and errors in detail.
use cfb_proved as cfb;
use std::ffi::OsStr;
use std::io::{self, Cursor, ErrorKind, Read, Seek, SeekFrom, Write};
use std::os::unix::ffi::OsStrExt;
use std::path::Path;
use std::time::{Duration, SystemTime, UNIX_EPOCH};

type Memory = Cursor<Vec<u8>>;

fn empty() -> cfb::CompoundFile<Memory> {
    cfb::CompoundFile::create_with_version(cfb::Version::V3, Cursor::new(Vec::new())).unwrap()
}

fn fails<T>(kind: ErrorKind, result: io::Result<T>) {
    assert_eq!(result.err().map(|e| e.kind()), Some(kind));
}

#[test]
fn times() -> io::Result<()> {
    let start = UNIX_EPOCH - Duration::from_secs(11_644_473_600);
    let end = start + Duration::new(1_844_674_407_370, 955_161_500);
    let (units, years) = (Duration::from_nanos(700), Duration::from_secs(1 << 40));
    let mut comp = empty();
    comp.create_storage("/s")?;
    for (given, told) in [
        (UNIX_EPOCH, UNIX_EPOCH),
        (UNIX_EPOCH + units, UNIX_EPOCH + units),
        (UNIX_EPOCH - units, UNIX_EPOCH - units),
        (UNIX_EPOCH + Duration::from_nanos(799), UNIX_EPOCH + units),
        (start, start),
        (start - units, start),
        (UNIX_EPOCH - years, start),
        (end, end),
        (UNIX_EPOCH + years * 8, end),
    ] {
        comp.set_created_time("/s", given)?;
        comp.set_modified_time("/s", given)?;
        let entry = comp.entry("/s")?;
        assert_eq!((entry.created(), entry.modified()), (told, told));
    }
    // a stream has no times, and the root has none until it is given one
    comp.create_stream("/s/x")?;
    comp.set_created_time("/s/x", UNIX_EPOCH)?;
    comp.touch("/s/x")?;
    comp.touch("/")?;
    assert_eq!((comp.entry("/s/x")?.created(), comp.entry("/s/x")?.modified(), comp.root_entry().modified()), (start, start, start));
    let before = SystemTime::now() - Duration::from_secs(1);
    comp.touch("/s")?;
    assert!(comp.entry("/s")?.modified() > before);
    for path in ["/none", "/s/x/y"] {
        fails(ErrorKind::NotFound, comp.touch(path));
        fails(ErrorKind::NotFound, comp.set_created_time(path, UNIX_EPOCH));
        fails(ErrorKind::NotFound, comp.set_modified_time(path, UNIX_EPOCH));
        fails(ErrorKind::NotFound, comp.set_state_bits(path, 1));
        fails(ErrorKind::NotFound, comp.set_storage_clsid(path, [1; 16]));
    }
    Ok(())
}

#[test]
fn paths() -> io::Result<()> {
    let mut comp = empty();
    comp.create_storage_all("/foo/bar")?;
    comp.create_stream("foo/baz")?;
    for path in ["/foo/baz", "foo/baz", "foo/baz/", "./foo/./baz", "foo/bar/../baz", "FOO/Baz", "/none/../foo/baz"] {
        assert!(comp.is_stream(path) && !comp.is_storage(path) && comp.exists(path), "{path}");
        assert_eq!(comp.open_stream(path)?.len(), 0);
    }
    assert_eq!(comp.entry("foo/bar/../baz")?.path(), Path::new("/foo/baz"));
    for path in ["", "/", ".", "foo/.."] {
        assert!(comp.entry(path)?.is_root() && comp.entry(path)?.path() == Path::new("/"));
    }
    let long = "x".repeat(31);
    comp.create_stream(&long)?;
    let not_text = OsStr::from_bytes(b"/\xff");
    let too_long = format!("{long}x");
    let wrong: [&Path; 8] = ["foo/../../baz", "..", "/a:b", "/a!b", "/a\\b", "/a\0b", "\0", &too_long].map(Path::new);
    for path in wrong.into_iter().chain([Path::new(not_text)]) {
        fails(ErrorKind::InvalidInput, comp.create_storage(path));
        fails(ErrorKind::InvalidInput, comp.create_storage_all(path));
        fails(ErrorKind::InvalidInput, comp.create_stream(path));
        fails(ErrorKind::InvalidInput, comp.create_new_stream(path));
        assert!(!comp.exists(path) && !comp.is_stream(path) && !comp.is_storage(path));
    }
    // nothing can be there, so some calls say that
    for path in [Path::new("/a\0b"), Path::new("foo/../../baz"), Path::new(not_text)] {
        fails(ErrorKind::InvalidInput, comp.entry(path));
        fails(ErrorKind::InvalidInput, comp.open_stream(path));
        fails(ErrorKind::InvalidInput, comp.read_storage(path));
        fails(ErrorKind::InvalidInput, comp.walk_storage(path));
        fails(ErrorKind::InvalidInput, comp.remove_stream(path));
        fails(ErrorKind::InvalidInput, comp.remove_storage(path));
        fails(ErrorKind::InvalidInput, comp.remove_storage_all(path));
        fails(ErrorKind::InvalidInput, comp.touch(path));
        fails(ErrorKind::InvalidInput, comp.set_state_bits(path, 1));
        fails(ErrorKind::InvalidInput, comp.set_created_time(path, UNIX_EPOCH));
        fails(ErrorKind::InvalidInput, comp.set_modified_time(path, UNIX_EPOCH));
        fails(ErrorKind::InvalidInput, comp.set_storage_clsid(path, [1; 16]));
    }
    assert!(comp.is_sound() && comp.walk().count() == 5);
    Ok(())
}

#[test]
fn lists() -> io::Result<()> {
    let mut comp = empty();
    comp.create_storage("/3")?;
    comp.create_storage("/6")?;
    // shorter names first, then by their upper case: that of ü is before ß
    for path in ["5", "1", "2", "4", "3/8", "3/9", "3/7", "3/10", "3/\u{df}", "3/\u{fc}"] {
        comp.create_stream(path)?;
    }
    let shown = |entries: cfb::Entries<'_, Memory>| entries.map(|e| e.path().display().to_string()).collect::<Vec<_>>().join(" ");
    assert_eq!(shown(comp.read_root_storage()), "/1 /2 /3 /4 /5 /6");
    assert_eq!(shown(comp.read_storage("/3")?), "/3/7 /3/8 /3/9 /3/\u{fc} /3/\u{df} /3/10");
    assert_eq!(shown(comp.walk()), "/ /1 /2 /3 /3/7 /3/8 /3/9 /3/\u{fc} /3/\u{df} /3/10 /4 /5 /6");
    assert_eq!(shown(comp.walk_storage("/3")?), "/3 /3/7 /3/8 /3/9 /3/\u{fc} /3/\u{df} /3/10");
    assert_eq!(shown(comp.walk_storage("/5")?), "/5");
    let deep = ("/".to_owned() + &"x".repeat(31)).repeat(40);
    comp.create_storage_all(&deep)?;
    assert_eq!((comp.walk().last().unwrap().path(), comp.walk().count()), (Path::new(&deep), 53));
    comp.create_stream(deep.clone() + "/y")?.write_all(b"deep")?;
    assert_eq!((comp.read_storage(&deep)?.next().unwrap().name(), comp.entry(deep + "/y")?.len()), ("y", 4));
    fails(ErrorKind::InvalidInput, comp.read_storage("/5"));
    fails(ErrorKind::NotFound, comp.walk_storage("/none"));
    assert_eq!(format!("{:?}", comp.entry("3/\u{fc}")?), "/3/\u{fc} (0 bytes)");
    Ok(())
}

#[test]
fn threads() -> io::Result<()> {
    fn moves<T: Send + Sync>(it: T) -> T {
        it
    }
    let mut comp = moves(empty());
    let mut stream = moves(comp.create_stream("/a")?);
    let writer = std::thread::spawn(move || stream.write_all(b"abc").and_then(|()| stream.flush()));
    writer.join().unwrap()?;
    let comp = std::thread::spawn(move || comp.into_inner()).join().unwrap();
    assert_eq!(cfb::CompoundFile::open(comp)?.entry("/a")?.len(), 3);
    Ok(())
}

#[test]
fn class_ids() -> io::Result<()> {
    let mut comp = empty();
    let bytes = 0x00020906_0000_0000_c000_000000000046_u128.to_be_bytes();
    comp.set_storage_clsid("/", bytes)?;
    let clsid = *comp.root_entry().clsid();
    assert_eq!((clsid.to_string().as_str(), clsid), ("00020906-0000-0000-c000-000000000046", cfb::Uuid::from_bytes(bytes)));
    assert!(clsid == bytes && clsid != [0; 16] && !clsid.is_nil() && cfb::Uuid::nil().is_nil() && clsid.as_bytes() == &bytes);
    fails(ErrorKind::InvalidInput, comp.set_storage_clsid("/", [0; 15]));
    comp.create_stream("/s")?;
    fails(ErrorKind::InvalidInput, comp.set_storage_clsid("/s", bytes));
    Ok(())
}

#[test]
fn strictly() -> io::Result<()> {
    let mut bytes = empty().into_inner().into_inner();
    // version 3 has no count of directory sectors
    bytes[40] = 1;
    cfb::CompoundFile::open(Cursor::new(&bytes))?;
    fails(ErrorKind::InvalidData, cfb::CompoundFile::open_strict(Cursor::new(&bytes)));
    fails(ErrorKind::InvalidData, cfb::OpenOptions::new().strict().max_buffer_size(9).open_with(Cursor::new(&bytes)));
    fails(ErrorKind::InvalidData, cfb::CompoundFile::open(Cursor::new([])));
    for len in 0..bytes.len() {
        fails(ErrorKind::InvalidData, cfb::CompoundFile::open(Cursor::new(&bytes[..len])));
    }
    assert_eq!(cfb::OpenOptions::new().create_with(Cursor::new(Vec::new()))?.version(), cfb::Version::V4);
    Ok(())
}

/// Fails from a number of calls on.
struct Failing(Memory, usize);

impl Failing {
    fn left(&mut self) -> io::Result<()> {
        self.1 = self.1.checked_sub(1).ok_or(ErrorKind::BrokenPipe)?;
        Ok(())
    }
}

impl Read for Failing {
    fn read(&mut self, into: &mut [u8]) -> io::Result<usize> {
        self.left()?;
        self.0.read(into)
    }
}

impl Write for Failing {
    fn write(&mut self, bytes: &[u8]) -> io::Result<usize> {
        self.left()?;
        self.0.write(bytes)
    }

    fn flush(&mut self) -> io::Result<()> {
        self.left()
    }
}

impl Seek for Failing {
    fn seek(&mut self, to: SeekFrom) -> io::Result<u64> {
        self.left()?;
        self.0.seek(to)
    }
}

#[test]
fn failing_readers_and_writers() -> io::Result<()> {
    let bytes = empty().into_inner().into_inner();
    let mut calls = 0;
    loop {
        let inner = Failing(Cursor::new(bytes.clone()), calls);
        let done = (|| {
            let mut comp = cfb::CompoundFile::open(inner)?;
            let mut stream = comp.create_stream("/a")?;
            stream.write_all(&[7; 9000])?;
            stream.flush()?;
            comp.create_storage("/b")?;
            comp.flush()?;
            comp.flush()
        })();
        if done.is_ok() {
            break;
        }
        fails(ErrorKind::BrokenPipe, done);
        fails(ErrorKind::BrokenPipe, cfb::CompoundFile::create(Failing(Cursor::new(Vec::new()), calls.min(3))));
        calls += 1;
    }
    assert!(calls > 10);
    // what could not be written back is written by the next flush
    let mut comp = cfb::CompoundFile::open(Failing(Cursor::new(bytes), 5))?;
    comp.create_storage("/b")?;
    fails(ErrorKind::BrokenPipe, comp.flush());
    fails(ErrorKind::BrokenPipe, comp.flush());
    assert!(comp.exists("/b") && !comp.is_failed());
    Ok(())
}

#[test]
fn held_back() -> io::Result<()> {
    let mut comp = empty();
    let (mut a, mut b) = (comp.create_stream("/a")?, comp.create_stream("/b")?);
    for at in 0..40_000u32 {
        a.write_all(&at.to_le_bytes())?;
        b.write_all(&[1])?;
        if at % 1000 == 0 {
            assert_eq!((a.stream_position()?, a.len()), (u64::from(at) * 4 + 4, u64::from(at) * 4 + 4));
        }
    }
    // at most 64 KiB of what was written are not in the file
    assert!((160_000 - 65_536..160_000).contains(&comp.entry("/a")?.len()));
    // in the middle, over what is there, and read again before it is flushed
    a.seek(SeekFrom::Start(40))?;
    a.write_all(b"abcd")?;
    a.write_all(b"efgh")?;
    a.seek(SeekFrom::Start(36))?;
    let mut read = [0; 16];
    a.read_exact(&mut read)?;
    assert_eq!(&read, b"\x09\0\0\0abcdefgh\x0c\0\0\0");
    assert_eq!((comp.entry("/a")?.len(), comp.entry("/b")?.len()), (160_000, 0));
    drop(b);
    assert_eq!(comp.entry("/b")?.len(), 40_000);
    a.write_all(&[])?;
    a.seek(SeekFrom::End(-1))?;
    a.write_all(&[5; 70_000])?;
    assert_eq!((a.len(), a.stream_position()?, a.write(&[])?), (229_999, 229_999, 0));
    a.write_all(b"tail")?;
    a.set_len(230_001)?;
    a.seek(SeekFrom::Start(229_998))?;
    let mut tail = String::new();
    a.read_to_string(&mut tail)?;
    assert_eq!(tail, "\x05ta");
    a.set_len(3)?;
    a.set_len(5)?;
    assert_eq!((a.stream_position()?, a.len()), (3, 5));
    a.rewind()?;
    let mut rest = vec![9];
    assert_eq!((a.read_to_end(&mut rest)?, rest.as_slice(), a.read(&mut [0; 2])?), (5, &[9, 0, 0, 0, 0, 0][..], 0));
    // what is held back for a stream that is gone fails when it is flushed
    a.write_all(b"x")?;
    comp.remove_stream("/a")?;
    fails(ErrorKind::NotFound, a.flush());
    a.flush()?;
    let mut c = comp.open_stream("/b")?;
    c.write_all(b"x")?;
    drop(comp);
    fails(ErrorKind::Other, c.flush());
    fails(ErrorKind::Other, c.set_len(1));
    fails(ErrorKind::Other, c.read(&mut [0; 1]));
    fails(ErrorKind::Other, c.read_to_end(&mut rest));
    Ok(())
}

#[test]
fn too_long() -> io::Result<()> {
    let mut comp = empty();
    let mut stream = comp.create_stream("/a")?;
    for len in [u64::MAX, 1 << 44, 1 << 32] {
        fails(ErrorKind::InvalidInput, stream.set_len(len));
    }
    let mut large = cfb::CompoundFile::create(Cursor::new(Vec::new()))?;
    let mut stream = large.create_stream("/a")?;
    for len in [u64::MAX, 1 << 63, 1 << 44] {
        let error = stream.set_len(len).unwrap_err();
        let failure = error.get_ref().unwrap().downcast_ref::<cfb::Failure>().unwrap();
        // the file has no sector ID left for what is needed
        assert_eq!((error.kind(), failure.number), (ErrorKind::Other, 7));
    }
    assert!(!comp.is_failed() && !large.is_failed() && large.is_sound());
    large.create_stream("/b")?.write_all(b"x")?;
    assert_eq!((large.entry("/a")?.len(), large.entry("/b")?.len()), (0, 1));
    Ok(())
}
