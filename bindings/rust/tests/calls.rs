//! What a program that uses the crate `cfb` does: each call where it works and where it fails.
use cfb_proved as cfb;
use std::io::{BufRead, Cursor, ErrorKind, Read, Seek, SeekFrom, Write};
use std::time::{Duration, SystemTime};

type Memory = Cursor<Vec<u8>>;

fn empty(version: cfb::Version) -> cfb::CompoundFile<Memory> {
    cfb::CompoundFile::create_with_version(version, Cursor::new(Vec::new())).unwrap()
}

#[test]
fn in_memory() -> std::io::Result<()> {
    for version in [cfb::Version::V3, cfb::Version::V4] {
        let mut comp = empty(version);
        assert_eq!(comp.version(), version);
        comp.create_storage_all("/foo/bar")?;
        assert_eq!(comp.create_storage("/foo").unwrap_err().kind(), ErrorKind::AlreadyExists);
        let mut stream = comp.create_new_stream("/foo/x")?;
        stream.write_all(&[7; 5000])?;
        stream.seek(SeekFrom::Start(4999))?;
        stream.write_all(b"ab")?;
        assert_eq!(stream.len(), 5001);
        assert!(stream.seek(SeekFrom::End(1)).is_err());
        stream.seek(SeekFrom::End(-3))?;
        let mut rest = Vec::new();
        stream.read_to_end(&mut rest)?;
        assert_eq!(rest, b"\x07ab");
        stream.set_len(2)?;
        assert_eq!(comp.create_new_stream("/foo/x").unwrap_err().kind(), ErrorKind::AlreadyExists);
        assert_eq!(comp.open_stream("/foo").unwrap_err().kind(), ErrorKind::InvalidInput);
        let clsid = cfb::Uuid::from_bytes(*b"0123456789abcdef");
        comp.set_storage_clsid("/foo", clsid)?;
        assert_eq!(comp.set_storage_clsid("/foo/x", clsid).unwrap_err().kind(), ErrorKind::InvalidInput);
        comp.set_state_bits("/foo", 9)?;
        let moment = SystemTime::UNIX_EPOCH + Duration::from_secs(1);
        comp.set_created_time("/foo", moment)?;
        comp.set_modified_time("/foo", moment)?;
        comp.touch("/foo/x")?;
        let comp = cfb::CompoundFile::open_strict(comp.into_inner())?;
        let paths: Vec<_> = comp.walk().map(|e| e.path().display().to_string()).collect();
        assert_eq!(paths, ["/", "/foo", "/foo/x", "/foo/bar"]);
        let entry = comp.entry("foo/bar/../../foo")?;
        assert_eq!((entry.name(), *entry.clsid(), entry.state_bits()), ("foo", clsid, 9));
        assert_eq!((entry.created(), entry.modified(), entry.path().to_str()), (moment, moment, Some("/foo")));
        assert!(entry.is_storage() && !entry.is_root() && comp.root_entry().is_root() && comp.is_stream("/FOO/X"));
        assert_eq!(comp.read_storage("/foo")?.count(), 2);
        assert_eq!(comp.read_storage("/none").err().map(|e| e.kind()), Some(ErrorKind::NotFound));
        assert!(comp.is_sound() && !comp.is_failed() && comp.exists("/") && !comp.is_storage("/foo/x"));
    }
    let damaged = cfb::CompoundFile::open(Cursor::new(vec![0; 2000])).err().unwrap();
    assert_eq!(damaged.kind(), ErrorKind::InvalidData);
    assert!(damaged.get_ref().unwrap().downcast_ref::<cfb::Failure>().unwrap().number == 4);
    Ok(())
}

#[test]
fn removing() -> std::io::Result<()> {
    let mut comp = empty(cfb::Version::V3);
    comp.create_storage_all("/a/b")?;
    comp.create_stream("/a/s")?.write_all(b"s")?;
    assert_eq!(comp.remove_storage("/a").unwrap_err().kind(), ErrorKind::InvalidInput);
    assert_eq!(comp.remove_stream("/a/b").unwrap_err().kind(), ErrorKind::InvalidInput);
    comp.remove_storage("/a/b")?;
    assert_eq!(comp.remove_storage("/a/b").unwrap_err().kind(), ErrorKind::NotFound);
    comp.remove_stream("/a/s")?;
    comp.create_stream("/a/t")?;
    comp.remove_storage_all("/a")?;
    assert_eq!(comp.walk().count(), 1);
    for path in ["/a\0b", "/a/../..", "/a:b"] {
        assert_eq!(comp.create_storage(path).unwrap_err().kind(), ErrorKind::InvalidInput, "{path:?}");
    }
    Ok(())
}

#[test]
fn several_streams() -> std::io::Result<()> {
    let mut comp = empty(cfb::Version::V4);
    comp.create_stream("/a")?.write_all(b"one\ntwo\nthree")?;
    comp.create_stream("/b")?.write_all(&[5; 200_000])?;
    let (mut a, mut b, mut c) = (comp.open_stream("/a")?, comp.open_stream("/b")?, comp.open_stream("/a")?);
    let mut line = String::new();
    a.read_line(&mut line)?;
    assert_eq!((line.as_str(), a.stream_position()?), ("one\n", 4));
    let mut piece = [0; 70_000];
    assert_eq!((b.read(&mut piece)?, b.read(&mut piece[..9])?, b.stream_position()?), (70_000, 9, 70_009));
    c.seek(SeekFrom::Start(4))?;
    c.write_all(b"TWO")?;
    c.flush()?;
    line.clear();
    a.read_line(&mut line)?;
    assert_eq!(line, "TWO\n");
    comp.remove_stream("/a")?;
    assert_eq!(c.read(&mut piece).unwrap_err().kind(), ErrorKind::NotFound);
    drop(comp);
    assert!(b.read(&mut piece).is_err());
    Ok(())
}

/// Counts the bytes that are written.
struct Counting(Memory, usize);

impl Read for Counting {
    fn read(&mut self, into: &mut [u8]) -> std::io::Result<usize> {
        self.0.read(into)
    }
}

impl Write for Counting {
    fn write(&mut self, bytes: &[u8]) -> std::io::Result<usize> {
        self.1 += bytes.len();
        self.0.write(bytes)
    }

    fn flush(&mut self) -> std::io::Result<()> {
        self.0.flush()
    }
}

impl Seek for Counting {
    fn seek(&mut self, to: SeekFrom) -> std::io::Result<u64> {
        self.0.seek(to)
    }
}

#[test]
fn little_is_written() -> std::io::Result<()> {
    let mut comp = empty(cfb::Version::V3);
    comp.create_stream("/a")?.write_all(&[1; 1_000_000])?;
    let mut comp = cfb::CompoundFile::open(Counting(comp.into_inner(), 0))?;
    comp.open_stream("/a")?.write_all(b"xyz")?;
    comp.flush()?;
    comp.flush()?;
    let Counting(inner, written) = comp.into_inner();
    assert_eq!(written, 512);
    let mut text = [0; 4];
    cfb::CompoundFile::open(inner)?.open_stream("/a")?.read_exact(&mut text)?;
    assert_eq!(&text, b"xyz\x01");
    Ok(())
}

#[test]
fn files_of_the_system() -> std::io::Result<()> {
    let path = std::env::temp_dir().join(format!("cfb-proved-{}.cfb", std::process::id()));
    let mut comp = cfb::create(&path)?;
    comp.create_stream("/a")?.write_all(b"abc")?;
    assert!(!cfb::open(&path)?.exists("/a"));
    drop(comp);
    let mut comp = cfb::open_rw(&path)?;
    comp.open_stream("a")?.set_len(70_000)?;
    comp.create_new_stream("/b")?.flush()?;
    assert!(cfb::open(&path)?.exists("/b"));
    let copy = comp.copy_to(Cursor::new(Vec::new()))?;
    assert_eq!((copy.walk().count(), copy.into_inner().into_inner().len() % 4096), (3, 0));
    drop(comp);
    // what was opened to be read changes in memory alone
    let mut comp = cfb::open(&path)?;
    comp.remove_stream("/b")?;
    assert!(comp.flush().is_err());
    assert_eq!(cfb::OpenOptions::new().strict().open(&path)?.walk().count(), 3);
    // until it is saved, all or nothing
    comp.save(&path)?;
    assert_eq!(comp.save("/no/such/file").err().map(|e| e.kind()), Some(ErrorKind::NotFound));
    assert_eq!(comp.save("\0").err().map(|e| e.kind()), Some(ErrorKind::InvalidInput));
    drop(comp);
    assert_eq!(cfb::OpenOptions::new().strict().open(&path)?.walk().count(), 2);
    assert_eq!(cfb::open("/no/such/file").err().map(|e| e.kind()), Some(ErrorKind::NotFound));
    std::fs::remove_file(&path)
}
