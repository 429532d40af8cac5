//! The same random calls to the crate `cfb` and to the one here: `suite` builds it and runs it. Both must answer the same, with errors of the
//! same kinds, and leave the same files. Names that only the crate takes (too long, or with : ! \) are not asked.
use std::io::{BufRead, Cursor, Read, Result, Seek, SeekFrom, Write};
use std::time::{Duration, SystemTime, UNIX_EPOCH};

const PATHS: &[&str] = &[
    "/", "", "/a", "/A", "/a/b", "/a/b/c", "x", "a/x", "/a/../x", "../x", "/a//b/", "a/./b", "/\u{e4}", "/\u{c4}", "/\u{df}", "/none/y", "/x/y",
    "/abcdefghijklmnopqrstuvwxyz01234", "/\u{1F600}", "/a/b/\u{5}S", "..", "/..", "/a/b/../../q", "q", "/q/r/s",
];
const LENGTHS: &[u64] = &[0, 1, 63, 64, 65, 511, 4095, 4096, 4097, 9000, 70000];

fn kind<T>(result: Result<T>) -> String {
    result.map_or_else(|e| format!("{:?}", e.kind()), |_| "ok".into())
}

/// What is told of something that may not be there.
fn told<T>(result: Result<T>, tell: impl FnOnce(T) -> String) -> String {
    result.map_or_else(|e| format!("{:?}", e.kind()), tell)
}

/// A time that was set here; those of the clock differ.
fn set(time: SystemTime) -> Option<SystemTime> {
    (time < UNIX_EPOCH + Duration::from_secs(20_000)).then_some(time)
}

fn write_at(mut s: impl Read + Write + Seek, at: u64, len: u64) -> String {
    let seek = kind(s.seek(SeekFrom::Start(at)));
    format!("{seek} {:?} {}", s.stream_position().ok(), kind(s.write_all(&vec![7; len as usize])))
}

fn read_end(mut s: impl Read + Seek, at: u64) -> String {
    let (seek, mut bytes) = (kind(s.seek(SeekFrom::End(-(at as i64)))), Vec::new());
    format!("{seek} {} {}", kind(s.read_to_end(&mut bytes)), bytes.iter().map(|b| u64::from(*b)).sum::<u64>())
}

fn read_and_write(mut s: impl BufRead + Write + Seek, at: u64) -> String {
    let (held, mut room) = (s.fill_buf().map(|b| b.is_empty()).ok(), [0; 3]);
    let said = (s.read(&mut room).ok(), kind(s.seek(SeekFrom::Current(at as i64 - 100))), kind(s.write_all(b"zz")), s.read(&mut room).ok());
    format!("{held:?} {said:?} {room:?} {:?}", s.stream_position().ok())
}

fn in_turn(mut a: impl Write + Seek, mut b: impl Read + Seek) -> String {
    let mut room = [0; 4];
    let counts: Vec<_> = (0..5).map(|k| (kind(a.write_all(&[k; 9])), b.read(&mut room).ok())).collect();
    format!("{counts:?} {:?} {:?}", a.stream_position().ok(), b.stream_position().ok())
}

macro_rules! play {
    ($lib:ident, $uuid:path, $seed:expr) => {{
        let (mut state, mut log) = ($seed * 2_654_435_761 + 88_172_645_463_325_252_u64, Vec::new());
        let mut next = move |below: u64| {
            state ^= state << 13;
            state ^= state >> 7;
            state ^= state << 17;
            (state >> 11) % below
        };
        let version = if $seed % 2 == 0 { $lib::Version::V3 } else { $lib::Version::V4 };
        let mut f = $lib::CompoundFile::create_with_version(version, Cursor::new(Vec::new())).unwrap();
        for _ in 0..300 {
            let (p, q) = (PATHS[next(PATHS.len() as u64) as usize], PATHS[next(PATHS.len() as u64) as usize]);
            let (len, at, call, seldom) = (LENGTHS[next(LENGTHS.len() as u64) as usize], next(10_000), next(22), next(6) == 0);
            let time = UNIX_EPOCH + Duration::from_secs(at);
            let paths = |entries: $lib::Entries<'_, _>| entries.map(|e| e.path().display().to_string()).collect::<Vec<_>>().join(" ");
            let said = match call {
                0 => kind(f.create_storage(p)),
                1 => kind(f.create_storage_all(p)),
                2 => kind(f.create_stream(p).and_then(|mut s| s.write_all(&vec![len as u8; len as usize]))),
                3 => kind(f.create_new_stream(p).and_then(|mut s| s.write_all(b"new").and_then(|()| s.flush()))),
                4 => told(f.open_stream(p), |s| write_at(s, at, len)),
                5 => told(f.open_stream(p), |mut s| format!("{} {} {}", kind(s.set_len(len)), s.len(), s.is_empty())),
                6 => told(f.open_stream(p), |s| read_end(s, at)),
                7 => told(f.open_stream(p), |s| read_and_write(s, at)),
                8 => kind(f.remove_storage(p)),
                9 => kind(f.remove_stream(p)),
                10 if seldom => kind(f.remove_storage_all(p)),
                11 => kind(f.set_state_bits(p, at as u32)),
                12 => kind(f.set_storage_clsid(p, $uuid(u128::from(at) << 90 | 77))),
                13 => kind(f.set_created_time(p, time)),
                14 => kind(f.set_modified_time(p, time)),
                15 => format!("{} {} {}", f.exists(p), f.is_stream(p), f.is_storage(p)),
                16 => told(f.entry(p), |e| format!("{} {:?} {} {} {}", e.name(), e.path(), e.is_stream(), e.is_storage(), e.is_root())),
                17 => told(f.read_storage(p), paths),
                18 => told(f.walk_storage(p), paths),
                19 if p != q => match (f.open_stream(p), f.open_stream(q)) {
                    (Ok(a), Ok(b)) => in_turn(a, b),
                    (a, b) => format!("{} {}", kind(a), kind(b)),
                },
                20 if seldom => {
                    let _ = f.flush();
                    f = $lib::CompoundFile::open_strict(Cursor::new(f.into_inner().into_inner())).unwrap();
                    String::new()
                }
                21 if seldom => {
                    f = f.copy_to(Cursor::new(Vec::new())).unwrap();
                    String::new()
                }
                _ => String::new(),
            };
            log.push(format!("{call} {p:?} {q:?} {len} {at}: {said}"));
        }
        let entries: Vec<_> = f.walk().collect();
        for e in &entries {
            log.push(format!("{:?} {} {} {:?} {:?}", e.path(), e.state_bits(), e.clsid(), set(e.created()), set(e.modified())));
            if e.is_stream() {
                let mut bytes = Vec::new();
                f.open_stream(e.path()).unwrap().read_to_end(&mut bytes).unwrap();
                log.push(format!("{} {:?}", e.len(), bytes.iter().fold(0_u64, |sum, b| sum.wrapping_mul(31).wrapping_add(u64::from(*b)))));
            }
        }
        log
    }};
}

fn main() {
    let (files, mut steps) = (200, 0);
    for seed in 1..=files {
        let (ours, theirs) = (play!(cfb, cfb::Uuid::from_u128, seed), play!(original, uuid::Uuid::from_u128, seed));
        if let Some((a, b)) = ours.iter().zip(&theirs).find(|(a, b)| a != b) {
            println!("beside: file {seed} differs\n  here      {a}\n  the crate {b}");
            std::process::exit(1);
        }
        assert_eq!(ours.len(), theirs.len());
        steps += ours.len();
    }
    println!("beside: {steps} answers over {files} files are the same");
}
