//! Times this crate, and the crate `cfb` beside it, on one file: `measure` builds it and runs it. Prints a name and microseconds a line.
use std::hint::black_box;
use std::io::{Cursor, Read};
use std::time::Instant;

const PIECE: usize = 4096;

/// The best of many runs, in microseconds.
fn best(mut run: impl FnMut()) -> f64 {
    let begun = Instant::now();
    let mut best = f64::MAX;
    let mut count = 0;
    while count < 5 || (count < 200 && begun.elapsed().as_millis() < 700) {
        let at = Instant::now();
        run();
        best = best.min(at.elapsed().as_secs_f64() * 1e6);
        count += 1;
    }
    best
}

macro_rules! times {
    ($cfb:ident, $name:expr, $path:expr) => {{
        let bytes = std::fs::read($path).unwrap();
        println!("{} open {:.1}", $name, best(|| drop(black_box($cfb::open($path).unwrap()))));
        println!("{} open_bytes {:.1}", $name, best(|| drop(black_box($cfb::CompoundFile::open(Cursor::new(&bytes[..])).unwrap()))));
        let mut file = $cfb::open($path).unwrap();
        let streams: Vec<_> = file.walk().filter(|it| it.is_stream()).map(|it| (it.len(), it.path().to_owned())).collect();
        let whole = best(|| {
            for (_, path) in &streams {
                let mut all = Vec::new();
                file.open_stream(path).unwrap().read_to_end(&mut all).unwrap();
                black_box(all);
            }
        });
        println!("{} whole {:.1}", $name, whole / streams.len() as f64);
        let (len, longest) = streams.iter().max().unwrap();
        let mut room = [0; PIECE];
        let pieces = best(|| {
            let mut stream = file.open_stream(longest).unwrap();
            while stream.read(black_box(&mut room)).unwrap() > 0 {}
        });
        println!("{} piece {:.2}", $name, pieces / len.div_ceil(PIECE as u64) as f64);
    }};
}

fn main() {
    let path = std::env::args().nth(1).expect("a compound file");
    times!(cfb, "Rust", &path);
    #[cfg(feature = "original")]
    times!(original, "crate", &path);
}
