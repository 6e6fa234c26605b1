//! The Rust against ours through bindings/rust: bench NAME=FILE ... Both sides are run in turn, several times, on the same bytes in the same
//! pieces (the reader) or on the same steps (start timing, depth window), and the best run of each counts, by the CPU time of the thread. Both
//! must see the same. At the end each side reads a stream of growing length in a process of its own, and says the most memory that it held.
use std::hint::black_box;

#[repr(C)]
struct Timespec {
    seconds: i64,
    nanoseconds: i64,
}

extern "C" {
    fn clock_gettime(clock: i32, time: *mut Timespec) -> i32;
}

/// Seconds that this thread has run: what else the machine does in between is not counted.
fn cpu_time() -> f64 {
    const CLOCK_THREAD_CPUTIME_ID: i32 = 3;
    let mut time = Timespec { seconds: 0, nanoseconds: 0 };
    // SAFETY: the pointer is to a timespec of this target, x86-64 Linux.
    assert_eq!(unsafe { clock_gettime(CLOCK_THREAD_CPUTIME_ID, &mut time) }, 0);
    time.seconds as f64 + time.nanoseconds as f64 / 1e9
}

/// Numbers as random as the measurement needs, the same in each run.
struct Xorshift(u64);

impl Xorshift {
    fn next(&mut self) -> u64 {
        self.0 ^= self.0 << 13;
        self.0 ^= self.0 >> 7;
        self.0 ^= self.0 << 17;
        self.0 >> 32
    }
}

/// Seconds of the best of `turns` runs of each side, the sides in turn; what they see must be the same.
fn race<I: ?Sized, S: PartialEq + std::fmt::Debug, const N: usize>(input: &I, sides: [&dyn Fn(&I) -> S; N], turns: usize) -> [f64; N] {
    let mut best = [f64::MAX; N];
    let expected = sides[0](input);
    for _ in 0..turns {
        for (side, best) in sides.iter().zip(&mut best) {
            let start = cpu_time();
            let seen = side(black_box(input));
            *best = best.min(cpu_time() - start);
            assert_eq!(seen, expected, "the two sides differ");
        }
    }
    best
}

// ---- the reader

mod names {
    pub use mirvashen::{ExtractError as OurError, Extractor as OurExtractor};
    pub use truehd::process::extract::Extractor as TheirExtractor;
    pub use truehd::utils::errors::ExtractError as TheirError;
}
use names::*;

/// What a run saw.
#[derive(Clone, Copy, Debug, Default, PartialEq, Eq)]
struct Seen {
    units: u64,
    bytes: u64,
    spoken: u64,
    position: u64,
    errors: u64,
}

/// A reader of pieces that asks until it is dry behind each. One text for each side: only the names differ.
macro_rules! side {
    ($name:ident, $extractor:ident, $error:ident, $next:ident) => {
        fn $name<'a>(pieces: impl Iterator<Item = &'a [u8]>) -> Seen {
            let mut extractor = $extractor::default();
            let mut seen = Seen::default();
            for piece in pieces {
                extractor.push_bytes(piece);
                loop {
                    match extractor.$next() {
                        Some(Ok(unit)) => {
                            seen.units += 1;
                            seen.bytes += black_box(unit.as_ref()).len() as u64;
                        }
                        Some(Err($error::InsufficientData)) | None => break,
                        Some(Err(_)) => seen.spoken += 1,
                    }
                }
            }
            Seen { position: extractor.stream_position(), errors: extractor.error_count() as u64, ..seen }
        }
    };
}

side!(the_rust, TheirExtractor, TheirError, next);
// The unit as a part of the buffer ..
side!(ours, OurExtractor, OurError, next_unit);
// .. and with its bytes copied out, as the Rust does.
side!(ours_copied, OurExtractor, OurError, next);

fn read(name: &str, data: &[u8], piece: usize, turns: usize) {
    let sides: [&dyn Fn(&[u8]) -> Seen; 3] = [&|d| the_rust(d.chunks(piece)), &|d| ours(d.chunks(piece)), &|d| ours_copied(d.chunks(piece))];
    let [rust, ours, copied] = race(data, sides, turns).map(|s| data.len() as f64 / 1e6 / s);
    println!("{name:<28} {rust:>9.1} {ours:>9.1} {copied:>9.1}   {:>6.2}x {:>6.2}x", ours / rust, copied / rust);
}

/// The stream over and over, to a length.
fn repeated(stream: &[u8], length: usize) -> Vec<u8> {
    stream.iter().copied().cycle().take(length).collect()
}

fn random(length: usize) -> Vec<u8> {
    let mut x = Xorshift(0x9E37_79B9_7F4A_7C15);
    (0..length).map(|_| x.next() as u8).collect()
}

// ---- start timing and the depth window, a step at a time

macro_rules! timing {
    ($name:ident, $krate:ident $(:: $part:ident)*) => {
        fn $name(bits: &[bool]) -> (usize, usize) {
            use $krate $(:: $part)*::{HiresOutputTimingState, TimingContext};
            let mut state = HiresOutputTimingState::default();
            let mut seen = (0, 0);
            for (au_index, &bit) in bits.iter().enumerate() {
                let ctx = TimingContext { au_index, samples_per_au: 40, substream_index: 0, output_timing: au_index & 0xFFFF };
                seen.0 += state.update(black_box(&ctx), bit).unwrap_or(0);
                seen.1 += state.fault.is_some() as usize;
            }
            seen
        }
    };
}

timing!(their_timing, truehd::utils::timing);
timing!(our_timing, mirvashen::timing);

/// A unit's bytes, how many units stay in the window, and whether the playhead moves on.
struct Steps {
    sizes: Vec<usize>,
    held: usize,
    drains: bool,
}

macro_rules! window {
    ($name:ident, $krate:ident $(:: $part:ident)*) => {
        fn $name(steps: &Steps) -> (usize, usize) {
            use $krate $(:: $part)*::{FifoContribution, FifoDepthState};
            let mut state = FifoDepthState::default();
            let mut seen = (0, 0);
            for (time, &size) in steps.sizes.iter().enumerate() {
                if !steps.drains && time % steps.held == 0 {
                    state.restart();
                }
                let contribution = FifoContribution { total: [size; 5], stream: [size - size / 20; 5], substream: [size / 4; 4] };
                let playhead = if steps.drains { time } else { 0 };
                let report = state.push(playhead, time + steps.held, black_box(contribution));
                seen.0 += report.depths[4];
                seen.1 += report.underrun.is_some() as usize;
            }
            (seen.0 + state.peaks()[4], seen.1)
        }
    };
}

window!(their_window, truehd::utils::fifo);
window!(our_window, mirvashen::window);

fn step(name: &str, n: usize, seconds: [f64; 2]) {
    let [rust, ours] = seconds.map(|s| s * 1e9 / n as f64);
    println!("{name:<34} {rust:>9.1} {ours:>9.1}   {:>6.2}x", rust / ours);
}

fn steps(turns: usize, scale: f64) {
    let n = (400_000.0 * scale) as usize;
    let mut x = Xorshift(0x2545_F491_4F6C_DD1D);
    println!("\n{:<34} {:>9} {:>9}   {:>7}", "ns a step", "the Rust", "ours", "ours");
    let noise: Vec<bool> = (0..n).map(|_| x.next() & 1 == 1).collect();
    step("start timing, random bits", n, race(&noise[..], [&|b: &[bool]| their_timing(b), &|b: &[bool]| our_timing(b)], turns));
    // One field after another: five 0s, four 1s with what they spell between, five 0s.
    let field = [0u8, 0, 0, 0, 0, 1, 1, 1, 1, 0, 1, 0, 0, 0, 0, 0];
    let fields: Vec<bool> = field.iter().cycle().take(n).map(|&b| b == 1).collect();
    step("start timing, fields", n, race(&fields[..], [&|b: &[bool]| their_timing(b), &|b: &[bool]| our_timing(b)], turns));
    let sizes: Vec<usize> = (0..n).map(|_| 1 + x.next() as usize % 2_000).collect();
    for (name, drains) in [("depth window, nothing drained", false), ("depth window, one unit drained", true)] {
        let steps = Steps { sizes: sizes.clone(), held: 100, drains };
        step(name, n, race(&steps, [&their_window, &our_window], turns));
    }
}

// ---- memory

/// The most memory that this process has held, in KiB.
fn peak() -> u64 {
    let text = std::fs::read_to_string("/proc/self/status").expect("/proc/self/status");
    let line = text.lines().find(|l| l.starts_with("VmHWM:")).expect("VmHWM");
    line.split_whitespace().nth(1).and_then(|n| n.parse().ok()).expect("a number of KiB")
}

/// In a process of its own: the stream so many times over, never held as a whole.
fn peak_of(side: &str, stream: &[u8], times: usize) {
    let pieces = (0..times).flat_map(|_| stream.chunks(65_536));
    let seen = if side == "rust" { the_rust(pieces) } else { ours(pieces) };
    println!("{} {}", seen.position, peak());
}

fn memory(streams: &[(String, String)]) {
    let run = |side: &str, path: &str, times: usize| {
        let out = std::process::Command::new(std::env::current_exe().expect("this program")).args(["--peak", side, path, &times.to_string()]).output().expect("a run");
        let text = String::from_utf8(out.stdout).expect("text");
        let words: Vec<u64> = text.split_whitespace().map(|w| w.parse().expect("two numbers")).collect();
        (words[0], words[1])
    };
    println!("\n{:<34} {:>11} {:>9} {:>9}", "most memory held, KiB", "bytes read", "the Rust", "ours");
    for (name, path) in streams {
        for times in [1, 4, 16, 64] {
            let ((bytes, rust), (_, ours)) = (run("rust", path, times), run("ours", path, times));
            println!("{:<34} {bytes:>11} {rust:>9} {ours:>9}", format!("{name}, {times}x, pieces of 64 KiB"));
        }
    }
}

fn main() {
    let words: Vec<String> = std::env::args().skip(1).collect();
    if let [flag, side, path, times] = &words[..] {
        if flag == "--peak" {
            return peak_of(side, &std::fs::read(path).expect(path), times.parse().expect("a number"));
        }
    }
    let turns = std::env::var("TURNS").ok().and_then(|n| n.parse().ok()).unwrap_or(5);
    let scale = std::env::var("SCALE").ok().and_then(|n| n.parse().ok()).unwrap_or(1.0f64);
    let paths: Vec<(String, String)> =
        words.iter().map(|w| w.split_once('=').map(|(name, path)| (name.to_owned(), path.to_owned())).expect("bench NAME=FILE ...")).collect();
    let mut streams: Vec<(String, Vec<u8>)> = paths.iter().map(|(name, path)| (name.clone(), std::fs::read(path).expect(path))).collect();
    streams.push(("random".to_owned(), random(4_000_000)));
    // The library's buffer has 1 MiB, of which a dry reader may hold 8,189.
    let pieces = [("1 B", 1, 0.4e6), ("4 KiB", 4096, 16e6), ("64 KiB", 65_536, 16e6), ("1 MiB - 8,189 B", mirvashen::PIECE, 8e6)];
    for (name, stream) in &streams {
        let seen = ours(stream.chunks(65_536));
        println!("{name}: {} bytes, {} units of {} bytes, {} errors", stream.len(), seen.units, seen.bytes.checked_div(seen.units).unwrap_or(0), seen.errors);
    }
    println!("\n{:<28} {:>9} {:>9} {:>9}   {:>7} {:>7}", "MB/s", "the Rust", "ours", "copied", "ours", "copied");
    for (name, stream) in &streams {
        for (label, piece, length) in pieces {
            read(&format!("{name}, {label}"), &repeated(stream, (length * scale) as usize), piece, turns);
        }
    }
    println!("\nby the stream's length, pieces of 64 KiB");
    for (name, stream) in &streams {
        for times in [1, 4, 16] {
            read(&format!("{name}, {times}x {scale:.1} MB"), &repeated(stream, (1e6 * scale) as usize * times), 65_536, turns);
        }
    }
    steps(turns, scale);
    memory(&paths);
}
