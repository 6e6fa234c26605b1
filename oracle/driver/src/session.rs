// The Rust behind the calls of a script: each call writes the line that `replay` writes. Numbers 1 to 4, 12 and 13 have no counterpart in the
// Rust, so a call that needs one of them is outside: it is named so, and no comparison counts it.
use std::fmt::Write;
use truehd::structs::timestamp::{Framerate, Timestamp};
use truehd::utils::crc::{CRC_MAJOR_SYNC_INFO_ALG, Crc16, crc16};
use truehd::utils::errors::{ExtractError, TimestampError};
use truehd::utils::fifo::{Accumulator, FifoContribution, FifoDepthState, FifoPeak};
use truehd::utils::opened::{Extractor, state};
use truehd::utils::timing::{HiresOutputTimingState, HiresTimingFault, TimingContext};

#[derive(Clone, Debug, PartialEq)]
pub enum Call {
    Open(usize),
    Push(Vec<u8>),
    Next,
    Timestamp(Vec<u8>),
    Check(u16, u16, bool, Vec<u8>),
    TimingNew,
    TimingStep(bool, u64, u64, u64),
    TimingBranch,
    WindowNew,
    WindowStep(u64, u64, [u32; 14]),
    WindowRestart,
    CapFba(usize),
    CapFbb(usize, u8),
    Outside(String),
}

fn hex(out: &mut String, bytes: &[u8]) {
    const DIGITS: &[u8; 16] = b"0123456789abcdef";
    for b in bytes {
        out.push(DIGITS[(b >> 4) as usize] as char);
        out.push(DIGITS[(b & 15) as usize] as char);
    }
}

impl Call {
    /// The call as a line of a script.
    pub fn write(&self, out: &mut String) {
        match self {
            Call::Open(n) => write!(out, "open {n:x}").unwrap(),
            Call::Push(bytes) => {
                out.push_str("push ");
                hex(out, bytes);
            }
            Call::Next => out.push_str("next"),
            Call::Timestamp(bytes) => {
                out.push_str("timestamp ");
                hex(out, bytes);
            }
            Call::Check(poly, init, zeros, bytes) => {
                write!(out, "check {poly:x} {init:x} {} ", *zeros as u8).unwrap();
                hex(out, bytes);
            }
            Call::TimingNew => out.push_str("timing new"),
            Call::TimingStep(bit, unit, samples, output) => {
                write!(out, "timing step {} {unit:x} {samples:x} {output:x}", *bit as u8).unwrap()
            }
            Call::TimingBranch => out.push_str("timing branch"),
            Call::WindowNew => out.push_str("window new"),
            Call::WindowStep(playhead, removal, bytes) => {
                write!(out, "window step {playhead:x} {removal:x}").unwrap();
                for b in bytes {
                    write!(out, " {b:x}").unwrap();
                }
            }
            Call::WindowRestart => out.push_str("window restart"),
            Call::CapFba(k) => write!(out, "cap fba {k:x}").unwrap(),
            Call::CapFbb(k, info) => write!(out, "cap fbb {k:x} {info:x}").unwrap(),
            Call::Outside(line) => out.push_str(line),
        }
        out.push('\n');
    }

    /// The call that a line writes; none where it writes no call.
    pub fn read(line: &str) -> Option<Call> {
        fn bytes(word: Option<&str>) -> Option<Vec<u8>> {
            let text = word.unwrap_or("").as_bytes();
            if text.len() % 2 != 0 {
                return None;
            }
            text.chunks(2)
                .map(|pair| {
                    let hi = (pair[0] as char).to_digit(16)?;
                    let lo = (pair[1] as char).to_digit(16)?;
                    Some((hi * 16 + lo) as u8)
                })
                .collect()
        }
        let mut words = line.split(' ').filter(|w| !w.is_empty());
        let name = words.next()?;
        match name {
            "push" => return Some(Call::Push(bytes(words.next())?)),
            "timestamp" => return Some(Call::Timestamp(bytes(words.next())?)),
            "show" | "part" | "forge" => return Some(Call::Outside(line.into())),
            "next" => return Some(Call::Next),
            _ => {}
        }
        let rest: Vec<&str> = words.collect();
        let numbers = |words: &[&str]| -> Option<Vec<u64>> {
            words.iter().map(|w| u64::from_str_radix(w, 16).ok()).collect()
        };
        match name {
            "check" => {
                let n = numbers(rest.get(..3)?)?;
                Some(Call::Check(n[0] as u16, n[1] as u16, n[2] != 0, bytes(rest.get(3).copied())?))
            }
            "open" => match numbers(&rest)?.as_slice() {
                [n] | [n, 0x2d, 0, 0] => Some(Call::Open(*n as usize)),
                _ => Some(Call::Outside(line.into())),
            },
            "timing" => match (rest.first()?, numbers(&rest[1..])) {
                (&"new", _) => Some(Call::TimingNew),
                (&"branch", _) => Some(Call::TimingBranch),
                (&"step", Some(n)) if n.len() == 4 => Some(Call::TimingStep(n[0] != 0, n[1], n[2], n[3])),
                (&"forge", _) => Some(Call::Outside(line.into())),
                _ => None,
            },
            "window" => match (rest.first()?, numbers(&rest[1..])) {
                (&"new", _) => Some(Call::WindowNew),
                (&"restart", _) => Some(Call::WindowRestart),
                (&"step", Some(n)) if n.len() == 16 => {
                    let mut c = [0u32; 14];
                    for i in 0..14 {
                        c[i] = n[i + 2] as u32;
                    }
                    Some(Call::WindowStep(n[0], n[1], c))
                }
                (&"forge", _) => Some(Call::Outside(line.into())),
                _ => None,
            },
            "cap" => match (rest.first()?, numbers(&rest[1..])?.as_slice()) {
                (&"fba", [k]) => Some(Call::CapFba(*k as usize)),
                (&"fbb", [k, info]) => Some(Call::CapFbb(*k as usize, *info as u8)),
                _ => None,
            },
            _ => None,
        }
    }
}

/// Differences that docs/DIFFERENCES.md lists, counted where a script runs into them.
#[derive(Default, Clone, Debug)]
pub struct Listed {
    pub four_byte_units: u64,
    pub bit_counts_past_65535: u64,
    pub steps_unlike_after_a_restart: u64,
}

/// What the script's last request found.
#[derive(Clone, Copy, PartialEq, Debug)]
pub enum Found {
    Nothing,
    Unit,
    Spoken,
    Dry,
}

pub struct Session {
    pub reader: Extractor,
    pub room: usize,
    pub found: Found,
    timing: HiresOutputTimingState,
    window: FifoDepthState,
    /// The window with the Rust's own restart, once a script restarts.
    kept: Option<FifoDepthState>,
    peaks: [FifoPeak; 5],
    substream_peaks: [usize; 4],
    check: Crc16,
    pub listed: Listed,
    pub outside: bool,
}

impl Default for Session {
    fn default() -> Self {
        Session {
            reader: Extractor::default(),
            room: 8192,
            found: Found::Nothing,
            timing: Default::default(),
            window: Default::default(),
            kept: None,
            peaks: [FifoPeak::default(); 5],
            substream_peaks: [0; 4],
            check: Crc16::new(&CRC_MAJOR_SYNC_INFO_ALG),
            listed: Listed::default(),
            outside: false,
        }
    }
}

fn adler(bytes: &[u8]) -> u32 {
    let (mut low, mut high) = (1u32, 0u32);
    for part in bytes.chunks(5000) {
        for b in part {
            low += *b as u32;
            high += low;
        }
        low %= 65521;
        high %= 65521;
    }
    high << 16 | low
}

fn put(out: &mut String, label: &str, mut n: u64) {
    out.push_str(label);
    let mut digits = [0u8; 20];
    let mut i = 20;
    loop {
        i -= 1;
        digits[i] = b'0' + (n % 10) as u8;
        n /= 10;
        if n == 0 {
            break;
        }
    }
    out.push_str(std::str::from_utf8(&digits[i..]).unwrap());
}

fn put_stamp(out: &mut String, t: &Timestamp) {
    put(out, " ", t.hours as u64);
    put(out, ":", t.minutes as u64);
    put(out, ":", t.seconds as u64);
    put(out, ":", t.frames as u64);
    put(out, " samples ", t.samples as u64);
    match t.framerate {
        Framerate::R23_976 => out.push_str(" rate 23.976"),
        Framerate::R24 => out.push_str(" rate 24"),
        Framerate::R25 => out.push_str(" rate 25"),
        Framerate::R29_97 => out.push_str(" rate 29.97"),
        Framerate::R30 => out.push_str(" rate 30"),
        Framerate::R50 => out.push_str(" rate 50"),
        Framerate::R59_94 => out.push_str(" rate 59.94"),
        Framerate::R60 => out.push_str(" rate 60"),
        Framerate::Invalid(n) => put(out, " rate invalid ", n as u64),
    }
    put(out, " drop ", t.dropframe as u64);
    put(out, " reserved ", t._reserved1 as u64);
    put(out, " ", t._reserved2 as u64);
}

fn put_waiting(out: &mut String, t: &Option<Timestamp>) {
    match t {
        None => out.push_str(" -"),
        Some(t) => put_stamp(out, t),
    }
}

/// A number behind `name: ` in what Debug writes.
fn field(text: &str, name: &str) -> u64 {
    let at = text.find(&format!(" {name}: ")).expect(name) + name.len() + 3;
    text[at..].bytes().take_while(u8::is_ascii_digit).fold(0u64, |n, b| n * 10 + (b - b'0') as u64)
}

/// The numbers between the brackets behind `name: [` in what Debug writes.
fn row(text: &str, name: &str) -> Vec<u64> {
    let at = text.find(&format!(" {name}: [")).expect(name) + name.len() + 4;
    let end = text[at..].find(']').unwrap() + at;
    text[at..end].split(", ").map(|n| n.parse().unwrap()).collect()
}

impl Session {
    fn record(&mut self, out: &mut String) {
        let r = state::record(&self.reader);
        put(out, " | at ", r.consumed);
        out.push_str(if r.locked { " locked" } else { " searching" });
        out.push_str(if r.seen { " seen" } else { " unseen" });
        put(out, " substreams ", r.substreams as u64);
        put(out, " frames ", r.frames as u64);
        put(out, " errors ", r.errors as u64);
        put(out, " unanswered ", r.unanswered as u64);
        put(out, " unread ", r.unread as u64);
        put(out, " accepted ", r.consumed + r.unread as u64);
        out.push_str(" waiting");
        put_waiting(out, &r.waiting);
        out.push('\n');
    }

    pub fn unread(&self) -> usize {
        state::record(&self.reader).unread
    }

    pub fn unanswered(&self) -> usize {
        state::record(&self.reader).unanswered
    }

    fn outside(&mut self, out: &mut String, why: &str) {
        self.outside = true;
        out.push_str("outside: ");
        out.push_str(why);
        out.push('\n');
    }

    fn next(&mut self, out: &mut String) {
        let substreams = |s: &Self| state::record(&s.reader).substreams as u64;
        match self.reader.next() {
            Some(Ok(frame)) => {
                self.found = Found::Unit;
                let bytes = frame.as_ref();
                let major = if bytes.len() < 6 {
                    self.listed.four_byte_units += 1;
                    false
                } else {
                    frame.is_major_sync()
                };
                put(out, "next unit ", frame.index);
                put(out, " at ", frame.offset);
                put(out, " length ", bytes.len() as u64);
                out.push_str(if major { " major" } else { " minor" });
                put(out, " substreams ", substreams(self));
                put_waiting(out, &frame.timestamp);
                write!(out, " bytes {:08x}", adler(bytes)).unwrap();
            }
            Some(Err(ExtractError::InvalidAccessUnitLength { actual, minimum })) => {
                self.found = Found::Spoken;
                put(out, "next 5 actual ", actual as u64);
                put(out, " minimum ", minimum as u64);
            }
            Some(Err(ExtractError::ParityCheckFailed)) => {
                self.found = Found::Spoken;
                out.push_str("next 6");
            }
            Some(Err(ExtractError::InsufficientData)) => {
                self.found = Found::Dry;
                out.push_str("next 7");
            }
            Some(Err(error)) => panic!("an answer without a number: {error}"),
            None => {
                self.found = Found::Dry;
                out.push_str("next 8");
            }
        }
        self.record(out);
    }

    fn timed(&mut self, start: Option<usize>, out: &mut String) {
        match start {
            None => out.push_str("timing 0 start -"),
            Some(n) => put(out, "timing 0 start ", n as u64),
        }
        let text = format!("{:?}", self.timing);
        let text = &text[text.find(", state_index: ").unwrap() + 1..];
        let bits = field(text, "serialisation_counter");
        if bits > 65535 {
            self.listed.bit_counts_past_65535 += 1;
        }
        put(out, " | state ", field(text, "state_index"));
        put(out, " counter ", field(text, "counter"));
        put(out, " bits ", bits.min(65535));
        put(out, " field ", field(text, "timing"));
        put(out, " ", field(text, "au_index"));
        put(out, " ", field(text, "au_output_timing"));
        put(out, " previous ", field(text, "prev_timing"));
        put(out, " ", field(text, "prev_au_index"));
        put(out, " ", field(text, "prev_au_output_timing"));
        match self.timing.fault {
            None => out.push_str(" fault -"),
            Some(HiresTimingFault::Malformed { au, reason }) => {
                out.push_str(" fault ");
                out.push_str(reason);
                put(out, " ", au as u64);
            }
            Some(HiresTimingFault::Sequence { timing, au, prev_timing, prev_au }) => {
                put(out, " fault sequence ", timing as u64);
                put(out, " ", au as u64);
                put(out, " ", prev_timing as u64);
                put(out, " ", prev_au as u64);
            }
        }
        out.push('\n');
    }

    fn windowed(&mut self, out: &mut String) {
        let text = format!("{:?}", self.window);
        let text = &text[text.find(", read: ").unwrap() + 1..];
        let depth = row(text, "depth");
        let stream = row(text, "depth_stream");
        let substream = row(text, "depth_substream");
        let peaks = self.merged();
        let substream_peaks = self.merged_substreams();
        put(out, " held ", self.window.buffered() as u64);
        put(out, " | read ", field(text, "read"));
        put(out, " write ", field(text, "write"));
        out.push_str(" depths");
        for k in 0..5 {
            put(out, " ", depth[k]);
            put(out, ":", stream[k]);
            put(out, "/", peaks[k].total as u64);
            put(out, ":", peaks[k].stream as u64);
            put(out, ":", peaks[k].overhead as u64);
        }
        out.push_str(" substreams");
        for i in 0..4 {
            put(out, " ", substream[i]);
            put(out, "/", substream_peaks[i] as u64);
        }
        out.push('\n');
    }

    /// Document 01's restart makes the window new and keeps the peaks: a fresh window of the Rust, whose peaks count where they rise above the
    /// ones before the restart.
    fn merged(&self) -> [FifoPeak; 5] {
        let mut peaks = self.window.peak_records();
        for k in 0..5 {
            if peaks[k].total <= self.peaks[k].total {
                peaks[k] = self.peaks[k];
            }
        }
        peaks
    }

    fn merged_substreams(&self) -> [usize; 4] {
        let mut peaks = self.window.substream_peaks();
        for i in 0..4 {
            peaks[i] = peaks[i].max(self.substream_peaks[i]);
        }
        peaks
    }

    fn step(&mut self, playhead: u64, removal: u64, bytes: &[u32; 14], out: &mut String) {
        if bytes.iter().any(|b| *b > 16384) {
            return self.outside(out, "a contribution above 16,384");
        }
        let mut c = FifoContribution::default();
        for k in 0..5 {
            c.total[k] = bytes[k] as usize;
            c.stream[k] = bytes[5 + k] as usize;
        }
        for i in 0..4 {
            c.substream[i] = bytes[10 + i] as usize;
        }
        let report = self.window.push(playhead as usize, removal as usize, c);
        if let Some(kept) = &mut self.kept {
            let other = kept.push(playhead as usize, removal as usize, c);
            if other.depths != report.depths || other.underrun != report.underrun {
                self.listed.steps_unlike_after_a_restart += 1;
            }
        }
        out.push_str("window 0");
        match report.underrun {
            None => out.push_str(" underrun -"),
            Some(k) => put(out, " underrun ", k as u64),
        }
        out.push_str(" report");
        for d in report.depths {
            put(out, " ", d as u64);
        }
        self.windowed(out);
    }

    /// Runs one call and appends its line.
    pub fn run(&mut self, call: &Call, out: &mut String) {
        match call {
            Call::Open(n) => {
                if *n < 8192 || *n > 1_048_576 {
                    return self.outside(out, "a buffer's length that doesn't fit");
                }
                self.reader = Extractor::default();
                self.room = *n;
                out.push_str("open 0");
                self.record(out);
            }
            Call::Push(bytes) => {
                if self.unread() + bytes.len() > self.room {
                    return self.outside(out, "more than the buffer takes");
                }
                if self.unanswered() >= 65535 {
                    return self.outside(out, "65,535 pushes unanswered");
                }
                self.reader.push_bytes(bytes);
                out.push_str("push 0");
                self.record(out);
            }
            Call::Next => self.next(out),
            Call::Timestamp(bytes) => {
                match Timestamp::from_bytes(bytes) {
                    Ok(t) => {
                        out.push_str("timestamp");
                        put_stamp(out, &t);
                    }
                    Err(error) => put(
                        out,
                        "timestamp refused ",
                        match error.downcast_ref::<TimestampError>() {
                            None => 9,
                            Some(TimestampError::InvalidSyncBytes) => 10,
                            Some(TimestampError::InvalidBcdDigit) => 11,
                        },
                    ),
                }
                out.push('\n');
            }
            Call::Check(poly, init, zeros, bytes) => {
                let mut message = bytes.clone();
                if *zeros {
                    message.extend([0, 0]);
                }
                // Only the confirmed polynomial has a table in the Rust; for another the same table is made by the Rust's own `crc16`.
                let check = if *poly == self.check.poly {
                    self.check.update(*init, &message)
                } else {
                    message.iter().fold(*init, |crc, b| crc16(*poly, crc >> 8, 8) ^ (crc << 8) ^ *b as u16)
                };
                writeln!(out, "check {check:04x}").unwrap();
            }
            Call::TimingNew => {
                self.timing = Default::default();
                self.timed(None, out);
            }
            Call::TimingStep(bit, unit, samples, output) => {
                let ctx = TimingContext {
                    au_index: *unit as usize,
                    samples_per_au: *samples as usize,
                    substream_index: 0,
                    output_timing: *output as usize,
                };
                let start = self.timing.update(&ctx, *bit);
                self.timed(start, out);
            }
            Call::TimingBranch => {
                self.timing.reset_for_branch();
                self.timed(None, out);
            }
            Call::WindowNew => {
                self.window = Default::default();
                self.kept = None;
                self.peaks = [FifoPeak::default(); 5];
                self.substream_peaks = [0; 4];
                out.push_str("window 0");
                self.windowed(out);
            }
            Call::WindowStep(playhead, removal, bytes) => self.step(*playhead, *removal, bytes, out),
            Call::WindowRestart => {
                let mut kept = self.kept.take().unwrap_or(self.window);
                kept.restart();
                self.kept = Some(kept);
                self.peaks = self.merged();
                self.substream_peaks = self.merged_substreams();
                self.window = Default::default();
                out.push_str("window 0");
                self.windowed(out);
            }
            Call::CapFba(k) => match Accumulator::ALL.get(*k) {
                Some(a) => {
                    put(out, "cap ", a.fba_cap() as u64);
                    out.push('\n');
                }
                None => out.push_str("cap none\n"),
            },
            Call::CapFbb(k, info) => match Accumulator::ALL.get(*k).map(|a| a.fbb_cap(*info)) {
                Some(Some(n)) => {
                    put(out, "cap ", n as u64);
                    out.push('\n');
                }
                Some(None) => out.push_str("cap unchecked\n"),
                None => out.push_str("cap none\n"),
            },
            Call::Outside(line) => {
                let line = line.clone();
                self.outside(out, &line)
            }
        }
    }
}
