// Cases by kind, from a seed. A reader's case is made while the Rust runs beside it, so that a piece never exceeds what the buffer takes.
use crate::session::{Call, Found, Listed, Session};
use truehd::process::{EXAMPLE_DATA, EXAMPLE_DATA_FBB, EXAMPLE_DATA_FBB_UNEXTRACTABLE};
use truehd::utils::crc::{CRC_MAJOR_SYNC_INFO_ALG, Crc16};

pub struct Rng(pub u64);

impl Rng {
    pub fn next(&mut self) -> u64 {
        // splitmix64
        self.0 = self.0.wrapping_add(0x9E37_79B9_7F4A_7C15);
        let mut z = self.0;
        z = (z ^ (z >> 30)).wrapping_mul(0xBF58_476D_1CE4_E5B9);
        z = (z ^ (z >> 27)).wrapping_mul(0x94D0_49BB_1331_11EB);
        z ^ (z >> 31)
    }
    pub fn below(&mut self, n: u64) -> u64 {
        if n == 0 { 0 } else { (self.next() >> 8) % n }
    }
    pub fn index(&mut self, n: usize) -> usize {
        self.below(n as u64) as usize
    }
    pub fn one_in(&mut self, n: u64) -> bool {
        self.below(n) == 0
    }
    pub fn byte(&mut self) -> u8 {
        self.next() as u8
    }
    pub fn bytes(&mut self, n: usize) -> Vec<u8> {
        (0..n).map(|_| self.byte()).collect()
    }
    pub fn of<T: Copy>(&mut self, items: &[T]) -> T {
        items[self.index(items.len())]
    }
}

/// What a kind of case needs from outside.
pub struct World {
    pub check: Crc16,
    /// ffmpeg's streams: the bytes, and where each unit begins.
    pub truehd: Vec<(Vec<u8>, Vec<usize>)>,
    pub mlp: Vec<(Vec<u8>, Vec<usize>)>,
}

impl World {
    pub fn new(folder: Option<&str>) -> World {
        let mut world = World { check: Crc16::new(&CRC_MAJOR_SYNC_INFO_ALG), truehd: vec![], mlp: vec![] };
        let mut files: Vec<_> = folder
            .and_then(|f| std::fs::read_dir(f).ok())
            .map(|d| d.filter_map(|e| e.ok().map(|e| e.path())).collect())
            .unwrap_or_default();
        files.sort();
        for file in files {
            let bytes = std::fs::read(&file).unwrap_or_default();
            let mut starts = vec![];
            let mut at = 0;
            while at + 2 <= bytes.len() {
                let length = (((bytes[at] as usize & 15) << 8) | bytes[at + 1] as usize) * 2;
                if length == 0 {
                    break;
                }
                starts.push(at);
                at += length;
            }
            match file.extension().and_then(|e| e.to_str()) {
                Some("truehd") => world.truehd.push((bytes, starts)),
                Some("mlp") => world.mlp.push((bytes, starts)),
                _ => {}
            }
        }
        world
    }
}

// ---- units

#[derive(Clone, Copy)]
pub struct Shape {
    pub fbb: bool,
    pub substreams: u8,
    /// The extra channel meaning's length nibble, where there is one.
    pub extra: Option<u8>,
}

pub fn shape(rng: &mut Rng) -> Shape {
    Shape {
        fbb: rng.one_in(3),
        substreams: rng.of(&[0, 1, 1, 1, 2, 2, 3, 4, 15]),
        extra: if rng.one_in(3) { Some(rng.byte() & 15) } else { None },
    }
}

/// XORs the first nibble so that the parity nibble of header and directory is 15.
pub fn mend_parity(unit: &mut [u8], directory: std::ops::Range<usize>) {
    let mut p = 0u8;
    for i in (0..4).chain(directory) {
        p ^= unit.get(i).copied().unwrap_or(0);
    }
    let wrong = ((p >> 4) ^ p) & 15 ^ 15;
    unit[0] ^= wrong << 4;
}

pub fn set_length(unit: &mut [u8], words: usize) {
    unit[0] = unit[0] & 0xF0 | (words >> 8) as u8 & 15;
    unit[1] = words as u8;
}

fn sync_length(bytes: &[u8]) -> usize {
    if bytes.get(7) == Some(&0xBB) || bytes.get(29).copied().unwrap_or(0) & 1 == 0 {
        26
    } else {
        28 + ((bytes.get(30).copied().unwrap_or(0) >> 3) & 0x1E) as usize
    }
}

pub fn mend_check(world: &World, unit: &mut [u8]) {
    let n = sync_length(unit);
    if unit.len() >= 6 + n {
        let crc = world.check.update(0, &unit[4..4 + n]);
        unit[4 + n..6 + n].copy_from_slice(&crc.to_be_bytes());
    }
}

fn directory(rng: &mut Rng, substreams: u8) -> Vec<u8> {
    let mut d = vec![];
    for _ in 0..substreams {
        let long = rng.one_in(3);
        d.push(rng.byte() & 0x7F | if long { 0x80 } else { 0 });
        d.push(rng.byte());
        if long {
            d.extend([rng.byte(), rng.byte()]);
        }
    }
    d
}

/// A unit that holds: length, directory, parity and, where it begins with a sync, the check.
pub fn unit(world: &World, rng: &mut Rng, s: Shape, major: bool, body: usize) -> Vec<u8> {
    let mut u = vec![rng.byte() & 0xF0, 0, rng.byte(), rng.byte()];
    if major {
        u.extend([0xF8, 0x72, 0x6F, if s.fbb { 0xBB } else { 0xBA }]);
        u.extend(rng.bytes(22));
        u[20] = s.substreams << 4 | u[20] & 15;
        u[29] = u[29] & 0xFE | s.extra.is_some() as u8;
        if let Some(e) = s.extra {
            if !s.fbb {
                u.push(e << 4 | rng.byte() & 15);
            }
        }
        let n = sync_length(&u);
        while u.len() < 4 + n {
            u.push(rng.byte());
        }
        u.extend([0, 0]);
    }
    let from = u.len();
    u.extend(directory(rng, s.substreams));
    let to = u.len();
    u.extend(rng.bytes(body));
    if u.len() % 2 == 1 {
        u.push(rng.byte());
    }
    // a sync's length wants room for one directory entry at least
    if major {
        while u.len() < sync_length(&u) + 8 {
            u.push(rng.byte());
        }
    } else if u.len() >= 6 && u[4] == 0xF8 && u[5] == 0x72 {
        u[5] = 0;
    }
    u.truncate(8190);
    let words = u.len() / 2;
    set_length(&mut u, words);
    if major {
        mend_check(world, &mut u);
    }
    mend_parity(&mut u, from..to);
    u
}

pub fn stamp(rng: &mut Rng) -> Vec<u8> {
    let mut t = vec![0x01, 0x10];
    for _ in 0..4 {
        t.push((rng.byte() % 10) << 4 | rng.byte() % 10);
        t.push((rng.byte() % 10) << 4 | rng.byte() % 10);
    }
    t.extend(rng.bytes(4));
    t.extend([0x80, 0x00]);
    t
}

/// Sixteen bytes that are nearly a timestamp.
pub fn bad_stamp(rng: &mut Rng) -> Vec<u8> {
    let mut t = stamp(rng);
    match rng.below(4) {
        0 => t[rng.of(&[0, 1, 14, 15])] ^= 1 << rng.below(8),
        1 => t[2 + rng.index(8)] |= 0xA0,
        2 => t[2 + rng.index(8)] |= 0x0A,
        _ => {
            let i = rng.index(16);
            t[i] ^= 1 << rng.below(8);
        }
    }
    t
}

/// A stream of units under one shape, with the place of each.
pub fn stream(world: &World, rng: &mut Rng, s: Shape, units: usize) -> (Vec<u8>, Vec<usize>) {
    let mut out = vec![];
    let mut starts = vec![];
    for i in 0..units {
        starts.push(out.len());
        let body = rng.of(&[0, 0, 1, 2, 5, 12, 30, 60]);
        let major = i == 0 || rng.one_in(4);
        out.extend(unit(world, rng, s, major, body));
    }
    (out, starts)
}

/// A place of a unit that begins with a sync, by bytes 4 and 5.
fn major_at(bytes: &[u8], starts: &[usize], rng: &mut Rng) -> Option<usize> {
    let majors: Vec<usize> = starts
        .iter()
        .copied()
        .filter(|&s| bytes.len() > s + 31 && bytes[s + 4] == 0xF8 && bytes[s + 5] == 0x72)
        .collect();
    if majors.is_empty() { None } else { Some(majors[rng.index(majors.len())]) }
}

fn unit_range(bytes: &[u8], starts: &[usize], i: usize) -> std::ops::Range<usize> {
    starts[i]..starts.get(i + 1).copied().unwrap_or(bytes.len())
}

/// The directory of a unit as the rules read it.
fn directory_of(unit: &[u8], substreams: u8) -> std::ops::Range<usize> {
    let from = if unit.len() > 31 && unit[4] == 0xF8 && unit[5] == 0x72 { 6 + sync_length(unit) } else { 4 };
    let mut to = from;
    for _ in 0..substreams {
        to += if unit.get(to).copied().unwrap_or(0) & 0x80 != 0 { 4 } else { 2 };
    }
    from..to
}

pub const SYNCS: [[u8; 4]; 2] = [[0xF8, 0x72, 0x6F, 0xBA], [0xF8, 0x72, 0x6F, 0xBB]];

/// Damages a stream in the way a kind names.
pub fn damage(world: &World, rng: &mut Rng, how: &str, s: Shape, mut bytes: Vec<u8>, starts: Vec<usize>) -> Vec<u8> {
    if bytes.is_empty() || starts.is_empty() {
        return bytes;
    }
    let pick = rng.index(starts.len());
    let range = unit_range(&bytes, &starts, pick);
    match how {
        "bits flipped" => {
            for _ in 0..1 + rng.below(4) {
                let near = rng.one_in(2);
                let i = if near { (range.start + rng.index(36)).min(bytes.len() - 1) } else { rng.index(bytes.len()) };
                bytes[i] ^= 1 << rng.below(8);
            }
        }
        "a unit cut" => {
            let n = range.len();
            let cut = 1 + rng.index(n);
            if rng.one_in(2) {
                bytes.drain(range.end - cut..range.end);
            } else {
                bytes.drain(range.start..range.start + cut);
            }
        }
        "a unit doubled" => {
            let copy = bytes[range.clone()].to_vec();
            bytes.splice(range.end..range.end, copy);
        }
        "junk between units" => {
            for _ in 0..1 + rng.below(3) {
                let n = rng.of(&[1, 2, 3, 4, 7, 8, 15, 16, 17, 22, 23, 24, 40]);
                let junk = if rng.one_in(3) { vec![rng.byte(); n] } else { rng.bytes(n) };
                let at = starts[rng.index(starts.len())].min(bytes.len());
                bytes.splice(at..at, junk);
            }
        }
        "false sync words" => {
            for _ in 0..1 + rng.below(3) {
                let word = rng.of(&SYNCS);
                let at = rng.index(bytes.len());
                if rng.one_in(2) {
                    bytes.splice(at..at, word);
                } else {
                    for (i, b) in word.into_iter().enumerate() {
                        if at + i < bytes.len() {
                            bytes[at + i] = b;
                        }
                    }
                }
            }
        }
        "length edited, parity mended" => {
            let u = &mut bytes[range.clone()];
            if u.len() >= 4 {
                let d = directory_of(u, s.substreams);
                let end = d.end;
                let n = u.len();
                let words = match rng.below(6) {
                    0 => 0,
                    1 => rng.index(20),
                    2 => (end / 2).saturating_sub(1) + rng.index(3),
                    3 => n / 2 + rng.index(5),
                    4 => (n / 2).saturating_sub(rng.index(5)),
                    _ => rng.index(4096),
                };
                set_length(u, words);
                mend_parity(u, d.start.min(n)..d.end.min(n));
            }
        }
        "count edited, check mended" => {
            if let Some(at) = major_at(&bytes, &starts, rng) {
                let u = &mut bytes[at..];
                u[20] = u[20] & 15 | rng.byte() & 0xF0;
                mend_check(world, u);
                if rng.one_in(2) {
                    let count = u[20] >> 4;
                    let d = directory_of(u, count);
                    mend_parity(u, d);
                }
            }
        }
        "directory past the unit" => {
            // entries of four bytes, and a length that ends before them
            let u = &mut bytes[range.clone()];
            let d = directory_of(u, s.substreams);
            for i in d.clone() {
                if i < u.len() {
                    u[i] |= 0x80;
                }
            }
            let d = directory_of(u, s.substreams);
            let n = u.len();
            let words = (d.end / 2).saturating_sub(rng.index(4));
            set_length(u, words);
            mend_parity(u, d.start.min(n)..d.end.min(n));
        }
        "check broken" => {
            if let Some(at) = major_at(&bytes, &starts, rng) {
                let n = sync_length(&bytes[at..]);
                let i = at + 4 + rng.index(n + 2);
                if i < bytes.len() {
                    bytes[i] ^= 1 << rng.below(8);
                }
            }
        }
        "parity broken" => {
            bytes[range.start] ^= 1 << rng.below(8);
        }
        "sync length edited" => {
            if let Some(at) = major_at(&bytes, &starts, rng) {
                bytes[at + 29] ^= 1;
                bytes[at + 30] = rng.byte();
                if rng.one_in(2) {
                    mend_check(world, &mut bytes[at..]);
                }
            }
        }
        "sync byte 6 or 7 edited" => {
            if let Some(at) = major_at(&bytes, &starts, rng) {
                bytes[at + 6 + rng.index(2)] = rng.of(&[0xBB, 0xBA, 0x6F, 0, 0xBC]);
                mend_check(world, &mut bytes[at..]);
            }
        }
        "cut short" => {
            let n = rng.index(bytes.len() + 1);
            bytes.truncate(n);
        }
        _ => {}
    }
    bytes
}

/// The ways to damage a stream.
pub const DAMAGES: [&str; 13] = [
    "bits flipped",
    "a unit cut",
    "a unit doubled",
    "junk between units",
    "false sync words",
    "length edited, parity mended",
    "count edited, check mended",
    "directory past the unit",
    "check broken",
    "parity broken",
    "sync length edited",
    "sync byte 6 or 7 edited",
    "cut short",
];

// ---- readers

/// How a reader is fed: pieces and requests.
fn piece_size(rng: &mut Rng, way: u64, left: usize, room: usize) -> usize {
    let n = match way {
        0 => left,
        1 => 1,
        2 => rng.index(3),
        3 => rng.index(9),
        4 => rng.of(&[7, 16, 23, 24, 26, 30, 31, 34]),
        5 => rng.index(65),
        6 => rng.index(600),
        7 => room,
        _ => rng.index(room + 1),
    };
    n.min(left).min(room)
}

pub struct Made {
    pub calls: Vec<Call>,
    pub script: String,
    pub answers: String,
}

fn call(s: &mut Session, m: &mut Made, c: Call) {
    c.write(&mut m.script);
    s.run(&c, &mut m.answers);
    m.calls.push(c);
}

pub fn empty() -> Made {
    Made { calls: vec![], script: String::new(), answers: String::new() }
}

pub fn feed(s: &mut Session, rng: &mut Rng, bytes: &[u8]) -> Made {
    let mut m = empty();
    let room = rng.of(&[8192, 8192, 8192, 8193, 8200, 9000, 16384, 65536, 524_288]);
    call(s, &mut m, Call::Open(room));
    // one byte at a time only for short streams, so that a case stays short
    let way = if bytes.len() > 400 { rng.of(&[0, 5, 6, 7, 8, 6, 7, 8]) } else { rng.below(9) };
    let patience = rng.below(4);
    let mut at = 0;
    let mut empties = 0;
    while at < bytes.len() || (bytes.is_empty() && m.calls.len() < 2) {
        let mut free = s.room - s.unread();
        if free == 0 {
            call(s, &mut m, Call::Next);
            free = s.room - s.unread();
            if free == 0 && s.unanswered() == 0 {
                break;
            }
            continue;
        }
        let mut n = piece_size(rng, way, bytes.len() - at, free);
        if n == 0 {
            empties += 1;
            if empties > 3 {
                n = 1.min(bytes.len() - at);
            }
        }
        call(s, &mut m, Call::Push(bytes[at..at + n].to_vec()));
        at += n;
        match patience {
            // until dry
            0 => {
                for _ in 0..200 {
                    call(s, &mut m, Call::Next);
                    if s.found == Found::Dry {
                        break;
                    }
                }
            }
            1 => {
                for _ in 0..rng.below(3) {
                    call(s, &mut m, Call::Next);
                }
            }
            2 => {}
            _ => {
                if rng.one_in(3) {
                    for _ in 0..rng.below(6) {
                        call(s, &mut m, Call::Next);
                    }
                }
            }
        }
        if bytes.is_empty() {
            break;
        }
    }
    // until nothing is unanswered, and once more
    for _ in 0..2000 {
        let answered = s.unanswered() == 0;
        call(s, &mut m, Call::Next);
        if answered {
            break;
        }
    }
    m
}

/// The i-th string over an alphabet, shortest first.
fn nth(mut i: u64, alphabet: &[u8]) -> Vec<u8> {
    let k = alphabet.len() as u64;
    let mut n = 0;
    let mut many = 1;
    while i >= many {
        i -= many;
        many *= k;
        n += 1;
    }
    let mut out = vec![0; n];
    for b in out.iter_mut().rev() {
        *b = alphabet[(i % k) as usize];
        i /= k;
    }
    out
}

fn example(rng: &mut Rng) -> (Vec<u8>, Vec<usize>, Shape) {
    match rng.below(3) {
        0 => (EXAMPLE_DATA[16..].to_vec(), vec![0, 84], Shape { fbb: false, substreams: 1, extra: None }),
        1 => (EXAMPLE_DATA_FBB.to_vec(), vec![0], Shape { fbb: true, substreams: 2, extra: None }),
        _ => (EXAMPLE_DATA_FBB_UNEXTRACTABLE.to_vec(), vec![0], Shape { fbb: true, substreams: 1, extra: None }),
    }
}

fn given(rng: &mut Rng, files: &[(Vec<u8>, Vec<usize>)]) -> (Vec<u8>, Vec<usize>) {
    let (bytes, starts) = &files[rng.index(files.len())];
    let from = rng.index(starts.len());
    let many = rng.of(&[1, 2, 3, 5, 8, 20]);
    let to = (from + many).min(starts.len());
    let end = starts.get(to).copied().unwrap_or(bytes.len());
    // most begin at a unit with a sync
    let mut first = from;
    if !rng.one_in(4) {
        while first > 0 && !(bytes[starts[first] + 4] == 0xF8 && bytes[starts[first] + 5] == 0x72) {
            first -= 1;
        }
    }
    let first = first.max(to.saturating_sub(24));
    let base = starts[first];
    let end = end.min(base + 20_000);
    let starts = starts[first..to].iter().map(|s| s - base).filter(|s| base + s < end).collect();
    (bytes[base..end].to_vec(), starts)
}

/// The bytes of a reader's case; none where the kind lacks what it needs.
pub fn reader_bytes(world: &World, rng: &mut Rng, kind: &str, i: u64) -> Option<Vec<u8>> {
    let s = shape(rng);
    let units = 1 + rng.index(5);
    Some(match kind {
        "short, every string, locked" => {
            let mut bytes = unit(world, rng, Shape { fbb: i % 3 == 1, substreams: (i % 3) as u8, extra: None }, true, 0);
            bytes.extend(nth(i / 3, &[0x00, 0x02, 0x03, 0x80, 0xC0, 0xD0, 0xF8, 0x72]));
            bytes
        }
        "short, every string, searching" => nth(i, &[0xF8, 0x72, 0x6F, 0xBA, 0xBB, 0x00]),
        "random bytes" => {
            let n = match rng.below(8) {
                0 => rng.index(9),
                1..=4 => rng.index(64),
                5 | 6 => rng.index(400),
                _ => rng.of(&[8180, 8189, 8190, 8191, 8192, 8193, 8200]) + rng.index(4),
            };
            rng.bytes(n)
        }
        "random bytes with sync words" => {
            let n = 8 + rng.index(200);
            let mut bytes = rng.bytes(n);
            for _ in 0..1 + rng.below(5) {
                let at = rng.index(bytes.len());
                let mut word = rng.of(&SYNCS).to_vec();
                if rng.one_in(3) {
                    word = [vec![rng.byte() & 0xF0, rng.of(&[0, 16, 17, 18, 19, 24, 32])], rng.bytes(2), word].concat();
                }
                bytes.splice(at..at, word);
            }
            bytes
        }
        "around each boundary" => {
            // one candidate with its length, or the stream's end, at and beside each limit
            let mut bytes = if rng.one_in(2) { rng.of(&[15usize, 16, 17, 0, 1, 22, 23]).pipe(|n| rng.bytes(n)) } else { stamp(rng) };
            let mut u = unit(world, rng, s, true, 12);
            let n = sync_length(&u);
            let words = (n + 8) / 2 + rng.index(4);
            if rng.one_in(2) {
                set_length(&mut u, words.saturating_sub(2));
            }
            let count = s.substreams;
            let d = directory_of(&u, count);
            if d.end <= u.len() {
                mend_parity(&mut u, d);
            }
            let second = unit(world, rng, s, rng.0 & 1 == 0, 3);
            bytes.extend(&u);
            bytes.extend(&second);
            let limit = rng.of(&[4, 6, 8, 16, 20, 21, 22, 23, 24, 29, 30, 31, 32, 34, 36, 46, 47, 48, 62, u.len(), u.len() + 4, u.len() + 6, u.len() + 21]);
            let n = (limit + rng.index(3)).saturating_sub(1).min(bytes.len());
            bytes.truncate(n);
            bytes
        }
        "good streams, FBA and FBB" => {
            let (mut bytes, _) = stream(world, rng, s, units);
            if rng.one_in(2) {
                bytes = [stamp(rng), bytes].concat();
            }
            bytes
        }
        "zero substreams" => {
            let s = Shape { substreams: 0, ..s };
            let (bytes, starts) = stream(world, rng, s, units);
            let how = rng.of(&DAMAGES);
            if rng.one_in(2) { damage(world, rng, how, s, bytes, starts) } else { bytes }
        }
        "timestamps good and bad" => {
            let (bytes, _) = stream(world, rng, s, 1 + rng.0 as usize % 2);
            let first = if rng.one_in(3) { stamp(rng) } else { bad_stamp(rng) };
            let n = rng.of(&[0, 0, 0, 1, 3, 16]);
            let mut out = rng.bytes(n);
            if rng.one_in(4) {
                out.extend(rng.of(&SYNCS));
            }
            out.extend(first);
            if rng.one_in(3) {
                let n = rng.index(3);
                out.extend(rng.bytes(n));
            }
            out.extend(bytes);
            if rng.one_in(2) {
                out.extend(stamp(rng));
                let (more, _) = stream(world, rng, s, 1);
                out.extend(more);
            }
            if rng.one_in(4) {
                let at = rng.index(out.len());
                out[at] ^= 1 << rng.below(8);
            }
            out
        }
        "two streams joined" => {
            let other = shape(rng);
            let (a, _) = stream(world, rng, s, 1 + units / 2);
            let (b, _) = stream(world, rng, other, 1 + units / 2);
            let cut = if rng.one_in(2) { a.len() } else { rng.index(a.len() + 1) };
            let between = if rng.one_in(3) { stamp(rng) } else { vec![] };
            [&a[..cut], &between, &b].concat()
        }
        "long units" => {
            let n = rng.of(&[4000, 8000, 8100, 8190]);
            let mut bytes = unit(world, rng, s, true, n);
            for _ in 0..rng.below(4) {
                let n = rng.of(&[10, 3000, 8100, 8190]);
                let major = rng.one_in(2);
                bytes.extend(unit(world, rng, s, major, n));
            }
            if rng.one_in(2) {
                let at = rng.index(bytes.len());
                bytes[at] ^= 1 << rng.below(8);
            }
            bytes
        }
        "the Rust's own examples, damaged" => {
            let (bytes, starts, s) = example(rng);
            let how = rng.of(&DAMAGES);
            let mut out = damage(world, rng, how, s, bytes, starts);
            if rng.one_in(2) {
                out = [EXAMPLE_DATA[..16].to_vec(), out].concat();
            }
            if rng.one_in(2) {
                let (more, _, _) = example(rng);
                out.extend(more);
            }
            out
        }
        "ffmpeg TrueHD, clean" | "ffmpeg TrueHD, damaged" | "ffmpeg MLP, clean" | "ffmpeg MLP, damaged" => {
            let files = if kind.contains("TrueHD") { &world.truehd } else { &world.mlp };
            if files.is_empty() {
                return None;
            }
            let (bytes, starts) = given(rng, files);
            if kind.ends_with("clean") {
                bytes
            } else {
                let count = major_at(&bytes, &starts, rng).map_or(1, |at| bytes[at + 20] >> 4);
                let how = rng.of(&DAMAGES);
                damage(world, rng, how, Shape { fbb: false, substreams: count, extra: None }, bytes, starts)
            }
        }
        how => {
            let (bytes, starts) = stream(world, rng, s, units);
            let out = damage(world, rng, how, s, bytes, starts);
            if rng.one_in(3) { [stamp(rng), out].concat() } else { out }
        }
    })
}

trait Pipe: Sized {
    fn pipe<T>(self, f: impl FnOnce(Self) -> T) -> T {
        f(self)
    }
}
impl Pipe for usize {}

pub const READER: [&str; 15] = [
    "short, every string, locked",
    "short, every string, searching",
    "random bytes",
    "random bytes with sync words",
    "around each boundary",
    "good streams, FBA and FBB",
    "zero substreams",
    "timestamps good and bad",
    "two streams joined",
    "long units",
    "the Rust's own examples, damaged",
    "ffmpeg TrueHD, clean",
    "ffmpeg TrueHD, damaged",
    "ffmpeg MLP, clean",
    "ffmpeg MLP, damaged",
];

// ---- start timing

fn wide(rng: &mut Rng) -> u64 {
    match rng.below(6) {
        0 => rng.below(50),
        1 => rng.next(),
        2 => (1u64 << 32) - 4 + rng.below(9),
        3 => 0u64.wrapping_sub(4).wrapping_add(rng.below(9)),
        4 => 65532 + rng.below(9),
        _ => rng.below(70_000),
    }
}

/// The bits that spell a timing, from a field's first one to its five zeros.
fn spell(timing: u64) -> Vec<bool> {
    let mut out = vec![true];
    let mut run = 0;
    for i in (0..64 - timing.leading_zeros()).rev() {
        let bit = timing >> i & 1 == 1;
        out.push(bit);
        run = if bit { 0 } else { run + 1 };
        if run == 4 {
            out.push(true);
            run = 0;
        }
    }
    out.push(true);
    out.extend([false; 5]);
    out
}

pub fn timing(s: &mut Session, rng: &mut Rng, kind: &str, i: u64) -> Made {
    let mut m = empty();
    call(s, &mut m, Call::TimingNew);
    let mut bits: Vec<bool> = vec![];
    match kind {
        "timing, every bit string" => {
            let mut n = i;
            let mut length = 0;
            while n >= 1 << length {
                n -= 1 << length;
                length += 1;
            }
            bits.extend((0..length).rev().map(|k| n >> k & 1 == 1));
        }
        "timing, random bits" => bits.extend((0..10 + rng.below(60)).map(|_| rng.one_in(2))),
        "timing, long fields" => {
            bits.extend([false; 5]);
            bits.push(true);
            let n = if i % 200 == 0 { 18_000 } else { 30 + rng.below(300) };
            for _ in 0..n {
                // a one, then up to three zeros
                bits.push(true);
                if i % 200 != 0 || rng.one_in(50) {
                    bits.extend(vec![false; rng.index(4)]);
                } else {
                    bits.extend([false; 4]);
                }
            }
            bits.extend([true, false, false, false, false, false]);
        }
        _ => {}
    }
    let mut unit = if rng.one_in(3) { wide(rng) } else { rng.below(100) };
    let mut samples = rng.of(&[40, 80, 160, 40, 0, 1]);
    if rng.one_in(4) {
        samples = wide(rng);
    }
    let mut output = wide(rng);
    let random = rng.one_in(4);
    if kind == "timing, fields" {
        // fields one after another, most of them the one that is due
        let lead = if rng.one_in(6) { rng.index(8) } else { 5 };
        let mut previous: Option<(u64, u64, u64)> = None;
        bits.extend(vec![false; lead]);
        for b in bits.drain(..) {
            call(s, &mut m, Call::TimingStep(b, unit, samples, output));
            unit = unit.wrapping_add(1);
            output = output.wrapping_add(samples) & 0xFFFF;
        }
        for _ in 0..1 + rng.below(5) {
            let due = previous.map(|(t, u, o)| {
                let rise = (unit as u32).wrapping_sub(u as u32).wrapping_mul(samples as u32).wrapping_add(o as u32) >> 16;
                (t as u32).wrapping_add(rise) as u64
            });
            let timing = match due {
                Some(t) if !rng.one_in(4) => t,
                _ => wide(rng) >> rng.below(60),
            };
            previous = Some((timing, unit, output));
            let mut field = spell(timing);
            if rng.one_in(12) {
                let k = rng.index(field.len());
                field[k] = !field[k];
            }
            for b in field {
                call(s, &mut m, Call::TimingStep(b, unit, samples, output));
                unit = unit.wrapping_add(1);
                output = output.wrapping_add(samples) & 0xFFFF;
            }
            if rng.one_in(8) {
                call(s, &mut m, Call::TimingBranch);
                for _ in 0..5 {
                    call(s, &mut m, Call::TimingStep(false, unit, samples, output));
                }
            }
        }
        return m;
    }
    for b in bits {
        if kind != "timing, long fields" && rng.one_in(60) {
            call(s, &mut m, Call::TimingBranch);
        }
        if random {
            output = wide(rng);
            samples = wide(rng);
        }
        call(s, &mut m, Call::TimingStep(b, unit, samples, output));
        unit = unit.wrapping_add(1);
    }
    m
}

pub const TIMING: [&str; 4] = ["timing, every bit string", "timing, random bits", "timing, fields", "timing, long fields"];

// ---- the window

pub fn window(s: &mut Session, rng: &mut Rng, kind: &str) -> Made {
    let mut m = empty();
    call(s, &mut m, Call::WindowNew);
    let steps = if rng.one_in(5) { 120 + rng.index(60) } else { 2 + rng.index(30) };
    let mut now = if rng.one_in(8) { u64::MAX - 4000 } else { rng.below(200) };
    let wait = rng.of(&[0, 1, 5, 40, 400, 6000]);
    let most = rng.of(&[1, 3, 40, 2000, 16384]);
    for _ in 0..steps {
        if kind == "window, with restarts" && rng.one_in(6) {
            call(s, &mut m, Call::WindowRestart);
        }
        let mut bytes = [0u32; 14];
        for b in bytes.iter_mut() {
            *b = if rng.one_in(6) { rng.of(&[0, most, 0]) } else { rng.below(most as u64 + 1) as u32 };
        }
        if kind != "window, random" {
            // a stream part of its total, and most units alike
            for k in 0..5 {
                bytes[5 + k] = bytes[5 + k].min(bytes[k]);
            }
        }
        let removal = match rng.below(5) {
            0 => rng.below(200),
            1 => now,
            _ => now.wrapping_add(rng.below(wait + 1)),
        };
        let playhead = if kind == "window, random" && rng.one_in(4) { rng.below(300) } else { now };
        call(s, &mut m, Call::WindowStep(playhead, removal, bytes));
        now = now.saturating_add(rng.below(wait / 4 + 2));
    }
    m
}

pub const WINDOW: [&str; 3] = ["window, random", "window, as a stream", "window, with restarts"];

// ---- timestamps, checks, caps

pub fn plain(s: &mut Session, rng: &mut Rng, kind: &str, i: u64) -> Made {
    let mut m = empty();
    match kind {
        "timestamp, every flag word" => {
            let mut t = stamp(rng);
            t[12] = (i >> 8) as u8;
            t[13] = i as u8;
            call(s, &mut m, Call::Timestamp(t));
        }
        "timestamp, every digit word" => {
            let mut t = stamp(rng);
            let at = 2 + 2 * ((i >> 16) % 4) as usize;
            t[at] = (i >> 8) as u8;
            t[at + 1] = i as u8;
            call(s, &mut m, Call::Timestamp(t));
        }
        "timestamp, good and bad" => {
            let mut t = if rng.one_in(3) { stamp(rng) } else { bad_stamp(rng) };
            match rng.below(6) {
                0 => t.truncate(rng.index(17)),
                1 => {
                    let n = rng.index(5);
                    t.extend(rng.bytes(n));
                }
                _ => {}
            }
            call(s, &mut m, Call::Timestamp(t));
        }
        "timestamp, random bytes" => {
            let n = if rng.one_in(3) { rng.index(24) } else { 16 };
            let mut t = rng.bytes(n);
            if n >= 16 && rng.one_in(2) {
                t[..2].copy_from_slice(&[1, 0x10]);
                t[14..16].copy_from_slice(&[0x80, 0]);
            }
            call(s, &mut m, Call::Timestamp(t));
        }
        "check" => {
            let n = rng.of(&[0, 1, 2, 3, 26, 28, 58]) + rng.index(3);
            let bytes = rng.bytes(n);
            let poly = if rng.one_in(2) { 0x2D } else { rng.next() as u16 };
            let init = if rng.one_in(2) { 0 } else { rng.next() as u16 };
            let zeros = rng.one_in(2);
            call(s, &mut m, Call::Check(poly, init, zeros, bytes));
        }
        _ => {
            let k = (i % 6) as usize;
            call(s, &mut m, if i < 6 { Call::CapFba(k) } else { Call::CapFbb(k, (i / 6 - 1) as u8) });
        }
    }
    m
}

pub const TIMESTAMPS: [&str; 4] =
    ["timestamp, every flag word", "timestamp, every digit word", "timestamp, good and bad", "timestamp, random bytes"];

// ---- all kinds

pub struct Case {
    #[allow(dead_code)] // the comparison alone tells it
    pub kind: &'static str,
    pub calls: Vec<Call>,
    pub answers: String,
}

/// How many cases of each kind: N for a reader's, the others in document 01's proportions.
pub fn plan_of(n: u64) -> Vec<(&'static str, u64)> {
    let mut plan: Vec<(&'static str, u64)> = vec![];
    for k in READER.iter().chain(DAMAGES.iter()) {
        plan.push((k, n));
    }
    for k in TIMING {
        plan.push((k, if k == "timing, long fields" { n / 20 } else { 2 * n }));
    }
    for k in WINDOW {
        plan.push((k, n / 3));
    }
    for k in TIMESTAMPS {
        plan.push((k, 4 * n));
    }
    plan.push(("check", n));
    plan.push(("caps", n.min(6 * 257)));
    plan
}

/// The i-th case of a kind; none where the kind lacks what it needs.
pub fn make(world: &World, seed: u64, kind: &'static str, i: u64, listed: &mut Listed) -> Option<Case> {
    let mut rng = Rng(seed ^ i.wrapping_mul(0xD6E8_FEB8_6659_FD93) ^ kind.bytes().fold(7u64, |h, b| h.wrapping_mul(1099511628211) ^ b as u64));
    let mut s = Session::default();
    let m = if kind.starts_with("timing") {
        timing(&mut s, &mut rng, kind, i)
    } else if kind.starts_with("window") {
        window(&mut s, &mut rng, kind)
    } else if kind.starts_with("timestamp,") || kind == "check" || kind == "caps" {
        plain(&mut s, &mut rng, kind, i)
    } else {
        let bytes = reader_bytes(world, &mut rng, kind, i)?;
        feed(&mut s, &mut rng, &bytes)
    };
    assert!(!s.outside, "the generator left the Rust's domain: {}", m.script);
    listed.four_byte_units += s.listed.four_byte_units;
    listed.bit_counts_past_65535 += s.listed.bit_counts_past_65535;
    listed.steps_unlike_after_a_restart += s.listed.steps_unlike_after_a_restart;
    Some(Case { kind, calls: m.calls, answers: m.answers })
}
