//! include/mirvashen.h, line by line.

#[repr(C)]
#[derive(Clone, Copy, Debug, Default, PartialEq, Eq)]
pub struct MvTimestamp {
    pub present: u64,
    pub hours: u64,
    pub minutes: u64,
    pub seconds: u64,
    pub frames: u64,
    pub samples: u64,
    pub reserved1: u64,
    pub framerate: u64,
    pub reserved2: u64,
    pub dropframe: u64,
}

#[repr(C)]
#[derive(Clone, Copy, Debug, Default, PartialEq, Eq)]
pub struct MvReader {
    pub timestamp: MvTimestamp,
    pub start: u64,
    pub end: u64,
    pub accepted: u64,
    pub unanswered: u64,
    pub consumed: u64,
    pub frames: u64,
    pub errors: u64,
    pub substreams: u64,
    pub locked: u64,
    pub seen: u64,
    pub poly: u64,
    pub init: u64,
    pub zeros: u64,
    pub unused: u64,
}

#[repr(C)]
#[derive(Clone, Copy, Debug, Default, PartialEq, Eq)]
pub struct MvUnit {
    pub timestamp: MvTimestamp,
    pub start: u64,
    pub length: u64,
    pub index: u64,
    pub position: u64,
    pub major: u64,
    pub substreams: u64,
    pub actual: u64,
    pub minimum: u64,
    pub unused: [u64; 6],
}

// The library lends and writes 24 words of each.
const _: () = assert!(std::mem::size_of::<MvReader>() == 24 * 8 && std::mem::size_of::<MvUnit>() == 24 * 8);

extern "C" {
    pub fn mv_open(reader: *mut MvReader, buffer: *const u8, length: usize, poly: u16, init: u16, zeros: u8) -> u32;
    pub fn mv_push_bytes(reader: *mut MvReader, buffer: *mut u8, length: usize, piece: *const u8, piece_length: usize) -> u32;
    pub fn mv_next(reader: *mut MvReader, buffer: *const u8, length: usize, unit: *mut MvUnit) -> u32;
}
