//! Mirvashen's reader of TrueHD/MLP streams behind the names of truehdd's `Extractor`: `push_bytes`, `next`, `timestamp`, `error_count`,
//! `stream_position`; start timing and the depth window are in [`timing`] and [`window`]. The work is done by the proved static libraries; what stands here keeps the record and the buffer, and is not proved.
//!
//! ```
//! use mirvashen::Extractor;
//!
//! let mut extractor = Extractor::default();
//! extractor.push_bytes(b"any bytes");
//! for frame in &mut extractor {
//!     println!("{} bytes", frame.unwrap().as_ref().len());
//! }
//! assert_eq!(extractor.error_count(), 0);
//! ```
//!
//! Where it differs from the Rust's: a piece may be refused ([`Extractor::try_push`]) where the Rust's buffer grows without bound, and
//! `push_bytes` panics there; [`Frame::is_major_sync`] answers no for a unit of 4 bytes; `SubstreamMismatch` is never answered, as in the Rust.
use std::fmt;
use std::sync::Arc;

pub mod raw;
pub mod timing;
pub mod window;

use raw::{MvReader, MvTimestamp, MvUnit};

/// The longest buffer that the library takes.
pub const BUFFER: usize = 1_048_576;

/// The buffer at opening. It grows, to [`BUFFER`] at most, where a piece finds no room.
const FIRST: usize = 131_072;

/// The longest piece that is always taken once a request ran dry: a dry reader holds at most 8,189 bytes.
pub const PIECE: usize = BUFFER - 8_189;

/// What a request that hands out no unit may say; the names are the Rust's.
#[derive(Clone, Copy, Debug, PartialEq, Eq)]
pub enum ExtractError {
    /// Number 5.
    InvalidAccessUnitLength { actual: usize, minimum: usize },
    /// Number 6: the check of a major sync failed.
    ParityCheckFailed,
    /// Number 7: dry while locked.
    InsufficientData,
}

impl fmt::Display for ExtractError {
    fn fmt(&self, f: &mut fmt::Formatter<'_>) -> fmt::Result {
        match self {
            ExtractError::InvalidAccessUnitLength { actual, minimum } => write!(f, "Access unit length {actual} bytes is shorter than its {minimum}-byte header"),
            ExtractError::ParityCheckFailed => f.write_str("Parity check failed for frame"),
            ExtractError::InsufficientData => f.write_str("Insufficient buffer data for frame extraction"),
        }
    }
}

impl std::error::Error for ExtractError {}

/// Why a piece is refused; the reader is as it was.
#[derive(Clone, Copy, Debug, PartialEq, Eq)]
pub enum PushError {
    /// Number 2: 65,535 pushes are unanswered.
    Pushes,
    /// Number 3: the accepted total would pass 2^48 bytes.
    Total,
    /// Number 4: unread plus piece exceeds the buffer.
    Room,
}

impl fmt::Display for PushError {
    fn fmt(&self, f: &mut fmt::Formatter<'_>) -> fmt::Result {
        f.write_str(match self {
            PushError::Pushes => "65,535 pushes are unanswered",
            PushError::Total => "the accepted total would pass 2^48 bytes",
            PushError::Room => "the piece and the unread bytes exceed the buffer",
        })
    }
}

impl std::error::Error for PushError {}

#[derive(Clone, Copy, Debug, PartialEq, Eq)]
pub struct Timestamp {
    pub hours: u16,
    pub minutes: u16,
    pub seconds: u16,
    pub frames: u16,
    pub samples: u16,
    pub reserved1: u16,
    /// 1 to 8: 23.976, 24, 25, 29.97, 30, 50, 59.94, 60; any other code as it came.
    pub framerate: u8,
    pub reserved2: bool,
    pub dropframe: bool,
}

fn stamp(t: &MvTimestamp) -> Option<Timestamp> {
    (t.present != 0).then_some(Timestamp {
        hours: t.hours as u16,
        minutes: t.minutes as u16,
        seconds: t.seconds as u16,
        frames: t.frames as u16,
        samples: t.samples as u16,
        reserved1: t.reserved1 as u16,
        framerate: t.framerate as u8,
        reserved2: t.reserved2 != 0,
        dropframe: t.dropframe != 0,
    })
}

/// A unit in the reader's own buffer: no copy is made. It is held until the next call.
#[derive(Clone, Copy, Debug)]
pub struct Unit<'a> {
    pub timestamp: Option<Timestamp>,
    pub data: &'a [u8],
    pub index: u64,
    pub offset: u64,
    pub substreams: u8,
    major: bool,
}

impl Unit<'_> {
    pub fn is_major_sync(&self) -> bool {
        self.major
    }
}

impl AsRef<[u8]> for Unit<'_> {
    fn as_ref(&self) -> &[u8] {
        self.data
    }
}

/// A unit with a copy of its bytes, as the Rust hands it out.
#[derive(Clone, Debug)]
pub struct Frame {
    pub timestamp: Option<Timestamp>,
    pub data: Arc<[u8]>,
    /// Zero-based position of this access unit in the sequence the extractor emitted.
    pub index: u64,
    /// Byte offset of the access unit, counted from the first byte pushed.
    pub offset: u64,
    major: bool,
}

impl Frame {
    pub fn is_major_sync(&self) -> bool {
        self.major
    }
}

impl AsRef<[u8]> for Frame {
    fn as_ref(&self) -> &[u8] {
        &self.data
    }
}

/// The reader with a buffer of its own, which grows to [`BUFFER`] bytes at most.
#[derive(Clone)]
pub struct Extractor {
    reader: MvReader,
    unit: MvUnit,
    buffer: Box<[u8]>,
}

impl Default for Extractor {
    fn default() -> Self {
        let buffer = vec![0; FIRST].into_boxed_slice();
        let mut reader = MvReader::default();
        // SAFETY: the pointer and the length are one slice's, and the record is a local.
        let number = unsafe { raw::mv_open(&mut reader, buffer.as_ptr(), buffer.len(), 0x002D, 0, 0) };
        debug_assert_eq!(number, 0, "a buffer of {FIRST} bytes fits");
        Self { reader, unit: MvUnit::default(), buffer }
    }
}

impl Extractor {
    /// Adds bytes behind the unread ones, as the Rust's does.
    ///
    /// # Panics
    /// Where [`Self::try_push`] refuses: ask until dry between pieces, and keep a piece to [`PIECE`] bytes.
    #[track_caller]
    pub fn push_bytes(&mut self, data: &[u8]) {
        if let Err(refused) = self.try_push(data) {
            panic!("push_bytes: {refused}");
        }
    }

    /// Adds bytes behind the unread ones, or says why not; then nothing has changed.
    #[inline]
    pub fn try_push(&mut self, data: &[u8]) -> Result<(), PushError> {
        match self.push(data) {
            0 => Ok(()),
            2 => Err(PushError::Pushes),
            3 => Err(PushError::Total),
            _ => self.push_into_more(data),
        }
    }

    #[inline]
    fn push(&mut self, data: &[u8]) -> u32 {
        // SAFETY: each pointer and length are one slice's; record, buffer and `data` can't overlap, since the first two are borrowed mutably here.
        unsafe { raw::mv_push_bytes(&mut self.reader, self.buffer.as_mut_ptr(), self.buffer.len(), data.as_ptr(), data.len()) }
    }

    /// Number 4: once more with a longer buffer, if the library takes one that is long enough. The record says where bytes stand from the
    /// buffer's start, so it fits the longer one as well.
    #[cold]
    fn push_into_more(&mut self, data: &[u8]) -> Result<(), PushError> {
        let needed = ((self.reader.end - self.reader.start) as usize).saturating_add(data.len());
        if needed > BUFFER {
            return Err(PushError::Room);
        }
        let mut longer = vec![0; needed.next_power_of_two()].into_boxed_slice();
        longer[..self.buffer.len()].copy_from_slice(&self.buffer);
        self.buffer = longer;
        match self.push(data) {
            0 => Ok(()),
            number => unreachable!("number {number} though there is room"),
        }
    }

    /// One request with no copy: the unit lies in the reader's own buffer. `None` is number 8, dry in search or nothing unanswered.
    #[inline]
    pub fn next_unit(&mut self) -> Option<Result<Unit<'_>, ExtractError>> {
        // SAFETY: the pointer and the length are one slice's; record and unit are fields of their own.
        match unsafe { raw::mv_next(&mut self.reader, self.buffer.as_ptr(), self.buffer.len(), &mut self.unit) } {
            0 => Some(Ok(self.handed_out())),
            5 => Some(Err(ExtractError::InvalidAccessUnitLength { actual: self.unit.actual as usize, minimum: self.unit.minimum as usize })),
            6 => Some(Err(ExtractError::ParityCheckFailed)),
            7 => Some(Err(ExtractError::InsufficientData)),
            8 => None,
            _ => unreachable!("a reader from opening fits its buffer"),
        }
    }

    #[inline]
    fn handed_out(&self) -> Unit<'_> {
        let u = &self.unit;
        let data = &self.buffer[u.start as usize..][..u.length as usize];
        Unit { timestamp: stamp(&u.timestamp), data, index: u.index, offset: u.position, substreams: u.substreams as u8, major: u.major != 0 }
    }

    /// The timestamp that waits for the next unit.
    pub fn timestamp(&self) -> Option<Timestamp> {
        stamp(&self.reader.timestamp)
    }

    /// Losses so far, the quiet ones too.
    pub fn error_count(&self) -> usize {
        self.reader.errors as usize
    }

    /// Byte offset of the next unconsumed byte, counted from the first byte pushed.
    pub fn stream_position(&self) -> u64 {
        self.reader.consumed
    }
}

/// One request, with the unit's bytes copied out.
impl Iterator for Extractor {
    type Item = Result<Frame, ExtractError>;

    #[inline]
    fn next(&mut self) -> Option<Self::Item> {
        self.next_unit().map(|r| r.map(|u| Frame { timestamp: u.timestamp, data: u.data.into(), index: u.index, offset: u.offset, major: u.major }))
    }
}

impl fmt::Debug for Extractor {
    fn fmt(&self, f: &mut fmt::Formatter<'_>) -> fmt::Result {
        f.debug_struct("Extractor").field("reader", &self.reader).finish_non_exhaustive()
    }
}
