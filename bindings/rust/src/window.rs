//! The depth window behind the names of truehdd's `utils::fifo`: how many bytes a decoder has to hold while units arrive and are played out. The work
//! is done by the proved static library; what stands here keeps the window, and is not proved.
//!
//! ```
//! use mirvashen::window::{Accumulator, FifoContribution, FifoDepthState};
//!
//! let mut state = FifoDepthState::default();
//! let report = state.push(0, 80, FifoContribution { total: [100; 5], stream: [90; 5], substream: [90, 0, 0, 0] });
//! assert_eq!((report.depths, report.underrun), ([100; 5], None));
//! assert!(report.depths[0] <= Accumulator::Substream0.fba_cap());
//! ```
//!
//! Where it differs from the Rust's: a unit may be refused ([`FifoDepthState::try_push`]), and `push` panics there; a restart clears the slots too;
//! `Accumulator::group` is left out.
use std::fmt;

pub use raw::{MvDepth, MvLevels, MvPeak, MvRings, MvSubstreamDepth, MvWindow};

/// Number of depth accumulators, indexed by [`Accumulator`].
pub const ACCUMULATORS: usize = 5;

/// Substreams that are tracked.
pub const SUBSTREAMS: usize = 4;

const RING: usize = 128;

/// Which set of substreams an accumulator sums over.
#[derive(Clone, Copy, Debug, PartialEq, Eq)]
#[repr(usize)]
pub enum Accumulator {
    Substream0,
    Sixch,
    Eightch,
    Sixteench,
    WholeStream,
}

impl Accumulator {
    pub const ALL: [Accumulator; ACCUMULATORS] =
        [Accumulator::Substream0, Accumulator::Sixch, Accumulator::Eightch, Accumulator::Sixteench, Accumulator::WholeStream];

    /// Byte cap for FBA streams.
    pub fn fba_cap(&self) -> usize {
        // SAFETY: numbers alone.
        unsafe { raw::mv_fba_cap(*self as usize) }.bytes as usize
    }

    /// Byte cap for FBB streams, or `None` for the sums FBB never checks.
    pub fn fbb_cap(&self, substream_info: u8) -> Option<usize> {
        // SAFETY: numbers alone.
        let cap = unsafe { raw::mv_fbb_cap(*self as usize, substream_info) };
        (cap.checked != 0).then_some(cap.bytes as usize)
    }
}

/// Outcome of admitting one access unit to the window.
#[derive(Clone, Copy, Debug, Default, PartialEq, Eq)]
pub struct FifoDepthReport {
    /// Depth of each accumulator with the new access unit included.
    pub depths: [usize; ACCUMULATORS],
    /// Accumulator that held fewer bytes than the access unit leaving it, if any.
    pub underrun: Option<usize>,
}

/// What one access unit adds to the window: what an accumulator is capped on, the part of it that is substream payload, and each substream's own.
#[derive(Clone, Copy, Debug, Default)]
pub struct FifoContribution {
    pub total: [usize; ACCUMULATORS],
    pub stream: [usize; ACCUMULATORS],
    pub substream: [usize; SUBSTREAMS],
}

/// Deepest one accumulator has been, and what it held at that moment.
#[derive(Clone, Copy, Debug, Default, PartialEq, Eq)]
pub struct FifoPeak {
    pub total: usize,
    pub stream: usize,
    pub overhead: usize,
}

/// Why a call is refused; the window is as it was.
#[derive(Clone, Copy, Debug, PartialEq, Eq)]
pub enum Refused {
    /// Number 1: a slot number above 127, or a depth above 4,294,967,295. A [`FifoDepthState`] always fits.
    Record,
    /// Number 12: a contribution above 16,384.
    Contribution,
    /// Number 13: a depth plus its contribution above 4,294,967,295.
    Depth,
}

impl fmt::Display for Refused {
    fn fmt(&self, f: &mut fmt::Formatter<'_>) -> fmt::Result {
        f.write_str(match self {
            Refused::Record => "the window does not fit",
            Refused::Contribution => "a contribution is above 16,384",
            Refused::Depth => "a depth and its contribution are above 4,294,967,295",
        })
    }
}

impl std::error::Error for Refused {}

fn accepted(number: u32) -> Result<(), Refused> {
    match number {
        0 => Ok(()),
        1 => Err(Refused::Record),
        12 => Err(Refused::Contribution),
        13 => Err(Refused::Depth),
        _ => unreachable!("number {number} is no answer of a window"),
    }
}

/// The lowest 32 bits could be a small number where the whole is not.
fn bytes<const N: usize>(of: [usize; N]) -> [u32; N] {
    of.map(|n| u32::try_from(n).unwrap_or(u32::MAX))
}

/// Sliding-window byte occupancy of the decoder input FIFO.
#[derive(Clone, Copy, Debug)]
pub struct FifoDepthState {
    window: MvWindow,
}

impl Default for FifoDepthState {
    fn default() -> Self {
        // SAFETY: nothing is handed in.
        Self { window: unsafe { raw::mv_window_fresh() } }
    }
}

/// A window that was kept aside, or made by hand; [`Refused::Record`] where it does not fit.
impl TryFrom<MvWindow> for FifoDepthState {
    type Error = Refused;

    fn try_from(window: MvWindow) -> Result<Self, Refused> {
        // SAFETY: numbers alone.
        accepted(unsafe { raw::mv_window_buffered(window) }.number).map(|()| Self { window })
    }
}

impl From<FifoDepthState> for MvWindow {
    fn from(state: FifoDepthState) -> MvWindow {
        state.window
    }
}

impl FifoDepthState {
    /// Admits an access unit and evicts every record playback has strictly passed, as the Rust's does.
    ///
    /// # Panics
    /// Where [`Self::try_push`] refuses.
    #[track_caller]
    pub fn push(&mut self, playhead: usize, removal: usize, contribution: FifoContribution) -> FifoDepthReport {
        match self.try_push(playhead, removal, contribution) {
            Ok(report) => report,
            Err(refused) => panic!("push: {refused}"),
        }
    }

    /// Admits an access unit, or says why not; then nothing has changed.
    pub fn try_push(&mut self, playhead: usize, removal: usize, contribution: FifoContribution) -> Result<FifoDepthReport, Refused> {
        let unit = raw::MvContribution { total: bytes(contribution.total), stream: bytes(contribution.stream), substream: bytes(contribution.substream) };
        // SAFETY: numbers alone.
        let answer = unsafe { raw::mv_window_push(self.window, playhead as u64, removal as u64, unit) };
        accepted(answer.number)?;
        self.window = answer.window;
        Ok(FifoDepthReport { depths: answer.depths.map(|n| n as usize), underrun: (answer.underrun.present != 0).then_some(answer.underrun.accumulator) })
    }

    /// Deepest each accumulator has been over the stream.
    pub fn peaks(&self) -> [usize; ACCUMULATORS] {
        // SAFETY: numbers alone.
        unsafe { raw::mv_window_peaks(self.window) }.peaks.map(|n| n as usize)
    }

    /// Deepest each accumulator has been, with the stream and overhead parts it held then.
    pub fn peak_records(&self) -> [FifoPeak; ACCUMULATORS] {
        // SAFETY: numbers alone.
        let records = unsafe { raw::mv_window_peak_records(self.window) };
        records.peaks.map(|p| FifoPeak { total: p.total as usize, stream: p.stream as usize, overhead: p.overhead as usize })
    }

    /// Deepest each substream's own bytes have been, with no overhead priced in.
    pub fn substream_peaks(&self) -> [usize; SUBSTREAMS] {
        // SAFETY: numbers alone.
        unsafe { raw::mv_window_substream_peaks(self.window) }.peaks.map(|n| n as usize)
    }

    /// Drops every record in flight and starts the window again, keeping the peaks.
    pub fn restart(&mut self) {
        // SAFETY: numbers alone.
        self.window = unsafe { raw::mv_window_restart(self.window) }.window;
    }

    /// Access units currently held in the window.
    pub fn buffered(&self) -> usize {
        // SAFETY: numbers alone.
        unsafe { raw::mv_window_buffered(self.window) }.units
    }
}

/// include/mirvashen_window.h, line by line.
mod raw {
    use super::{ACCUMULATORS, RING, SUBSTREAMS};

    #[repr(C)]
    #[derive(Clone, Copy)]
    pub struct MvContribution {
        pub total: [u32; ACCUMULATORS],
        pub stream: [u32; ACCUMULATORS],
        pub substream: [u32; SUBSTREAMS],
    }

    #[repr(C)]
    #[derive(Clone, Copy, Debug, PartialEq, Eq)]
    pub struct MvPeak {
        pub total: u64,
        pub stream: u64,
        pub overhead: u64,
    }

    #[repr(C)]
    #[derive(Clone, Copy, Debug, PartialEq, Eq)]
    pub struct MvDepth {
        pub total: u64,
        pub stream: u64,
        pub peak: MvPeak,
    }

    #[repr(C)]
    #[derive(Clone, Copy, Debug, PartialEq, Eq)]
    pub struct MvSubstreamDepth {
        pub bytes: u64,
        pub peak: u64,
    }

    #[repr(C)]
    #[derive(Clone, Copy, Debug, PartialEq, Eq)]
    pub struct MvLevels {
        pub read: usize,
        pub write: usize,
        pub depth: [MvDepth; ACCUMULATORS],
        pub substream: [MvSubstreamDepth; SUBSTREAMS],
    }

    #[repr(C)]
    #[derive(Clone, Copy, Debug, PartialEq, Eq)]
    pub struct MvRings {
        pub removal: [u64; RING],
        pub total: [[u32; RING]; ACCUMULATORS],
        pub stream: [[u32; RING]; ACCUMULATORS],
        pub substream: [[u32; RING]; SUBSTREAMS],
    }

    #[repr(C)]
    #[derive(Clone, Copy, Debug, PartialEq, Eq)]
    pub struct MvWindow {
        pub rings: MvRings,
        pub levels: MvLevels,
    }

    #[repr(C)]
    pub struct MvUnderrun {
        pub accumulator: usize,
        pub present: u8,
    }

    #[repr(C)]
    pub struct MvPushed {
        pub window: MvWindow,
        pub depths: [u64; ACCUMULATORS],
        pub underrun: MvUnderrun,
        pub number: u32,
    }

    #[repr(C)]
    pub struct MvRestarted {
        pub window: MvWindow,
        pub number: u32,
    }

    #[repr(C)]
    pub struct MvBuffered {
        pub units: usize,
        pub number: u32,
    }

    #[repr(C)]
    pub struct MvPeaks {
        pub peaks: [u64; ACCUMULATORS],
        pub number: u32,
    }

    #[repr(C)]
    pub struct MvPeakRecords {
        pub peaks: [MvPeak; ACCUMULATORS],
        pub number: u32,
    }

    #[repr(C)]
    pub struct MvSubstreamPeaks {
        pub peaks: [u64; SUBSTREAMS],
        pub number: u32,
    }

    #[repr(C)]
    pub struct MvCap {
        pub bytes: u64,
        pub checked: u8,
        pub known: u8,
    }

    extern "C" {
        pub fn mv_window_fresh() -> MvWindow;
        pub fn mv_window_push(window: MvWindow, playhead: u64, removal: u64, contribution: MvContribution) -> MvPushed;
        pub fn mv_window_restart(window: MvWindow) -> MvRestarted;
        pub fn mv_window_buffered(window: MvWindow) -> MvBuffered;
        pub fn mv_window_peaks(window: MvWindow) -> MvPeaks;
        pub fn mv_window_peak_records(window: MvWindow) -> MvPeakRecords;
        pub fn mv_window_substream_peaks(window: MvWindow) -> MvSubstreamPeaks;
        pub fn mv_fba_cap(accumulator: usize) -> MvCap;
        pub fn mv_fbb_cap(accumulator: usize, substream_info: u8) -> MvCap;
    }

    /// The calls on what is no [`super::FifoDepthState`]: a window that does not fit, an accumulator that there is not.
    #[cfg(test)]
    mod tests {
        use super::*;

        fn forged() -> Vec<MvWindow> {
            let fresh = unsafe { mv_window_fresh() };
            let mut all = vec![fresh; 16];
            all[0].levels.read = 128;
            all[1].levels.write = usize::MAX;
            for k in 0..ACCUMULATORS {
                all[2 + k].levels.depth[k].total = 4_294_967_296;
                all[7 + k].levels.depth[k].stream = u64::MAX;
            }
            for i in 0..SUBSTREAMS {
                all[12 + i].levels.substream[i].bytes = 4_294_967_296;
            }
            all
        }

        #[test]
        fn a_forged_window_is_number_1_and_comes_back() {
            // 12 and 13 hold as well: number 1 is tested first.
            let unit = MvContribution { total: [u32::MAX; 5], stream: [0; 5], substream: [0; 4] };
            for window in forged() {
                let pushed = unsafe { mv_window_push(window, 1, 0, unit) };
                assert_eq!((pushed.number, pushed.window), (1, window));
                assert_eq!((pushed.depths, pushed.underrun.accumulator, pushed.underrun.present), ([0; 5], 0, 0));
                let restarted = unsafe { mv_window_restart(window) };
                assert_eq!((restarted.number, restarted.window), (1, window));
                let buffered = unsafe { mv_window_buffered(window) };
                assert_eq!((buffered.number, buffered.units), (1, 0));
                let peaks = unsafe { mv_window_peaks(window) };
                assert_eq!((peaks.number, peaks.peaks), (1, [0; 5]));
                let records = unsafe { mv_window_peak_records(window) };
                assert_eq!((records.number, records.peaks), (1, [MvPeak { total: 0, stream: 0, overhead: 0 }; 5]));
                let substreams = unsafe { mv_window_substream_peaks(window) };
                assert_eq!((substreams.number, substreams.peaks), (1, [0; 4]));
            }
        }

        #[test]
        fn there_is_no_sixth_accumulator() {
            for accumulator in [5, 6, usize::MAX] {
                for cap in unsafe { [mv_fba_cap(accumulator), mv_fbb_cap(accumulator, 4)] } {
                    assert_eq!((cap.bytes, cap.checked, cap.known), (0, 0, 0));
                }
            }
            let none = unsafe { mv_fbb_cap(2, 4) };
            assert_eq!((none.bytes, none.checked, none.known), (0, 0, 1));
        }
    }
}
