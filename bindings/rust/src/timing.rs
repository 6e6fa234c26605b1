//! Start timing behind the names of truehdd's `utils/timing.rs`: `HiresOutputTimingState`, its `fault`, `update` and `reset_for_branch`. The work is
//! done by the proved static library; what stands here lends it the record, and is not proved.
//!
//! ```
//! use mirvashen::timing::{HiresOutputTimingState, TimingContext};
//!
//! let mut state = HiresOutputTimingState::default();
//! let mut start = None;
//! for (au_index, bit) in "00000111100000".bytes().enumerate() {
//!     let ctx = TimingContext { au_index, samples_per_au: 40, output_timing: 800 + 40 * au_index, ..Default::default() };
//!     start = start.or(state.update(&ctx, bit == b'1'));
//! }
//! assert_eq!(start, Some(197_408));
//! ```
//!
//! Where it differs from the Rust's: a record can be taken from words ([`HiresOutputTimingState::from_words`]) that don't fit, which
//! [`HiresOutputTimingState::try_update`] refuses, and `update` panics there, as the Rust's does in a state that it doesn't know.
use std::fmt;

mod raw {
    //! include/mirvashen_timing.h, line by line.

    #[repr(C)]
    #[derive(Clone, Copy, Debug, Default, PartialEq, Eq)]
    pub struct MvTiming {
        pub state: u64,
        pub counter: u64,
        pub bits: u64,
        pub timing: u64,
        pub unit: u64,
        pub output: u64,
        pub previous_timing: u64,
        pub previous_unit: u64,
        pub previous_output: u64,
        pub fault: u64,
        pub fault_timing: u64,
        pub fault_unit: u64,
        pub fault_previous_timing: u64,
        pub fault_previous_unit: u64,
    }

    #[repr(C)]
    #[derive(Clone, Copy)]
    pub struct MvTimingAnswer {
        pub number: u32,
        pub start: u32,
        pub present: u8,
    }

    extern "C" {
        pub fn mv_timing_fresh(timing: *mut MvTiming);
        pub fn mv_timing_update(timing: *mut MvTiming, unit: u64, samples: u64, output: u64, bit: u8) -> MvTimingAnswer;
        pub fn mv_timing_reset_for_branch(timing: *mut MvTiming) -> u32;
    }
}

use raw::MvTiming;

/// The stream facts a field decode needs.
#[derive(Debug, Default, Clone, Copy)]
pub struct TimingContext {
    pub au_index: usize,
    pub samples_per_au: usize,
    /// Not read, here as in the Rust.
    pub substream_index: usize,
    pub output_timing: usize,
}

/// What a step found wrong. Both name the access unit that the field started in, not the one where the fault surfaced.
#[derive(Debug, Clone, Copy, PartialEq, Eq)]
pub enum HiresTimingFault {
    /// The serialisation is malformed: the field's own access unit, and why.
    Malformed { au: usize, reason: &'static str },
    /// The field decodes, but does not continue the one before it.
    Sequence { timing: usize, au: usize, prev_timing: usize, prev_au: usize },
}

fn fault(timing: &MvTiming) -> Option<HiresTimingFault> {
    let malformed = |reason| Some(HiresTimingFault::Malformed { au: timing.fault_unit as usize, reason });
    match timing.fault {
        1 => malformed("extra 0 after the data field end"),
        2 => malformed("extra 0 in the datafield"),
        3 => malformed("invalid 0 in the datafield"),
        4 => Some(HiresTimingFault::Sequence {
            timing: timing.fault_timing as usize,
            au: timing.fault_unit as usize,
            prev_timing: timing.fault_previous_timing as usize,
            prev_au: timing.fault_previous_unit as usize,
        }),
        _ => None,
    }
}

/// Number 1: the record doesn't fit, and is as it was. Never given to a record that began as [`HiresOutputTimingState::default`].
#[derive(Debug, Clone, Copy, PartialEq, Eq)]
pub struct Refused;

impl fmt::Display for Refused {
    fn fmt(&self, f: &mut fmt::Formatter<'_>) -> fmt::Result {
        f.write_str("the timing record has a state above 15, a counter above 3 or a bit count above 65,535")
    }
}

impl std::error::Error for Refused {}

#[derive(Debug, Clone, Copy)]
pub struct HiresOutputTimingState {
    /// Set where the last step found something to report.
    pub fault: Option<HiresTimingFault>,
    timing: MvTiming,
}

impl Default for HiresOutputTimingState {
    fn default() -> Self {
        let mut timing = MvTiming::default();
        // SAFETY: the pointer is a writable record's.
        unsafe { raw::mv_timing_fresh(&mut timing) };
        Self { fault: None, timing }
    }
}

impl HiresOutputTimingState {
    /// Feeds one access unit's bit and returns the stream's start timing when the first field completes.
    ///
    /// # Panics
    /// Where [`Self::try_update`] refuses.
    #[inline]
    #[track_caller]
    pub fn update(&mut self, ctx: &TimingContext, hires_present: bool) -> Option<usize> {
        match self.try_update(ctx, hires_present) {
            Ok(start) => start,
            Err(refused) => panic!("update: {refused}"),
        }
    }

    /// As [`Self::update`], or says that the record doesn't fit; then nothing has changed.
    #[inline]
    pub fn try_update(&mut self, ctx: &TimingContext, hires_present: bool) -> Result<Option<usize>, Refused> {
        // SAFETY: the pointer is a writable record's, borrowed mutably here.
        let answer = unsafe {
            raw::mv_timing_update(&mut self.timing, ctx.au_index as u64, ctx.samples_per_au as u64, ctx.output_timing as u64, hires_present as u8)
        };
        if answer.number != 0 {
            return Err(Refused);
        }
        self.fault = None;
        if self.timing.fault != 0 {
            self.tell_fault();
        }
        Ok((answer.present != 0).then_some(answer.start as usize))
    }

    /// Out of line: most steps find nothing wrong.
    #[cold]
    fn tell_fault(&mut self) {
        self.fault = fault(&self.timing);
    }

    /// At a branch the bits begin anew.
    ///
    /// # Panics
    /// Where [`Self::try_reset_for_branch`] refuses.
    #[track_caller]
    pub fn reset_for_branch(&mut self) {
        if let Err(refused) = self.try_reset_for_branch() {
            panic!("reset_for_branch: {refused}");
        }
    }

    /// As [`Self::reset_for_branch`], or says that the record doesn't fit; then nothing has changed.
    pub fn try_reset_for_branch(&mut self) -> Result<(), Refused> {
        // SAFETY: the pointer is a writable record's, borrowed mutably here.
        if unsafe { raw::mv_timing_reset_for_branch(&mut self.timing) } != 0 {
            return Err(Refused);
        }
        self.fault = None;
        Ok(())
    }

    /// The record as its fourteen words, in the header's order: to be kept, and taken again by [`Self::from_words`].
    pub fn words(&self) -> [u64; 14] {
        let t = &self.timing;
        [
            t.state, t.counter, t.bits, t.timing, t.unit, t.output, t.previous_timing, t.previous_unit, t.previous_output,
            t.fault, t.fault_timing, t.fault_unit, t.fault_previous_timing, t.fault_previous_unit,
        ]
    }

    /// The record that any fourteen words say.
    pub fn from_words(w: [u64; 14]) -> Self {
        let timing = MvTiming {
            state: w[0], counter: w[1], bits: w[2], timing: w[3], unit: w[4], output: w[5], previous_timing: w[6], previous_unit: w[7],
            previous_output: w[8], fault: w[9], fault_timing: w[10], fault_unit: w[11], fault_previous_timing: w[12], fault_previous_unit: w[13],
        };
        Self { fault: fault(&timing), timing }
    }
}
