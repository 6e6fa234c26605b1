//! Start timing: steps, document 01's P8, every fault, a sequence of fields, branch resets, records that don't fit.
use mirvashen::timing::{HiresOutputTimingState, HiresTimingFault, Refused, TimingContext};

/// Feeds bits from unit `first` on, 40 samples a unit, and gives the starts with the units where they came.
fn feed(state: &mut HiresOutputTimingState, first: usize, bits: &str) -> Vec<(usize, usize)> {
    let mut starts = vec![];
    for (i, bit) in bits.bytes().enumerate() {
        let ctx = TimingContext { au_index: first + i, samples_per_au: 40, substream_index: 0, output_timing: 800 + 40 * (first + i) };
        if let Some(start) = state.update(&ctx, bit == b'1') {
            starts.push((first + i, start));
        }
    }
    starts
}

#[test]
fn the_first_fields_end_gives_the_start_of_p8() {
    let mut state = HiresOutputTimingState::default();
    assert_eq!(state.words(), [0; 14]);
    assert_eq!(feed(&mut state, 0, "00000111100000"), [(13, 197_408)]);
    assert_eq!(state.fault, None);
    // State 5, one field, and the field as the previous one: timing 3, from unit 5 with output timing 1,000.
    assert_eq!(state.words(), [5, 1, 2, 3, 5, 1000, 3, 5, 1000, 0, 0, 0, 0, 0]);
}

#[test]
fn a_field_that_does_not_continue_the_one_before_it_is_a_sequence_fault_and_the_next_gives_a_start() {
    let mut state = HiresOutputTimingState::default();
    feed(&mut state, 0, "00000111100000");
    assert_eq!(feed(&mut state, 14, "11100000"), []);
    assert_eq!(state.fault, Some(HiresTimingFault::Sequence { timing: 1, au: 14, prev_timing: 3, prev_au: 5 }));
    assert_eq!(state.words(), [5, 0, 1, 1, 14, 1360, 3, 5, 1000, 4, 1, 14, 3, 5]);
    // Timing 3 from unit 22, whose output timing is 1,680: 3 * 65,536 + 1,680 - 22 * 40.
    assert_eq!(feed(&mut state, 22, "111100000"), [(30, 197_408)]);
    assert_eq!(state.fault, None);
}

#[test]
fn a_field_that_continues_is_quiet() {
    let mut state = HiresOutputTimingState::default();
    feed(&mut state, 0, "00000111100000");
    assert_eq!(feed(&mut state, 14, "111100000"), []);
    assert_eq!(state.fault, None);
    assert_eq!(state.words()[..2], [5, 2]);
}

#[test]
fn each_fault_in_the_form_names_the_unit_that_the_field_began_in_and_the_next_step_drops_it() {
    let malformed = |au, reason| Some(HiresTimingFault::Malformed { au, reason });
    for (bits, fault, code) in [
        ("000000", malformed(0, "extra 0 in the datafield"), 2),
        ("00000100000", malformed(5, "invalid 0 in the datafield"), 3),
        ("000001111000000", malformed(5, "extra 0 after the data field end"), 1),
    ] {
        let mut state = HiresOutputTimingState::default();
        feed(&mut state, 0, bits);
        assert_eq!(state.fault, fault, "{bits}");
        assert_eq!((state.words()[0], state.words()[9]), (0, code), "{bits}");
        feed(&mut state, bits.len(), "1");
        assert_eq!(state.fault, None, "{bits}");
        assert_eq!(state.words()[9..], [0; 5], "{bits}");
    }
}

#[test]
fn a_branch_reset_sets_state_counter_and_fault_only() {
    let mut state = HiresOutputTimingState::default();
    feed(&mut state, 0, "0000011110000011100000");
    assert!(state.fault.is_some());
    state.reset_for_branch();
    assert_eq!(state.fault, None);
    assert_eq!(state.words(), [0, 0, 1, 1, 14, 1360, 3, 5, 1000, 0, 0, 0, 0, 0]);
    // The lead-in begins anew, and the next field gives a start: timing 3 from unit 27, output timing 1,880.
    assert_eq!(feed(&mut state, 22, "00000111100000"), [(35, 197_408)]);
}

#[test]
fn a_record_that_does_not_fit_is_refused_and_unchanged_however_wide_its_words() {
    let ctx = TimingContext { au_index: 7, samples_per_au: 40, substream_index: 0, output_timing: 0 };
    for (at, least) in [(0, 16), (1, 4), (2, 65_536)] {
        for word in [least, 256, 1 << 16, 1 << 32, u64::MAX] {
            if word < least {
                continue;
            }
            let mut words = [9, 2, 65_535, 1, 2, 3, 4, 5, 6, 77, 8, 9, 10, 11];
            words[at] = word;
            let mut state = HiresOutputTimingState::from_words(words);
            for bit in [false, true] {
                assert_eq!(state.try_update(&ctx, bit), Err(Refused), "word {at} is {word}");
                assert_eq!(state.words(), words);
            }
            assert_eq!(state.try_reset_for_branch(), Err(Refused), "word {at} is {word}");
            assert_eq!(state.words(), words);
        }
    }
}

#[test]
fn the_greatest_record_that_fits_is_taken_and_its_forged_fault_is_dropped() {
    let ctx = TimingContext { au_index: 7, samples_per_au: 40, substream_index: 0, output_timing: 0 };
    let mut state = HiresOutputTimingState::from_words([15, 3, 65_535, 1, 2, 3, 4, 5, 6, u64::MAX, 8, 9, 10, 11]);
    assert_eq!(state.try_update(&ctx, true), Ok(None));
    // Five bits more: 1 * 32 + 16; the bit count stops.
    assert_eq!(state.words(), [6, 3, 65_535, 48, 2, 3, 4, 5, 6, 0, 0, 0, 0, 0]);
}

#[test]
#[should_panic(expected = "state above 15")]
fn update_panics_where_it_is_refused_as_the_rusts_does() {
    let mut words = [0; 14];
    words[0] = 16;
    HiresOutputTimingState::from_words(words).update(&TimingContext::default(), true);
}
