//! Steps, restarts, refusals and caps of the depth window; a plain model beside it.
use mirvashen::window::{Accumulator, FifoContribution, FifoDepthReport, FifoDepthState, FifoPeak, MvWindow, Refused};
use std::collections::VecDeque;

fn unit(total: usize, stream: usize) -> FifoContribution {
    FifoContribution { total: [total; 5], stream: [stream; 5], substream: [stream, 0, 1, 2] }
}

fn depths(depth: usize) -> FifoDepthReport {
    FifoDepthReport { depths: [depth; 5], underrun: None }
}

#[test]
fn a_playhead_equal_to_the_removal_drains_nothing() {
    let mut state = FifoDepthState::default();
    assert_eq!(state.buffered(), 0);
    assert_eq!(state.push(0, 80, unit(100, 90)), depths(100));
    assert_eq!(state.push(80, 160, unit(50, 45)), depths(150));
    assert_eq!(state.buffered(), 2);
    assert_eq!(state.push(81, 240, unit(10, 9)), depths(60));
    assert_eq!(state.buffered(), 2);
    assert_eq!(state.peaks(), [150; 5]);
    assert_eq!(state.peak_records(), [FifoPeak { total: 150, stream: 135, overhead: 15 }; 5]);
    assert_eq!(state.substream_peaks(), [135, 0, 2, 4]);
}

#[test]
fn an_underrun_names_the_highest_accumulator() {
    let mut state = FifoDepthState::default();
    // The unit is written and drained before it is added.
    let three = FifoContribution { total: [7, 0, 0, 7, 0], ..unit(0, 0) };
    assert_eq!(state.push(1, 0, three), FifoDepthReport { depths: [7, 0, 0, 7, 0], underrun: Some(3) });
    let first = FifoContribution { total: [8, 0, 0, 0, 0], ..unit(0, 0) };
    assert_eq!(state.push(1, 0, first), FifoDepthReport { depths: [8, 0, 0, 7, 0], underrun: Some(0) });
}

#[test]
fn a_restart_drops_the_units_and_keeps_the_peaks() {
    let mut state = FifoDepthState::default();
    state.push(0, 80, unit(100, 90));
    let peaks = (state.peaks(), state.peak_records(), state.substream_peaks());
    state.restart();
    assert_eq!(state.buffered(), 0);
    assert_eq!((state.peaks(), state.peak_records(), state.substream_peaks()), peaks);
    assert_eq!(state.push(0, 80, unit(3, 2)), depths(3));
    // As new, peaks excepted: the slots too.
    let mut kept: MvWindow = FifoDepthState::default().into();
    for (k, p) in peaks.1.iter().enumerate() {
        kept.levels.depth[k].peak.total = p.total as u64;
        kept.levels.depth[k].peak.stream = p.stream as u64;
        kept.levels.depth[k].peak.overhead = p.overhead as u64;
    }
    for (i, &p) in peaks.2.iter().enumerate() {
        kept.levels.substream[i].peak = p as u64;
    }
    state.restart();
    assert_eq!(MvWindow::from(state), kept);
}

#[test]
fn a_contribution_above_16384_is_refused_and_nothing_changes() {
    let mut state = FifoDepthState::default();
    assert_eq!(state.try_push(0, 80, unit(16_384, 16_384)), Ok(depths(16_384)));
    let before = MvWindow::from(state);
    for n in [16_385, 1 << 32, usize::MAX] {
        let mut units = vec![unit(0, 0); 14];
        for k in 0..5 {
            units[k].total[k] = n;
            units[5 + k].stream[k] = n;
        }
        for i in 0..4 {
            units[10 + i].substream[i] = n;
        }
        for unit in units {
            assert_eq!(state.try_push(1000, 1000, unit), Err(Refused::Contribution));
            assert_eq!(MvWindow::from(state), before);
        }
    }
}

#[test]
fn a_depth_above_4294967295_is_refused_and_nothing_changes() {
    let mut state = FifoDepthState::default();
    for _ in 0..262_143 {
        state.push(0, 0, unit(16_384, 0));
    }
    let before = MvWindow::from(state);
    assert_eq!(state.try_push(0, 0, unit(16_384, 0)), Err(Refused::Depth));
    // The depths before the drain are compared.
    assert_eq!(state.try_push(1, 0, unit(16_384, 0)), Err(Refused::Depth));
    assert_eq!(MvWindow::from(state), before);
    assert_eq!(state.try_push(0, 0, unit(16_383, 0)), Ok(depths(4_294_967_295)));
}

#[test]
#[should_panic(expected = "a contribution is above 16,384")]
fn push_panics_where_it_is_refused() {
    FifoDepthState::default().push(0, 0, unit(16_385, 0));
}

#[test]
fn a_window_kept_aside_goes_on_and_a_forged_one_is_refused() {
    let mut state = FifoDepthState::default();
    state.push(0, 80, unit(100, 90));
    let aside = MvWindow::from(state);
    let mut again = FifoDepthState::try_from(aside).unwrap();
    assert_eq!(again.push(81, 160, unit(1, 1)), state.push(81, 160, unit(1, 1)));
    assert_eq!(MvWindow::from(again), MvWindow::from(state));
    let refused = |forge: fn(&mut MvWindow)| {
        let mut window = aside;
        forge(&mut window);
        assert_eq!(FifoDepthState::try_from(window).err(), Some(Refused::Record));
    };
    refused(|w| w.levels.read = 128);
    refused(|w| w.levels.write = 128);
    refused(|w| w.levels.depth[4].total = 4_294_967_296);
    refused(|w| w.levels.depth[0].stream = u64::MAX);
    refused(|w| w.levels.substream[3].bytes = 4_294_967_296);
}

#[test]
fn the_caps_are_document_01s() {
    assert_eq!(Accumulator::ALL.map(|a| a.fba_cap()), [30_000, 90_000, 120_000, 120_000, 120_000]);
    let table = [90_000, 30_000, 0, 30_000, 0, 0, 0, 0, 0];
    for info in 0..=255u8 {
        let at = |last| match info % 16 {
            13 => last,
            nibble => nibble.checked_sub(4).and_then(|i| table.get(i as usize)).copied().unwrap_or(0),
        };
        let caps = Accumulator::ALL.map(|a| a.fbb_cap(info));
        assert_eq!(caps, [Some(at(30_000)), Some(at(90_000)), None, None, Some(at(90_000))], "{info}");
    }
}

/// Fewer than 128 units in flight and each removed after it came: a plain queue says the same.
#[test]
fn ten_thousand_steps_are_a_queues() {
    let mut x = 0x9E37_79B9_7F4A_7C15u64;
    let mut random = move |below: usize| {
        x ^= x << 13;
        x ^= x >> 7;
        x ^= x << 17;
        (x >> 33) as usize % below
    };
    let mut state = FifoDepthState::default();
    let mut queue: VecDeque<(usize, [usize; 5])> = VecDeque::new();
    let mut peaks = [0; 5];
    for step in 1..=10_000 {
        let playhead = step * 40;
        let total = [(); 5].map(|()| random(16_385));
        // In the order of removal, as units are played out.
        let removal = queue.back().map_or(0, |u| u.0).max(playhead + random(4000));
        queue.push_back((removal, total));
        while queue.front().is_some_and(|u| playhead > u.0) {
            queue.pop_front();
        }
        let sums = [0, 1, 2, 3, 4].map(|k| queue.iter().map(|u| u.1[k]).sum::<usize>());
        peaks = [0, 1, 2, 3, 4].map(|k| sums[k].max(peaks[k]));
        assert!(queue.len() < 128);
        assert_eq!(state.push(playhead, removal, FifoContribution { total, ..unit(0, 0) }), FifoDepthReport { depths: sums, underrun: None });
        assert_eq!(state.buffered(), queue.len());
        assert_eq!(state.peaks(), peaks);
    }
}
