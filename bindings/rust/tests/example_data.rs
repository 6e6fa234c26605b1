//! Document 01's report of EXAMPLE_DATA, whole and in pieces; refusals; forged records.
use mirvashen::raw::{self, MvReader, MvTimestamp, MvUnit};
use mirvashen::{ExtractError, Extractor, PushError, Timestamp, BUFFER, PIECE};

fn example_data() -> Vec<u8> {
    include_bytes!("../../../examples/example_data").to_vec()
}

fn report(data: &[u8], piece: usize) -> String {
    let mut extractor = Extractor::default();
    let mut text = String::new();
    for piece in data.chunks(piece) {
        extractor.push_bytes(piece);
        while let Some(answer) = extractor.next() {
            match answer {
                Ok(f) => {
                    let kind = if f.is_major_sync() { "major" } else { "minor" };
                    let stamp = if f.timestamp.is_some() { "ts" } else { "-" };
                    assert_eq!(f.as_ref(), &data[f.offset as usize..f.offset as usize + f.data.len()]);
                    text += &format!("AU {} {} {} {kind} {stamp}\n", f.index, f.offset, f.data.len());
                }
                Err(ExtractError::InsufficientData) => break,
                Err(e) => text += &format!("BAD {e} {}\n", extractor.stream_position()),
            }
        }
    }
    text + &format!("END {} {}\n", extractor.stream_position(), extractor.error_count())
}

#[test]
fn any_cutting_of_the_example_gives_document_01s_report() {
    let data = example_data();
    for piece in 1..=data.len() {
        assert_eq!(report(&data, piece), "AU 0 16 84 major ts\nAU 1 100 20 minor -\nEND 120 0\n", "pieces of {piece}");
    }
}

#[test]
fn an_empty_stream_ends_at_zero() {
    assert_eq!(report(&[], 1), "END 0 0\n");
}

#[test]
fn the_timestamp_waits_for_the_first_unit_and_goes_with_it() {
    let data = example_data();
    let mut extractor = Extractor::default();
    extractor.push_bytes(&data[..60]);
    assert!(extractor.next().is_none());
    let expected = Timestamp { hours: 1, minutes: 23, seconds: 45, frames: 16, samples: 0x19, reserved1: 0, framerate: 4, reserved2: false, dropframe: true };
    assert_eq!(extractor.timestamp(), Some(expected));
    extractor.push_bytes(&data[60..]);
    assert_eq!(extractor.next().unwrap().unwrap().timestamp, Some(expected));
    assert_eq!(extractor.timestamp(), None);
}

#[test]
fn a_quiet_loss_is_counted() {
    let mut data = example_data();
    data[16] ^= 0x10; // the first unit's parity
    assert_eq!(report(&data, 120).lines().last(), Some("END 113 1"));
}

#[test]
fn a_piece_too_long_is_refused_and_nothing_changes() {
    let mut extractor = Extractor::default();
    extractor.push_bytes(&[0; 9]);
    let before = format!("{extractor:?}");
    assert_eq!(extractor.try_push(&vec![0; BUFFER - 8]), Err(PushError::Room));
    assert_eq!(format!("{extractor:?}"), before);
    extractor.push_bytes(&vec![0; PIECE]);
}

#[test]
fn the_65536th_unanswered_push_is_refused() {
    let mut extractor = Extractor::default();
    for _ in 0..65_535 {
        extractor.push_bytes(&[]);
    }
    assert_eq!(extractor.try_push(&[]), Err(PushError::Pushes));
}

/// One request on a copy of the record: the number, the record and the unit after it.
fn ask(reader: MvReader, buffer: &[u8]) -> (u32, MvReader, MvUnit) {
    let (mut reader, mut unit) = (reader, MvUnit { start: 5, minimum: 6, ..MvUnit::default() });
    let number = unsafe { raw::mv_next(&mut reader, buffer.as_ptr(), buffer.len(), &mut unit) };
    (number, reader, unit)
}

#[test]
fn a_forged_record_is_number_1_and_nothing_is_written() {
    let mut buffer = vec![7; 8192];
    let fit = MvReader::default();
    assert_eq!(ask(fit, &buffer).0, 8);
    for forged in [
        MvReader { start: 1, ..fit },
        MvReader { end: u64::MAX, ..fit },
        MvReader { end: 8193, accepted: 8193, ..fit },
        MvReader { accepted: 1, ..fit },
        MvReader { accepted: u64::MAX, consumed: u64::MAX, ..fit },
        MvReader { frames: u64::MAX, errors: 1, ..fit },
        MvReader { unanswered: 65_536, ..fit },
        MvReader { unanswered: 1 << 32, ..fit },
        MvReader { substreams: 16, ..fit },
        MvReader { substreams: 256, ..fit },
        MvReader { locked: 1, ..fit },
        MvReader { locked: 77, zeros: 9, ..fit },
    ] {
        let (number, reader, unit) = ask(forged, &buffer);
        assert_eq!((number, reader), (1, forged));
        assert_eq!(unit, MvUnit { start: 5, minimum: 6, ..MvUnit::default() });
        let mut reader = forged;
        assert_eq!(unsafe { raw::mv_push_bytes(&mut reader, buffer.as_mut_ptr(), 8192, [1u8, 2].as_ptr(), 2) }, 1);
        assert_eq!(reader, forged);
    }
    assert!(buffer.iter().all(|&b| b == 7));
    for length in [0, 8191, 1_048_577] {
        let long = vec![0u8; length];
        let mut reader = MvReader { frames: 9, ..fit };
        assert_eq!(unsafe { raw::mv_open(&mut reader, long.as_ptr(), length, 0x2D, 0, 0) }, 1);
        assert_eq!(reader, MvReader { frames: 9, ..fit });
        assert_eq!(ask(fit, &long).0, 1);
    }
}

#[test]
fn any_word_but_zero_is_yes_and_a_rate_code_is_kept() {
    let buffer = vec![0; 8192];
    let stamp = MvTimestamp { hours: 65_535, framerate: 200, present: 255, reserved2: 2, dropframe: 128, ..MvTimestamp::default() };
    let odd = MvReader { locked: 77, seen: 3, zeros: 9, unused: 4, timestamp: stamp, ..MvReader::default() };
    let (number, reader, _) = ask(odd, &buffer);
    let stamp = MvTimestamp { present: 1, reserved2: 1, dropframe: 1, ..stamp };
    assert_eq!((number, reader), (8, MvReader { locked: 1, seen: 1, timestamp: stamp, ..odd }));
    let absent = MvReader { timestamp: MvTimestamp { present: 0, ..stamp }, ..MvReader::default() };
    assert_eq!(ask(absent, &buffer).1, absent);
}
