//! A line for each unit, each spoken error and the end of a stream: cargo run --release --example report FILE [PIECE].
use mirvashen::{Extractor, PIECE};
use std::io::Read;

fn main() -> std::io::Result<()> {
    let mut words = std::env::args().skip(1);
    let path = words.next().expect("report FILE [PIECE]");
    let most = words.next().map_or(65_536, |n| n.parse::<usize>().expect("PIECE is a number")).clamp(1, PIECE);
    let mut file = std::fs::File::open(path)?;
    let mut piece = vec![0; most];
    let mut extractor = Extractor::default();
    loop {
        let n = file.read(&mut piece)?;
        if n == 0 {
            break;
        }
        extractor.push_bytes(&piece[..n]);
        loop {
            match extractor.next_unit() {
                Some(Ok(u)) => println!(
                    "AU {} {} {} {} {}",
                    u.index,
                    u.offset,
                    u.data.len(),
                    if u.is_major_sync() { "major" } else { "minor" },
                    if u.timestamp.is_some() { "ts" } else { "-" }
                ),
                Some(Err(mirvashen::ExtractError::InsufficientData)) | None => break,
                Some(Err(mirvashen::ExtractError::InvalidAccessUnitLength { .. })) => println!("BAD 5 {}", extractor.stream_position()),
                Some(Err(mirvashen::ExtractError::ParityCheckFailed)) => println!("BAD 6 {}", extractor.stream_position()),
            }
        }
    }
    println!("END {} {}", extractor.stream_position(), extractor.error_count());
    Ok(())
}
