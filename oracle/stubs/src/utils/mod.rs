// Stub: the list of modules, and a window into the extractor's private fields.
pub mod bitstream_io;
pub mod buffer_pool;
pub mod crc;
pub mod diagnostic;
pub mod errors;
pub mod fifo;
pub mod timing;

/// The same file a second time, so that a child module can read what is private in it. Nothing of it is changed.
pub mod opened {
    include!("../process/extract.rs");

    pub mod state {
        use super::Extractor;
        use crate::structs::timestamp::Timestamp;

        #[derive(Clone, Debug)]
        pub struct Record {
            pub consumed: u64,
            pub locked: bool,
            pub seen: bool,
            pub substreams: usize,
            pub frames: usize,
            pub errors: usize,
            pub unanswered: usize,
            pub unread: usize,
            pub waiting: Option<Timestamp>,
        }

        pub fn record(e: &Extractor) -> Record {
            Record {
                consumed: e.stream_position(),
                locked: e.locked,
                seen: e.inited,
                substreams: e.substreams,
                frames: e.frames_processed,
                errors: e.error_count(),
                unanswered: e.io_counter,
                unread: e.buffered_len(),
                waiting: e.timestamp(),
            }
        }
    }
}
