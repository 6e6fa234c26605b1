// Stub: of the structures only what the extractor names.
pub mod sync;
pub mod timestamp;
