// Stub: the four fields that start timing's snapshot reads.
#[derive(Default)]
pub struct ParserState {
    pub au_counter: usize,
    pub samples_per_au: usize,
    pub substream_index: usize,
    pub output_timing: usize,
}
