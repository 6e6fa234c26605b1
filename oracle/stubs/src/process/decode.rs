// Stub: the decoder stays behind.
