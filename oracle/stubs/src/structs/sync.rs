// Stub: the given file needs the parser. `build` compares these two lines with the given file's.
pub const MAJOR_SYNC_FBA: u32 = 0xF8_72_6F_BA;
pub const MAJOR_SYNC_FBB: u32 = 0xF8_72_6F_BB;
