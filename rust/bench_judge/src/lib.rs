//! The proved judge for Rust, and tables to judge.
pub mod tables;

extern "C" {
    fn filebox_judge(table: *const u8, length: usize) -> u8;
}

/// Document 01's number for the table: 1 if it is not sized, 2 if it is not sound, and else 0.
pub fn judge(table: &[u8]) -> u8 {
    // Sound: the pointer is to as many bytes as the length beside it says, which are only read.
    unsafe { filebox_judge(table.as_ptr(), table.len()) }
}
