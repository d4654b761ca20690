//! The proved reader of lines alone, called from Rust.

mod library {
    extern "C" {
        pub fn read_lines(file: *const u8, file_len: usize) -> u64;
    }
}

/// The same as `tight_reader::read_lines`.
pub fn read_lines(file: &[u8]) -> u64 {
    // SAFETY: a slice is valid for its length, and the call does not keep it.
    unsafe { library::read_lines(file.as_ptr(), file.len()) }
}
