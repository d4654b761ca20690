//! The proved checker and the proved evaluator, called from Rust.

/// "The reply buffer becomes 28 bytes": seven numbers "of four bytes each, low
/// byte first".
pub const REPLY_BYTES: usize = 28;

/// Refusal number, line, T lines, A lines plus clauses, S lines, closings,
/// place. The answer is yes when the number is 0.
pub type Numbers = [u32; REPLY_BYTES / 4];

/// The evaluator's reply buffer: three numbers of four bytes each, low byte
/// first.
pub const EVALUATION_BYTES: usize = 12;

mod library {
    extern "C" {
        /// `include/tabcheck.h` says what the numbers are, and what a caller
        /// guarantees.
        pub fn tabcheck(file: *const u8, file_len: usize, reply: *mut u8, reply_len: usize) -> u32;

        /// The same is said in `include/tabeval.h`.
        pub fn tabeval(
            file: *const u8,
            file_len: usize,
            heap: *const u8,
            heap_len: usize,
            reply: *mut u8,
            reply_len: usize,
        ) -> u32;
    }
}

/// Checks the file and returns the refusal number, 0 after a yes. The reply
/// buffer gets the `Numbers`; one that has not `REPLY_BYTES` bytes stays as
/// it is, and the number is 18.
pub fn tabcheck(file: &[u8], reply: &mut [u8]) -> u32 {
    // SAFETY: two slices are valid for their lengths, and do not overlap, since
    // one of them is mutable. The call keeps neither.
    unsafe { library::tabcheck(file.as_ptr(), file.len(), reply.as_mut_ptr(), reply.len()) }
}

/// The numbers of the file's reply.
pub fn check(file: &[u8]) -> Numbers {
    through_buffer(tabcheck, file)
}

/// The numbers that a call writes into a reply buffer. The call must return the
/// first of them.
pub fn through_buffer(call: fn(&[u8], &mut [u8]) -> u32, file: &[u8]) -> Numbers {
    let mut reply = [0; REPLY_BYTES];
    let number = call(file, &mut reply);
    let numbers = numbers(&reply);
    assert_eq!(number, numbers[0], "the call returns the first number");
    numbers
}

/// Tries the heap that the heap file says against the checker file's A and C
/// lines, and returns the refusal number, 0 without a refusal. The reply buffer gets
/// the three numbers; one that has not `EVALUATION_BYTES` bytes stays as it is,
/// and the number is 18.
pub fn raw_evaluate(file: &[u8], heap: &[u8], reply: &mut [u8]) -> u32 {
    // SAFETY: three slices are valid for their lengths, and the mutable one
    // overlaps neither of the others. The call keeps none.
    unsafe {
        library::tabeval(
            file.as_ptr(),
            file.len(),
            heap.as_ptr(),
            heap.len(),
            reply.as_mut_ptr(),
            reply.len(),
        )
    }
}

/// The three numbers of the reply: refusal number, file (1 checker, 2 heap, 0
/// without a refusal), line.
pub fn evaluate(file: &[u8], heap: &[u8]) -> [u32; 3] {
    let mut reply = [0; EVALUATION_BYTES];
    let number = raw_evaluate(file, heap, &mut reply);
    let numbers = numbers(&reply);
    assert_eq!(number, numbers[0], "the call returns the first number");
    numbers
}

/// The numbers in a reply buffer, which has room for so many.
fn numbers<const N: usize>(reply: &[u8]) -> [u32; N] {
    assert_eq!(reply.len(), 4 * N);
    let mut numbers = [0; N];
    for (number, bytes) in numbers.iter_mut().zip(reply.chunks_exact(4)) {
        *number = u32::from_le_bytes([bytes[0], bytes[1], bytes[2], bytes[3]]);
    }
    numbers
}
