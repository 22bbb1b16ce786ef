//! The two functions of the static library, with what they return. All unsafe code of the crate is here.

extern "C" {
    fn skew_schedule(file: *const u8, file_size: usize, out: *mut u8, out_size: usize) -> u64;
    fn skew_question(
        file: *const u8,
        file_size: usize,
        period: i32,
        kind: i32,
        number: i32,
        tail_latency: i32,
        head_latency: i32,
    ) -> u64;
}

/// The integer that a call returns.
#[derive(Clone, Copy, Debug)]
pub(crate) struct Returned(pub(crate) u64);

impl Returned {
    /// The number of RULES 6.2: the low 32 bits.
    pub(crate) fn number(self) -> u32 {
        self.0 as u32
    }

    /// What stands above the number: the place after a refusal, the slack after a question's number 0.
    pub(crate) fn above(self) -> u32 {
        (self.0 >> 32) as u32
    }
}

/// Schedules the file, and leaves the answer's bytes in `out`.
pub(crate) fn schedule(file: &[u8], out: &mut [u8]) -> Returned {
    // SAFETY: each slice is lent with its own length. A slice's pointer is not null, even where the slice is empty, and no other slice
    // overlaps a mutable one. The function asks for no more, and keeps neither pointer (include/skew.h).
    Returned(unsafe { skew_schedule(file.as_ptr(), file.len(), out.as_mut_ptr(), out.len()) })
}

/// Asks for the rule of this kind and number, with these latencies at its arrow's tail and head.
pub(crate) fn question(file: &[u8], period: i32, (kind, number): (i32, i32), tail: i32, head: i32) -> Returned {
    // SAFETY: the slice is lent with its own length, and its pointer is not null. The function only reads it, and takes any other number.
    Returned(unsafe { skew_question(file.as_ptr(), file.len(), period, kind, number, tail, head) })
}
