//! The functions of the archive, as `ondajusta.h` declares them.

extern "C" {
    pub fn ondajusta_run(
        job: *const u8,
        job_length: usize,
        words: *mut u32,
        words_length: usize,
        ranks: *mut u16,
        ranks_length: usize,
        answer: *mut [u64; 7],
    );

    pub fn ondajusta_verdict(
        job: *const u8,
        job_length: usize,
        ranks: *mut u16,
        ranks_length: usize,
        answer: *mut [u64; 3],
    );

    pub fn ondajusta_line(
        words: *const u32,
        words_length: usize,
        arity: usize,
        line: *mut u8,
        line_length: usize,
        answer: *mut [u64; 2],
    );
}
