//! The C interface, as include/tahvenno.h declares it.

extern "C" {
    pub fn tahvenno_run(
        kept: *mut u64,
        words: usize,
        table: *mut u64,
        table_words: usize,
        queue: *const u8,
        bytes: usize,
        features: u64,
        allowance: u64,
        answer: *mut u64,
    ) -> u64;
    pub fn tahvenno_fill(
        kept: *mut u64,
        words: usize,
        row: u64,
        w0: u64,
        w1: u64,
        w2: u64,
        w3: u64,
        allowance: u64,
        answer: *mut u64,
    ) -> u64;
    pub fn tahvenno_doorbell(kept: *mut u64, words: usize, wr: u64, answer: *mut u64) -> u64;
    pub fn tahvenno_acknowledge(kept: *mut u64, words: usize, answer: *mut u64) -> u64;
    pub fn tahvenno_enable(kept: *mut u64, words: usize, on: u64, answer: *mut u64) -> u64;
    pub fn tahvenno_clear_pending(kept: *mut u64, words: usize, answer: *mut u64) -> u64;
    pub fn tahvenno_translate(
        kept: *const u64,
        words: usize,
        stream: u32,
        substream: u32,
        address: u64,
        how: u64,
        memattr: u64,
        sh: u64,
        hints: u64,
        answer: *mut u64,
    ) -> u64;
    pub fn tahvenno_state(kept: *const u64, words: usize, answer: *mut u64) -> u64;
    pub fn tahvenno_table_fill(
        kept: *const u64,
        words: usize,
        table: *mut u64,
        table_words: usize,
        row: u64,
        w0: u64,
        w1: u64,
        allowance: u64,
        answer: *mut u64,
    ) -> u64;
    pub fn tahvenno_write_batch(
        kept: *mut u64,
        words: usize,
        queue: *mut u8,
        bytes: usize,
        commands: *const u64,
        command_words: usize,
        features: u64,
        answer: *mut u64,
    ) -> u64;
    pub fn tahvenno_check_batch(
        kept: *const u64,
        words: usize,
        table: *const u64,
        table_words: usize,
        original: *const u8,
        original_bytes: usize,
        proposed: *const u8,
        proposed_bytes: usize,
        features: u64,
        answer: *mut u64,
    ) -> u64;
    pub fn tahvenno_event_write(
        events: *mut u64,
        words: usize,
        record: *const u8,
        allowance: u64,
        answer: *mut u64,
    ) -> u64;
    pub fn tahvenno_event_read(events: *mut u64, words: usize, answer: *mut u64) -> u64;
    pub fn tahvenno_event_acknowledge(events: *mut u64, words: usize, answer: *mut u64) -> u64;
    pub fn tahvenno_write_command(
        slot: *mut u8,
        bytes: usize,
        fields: *const u64,
        features: u64,
        answer: *mut u64,
    ) -> u64;
}
