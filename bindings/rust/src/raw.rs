//! The exported functions as the static library has them, and the sizes that go with them: declared here, once. `declarations` holds them to
//! the Rattle source.

/// The words that an endpoint is saved in.
pub const STATE_WORDS: usize = 22;
/// The words of a request.
pub const REQUEST_WORDS: usize = 8;
/// The words of an answer: how many values it has, then eight words for them.
pub const ANSWER_WORDS: usize = 9;
/// How many request records there are.
pub const RECORD_COUNT: usize = 64;
/// The words of a request record.
pub const RECORD_WORDS: usize = 12;
/// How many packet records a request record has, of one word each.
pub const PACKETS: usize = 64;

extern "C" {
    pub fn thn_make(
        state: *mut u64,
        state_len: usize,
        ring: *mut u32,
        ring_len: usize,
        finished: *mut u32,
        finished_len: usize,
        records: *mut u64,
        records_len: usize,
        packets: *mut u64,
        packets_len: usize,
        slots: usize,
        base: u64,
        mask: u64,
        slot: u8,
        dci: u8,
    ) -> u32;
    pub fn thn_configure(state: *mut u64, state_len: usize, packet: u16, burst: u8, interval: u8) -> u32;
    pub fn thn_start(
        state: *mut u64,
        state_len: usize,
        records: *mut u64,
        records_len: usize,
        packets: *mut u64,
        packets_len: usize,
        request: *const u64,
        request_len: usize,
        lengths: *const u64,
        lengths_len: usize,
    ) -> u32;
    pub fn thn_store(
        state: *mut u64,
        state_len: usize,
        answer: *mut u64,
        answer_len: usize,
        ring: *mut u32,
        ring_len: usize,
        finished: *mut u32,
        finished_len: usize,
        records: *const u64,
        records_len: usize,
        packets: *const u64,
        packets_len: usize,
    ) -> u32;
    pub fn thn_submit(
        state: *mut u64,
        state_len: usize,
        answer: *mut u64,
        answer_len: usize,
        ring: *mut u32,
        ring_len: usize,
        finished: *mut u32,
        finished_len: usize,
        records: *mut u64,
        records_len: usize,
        packets: *mut u64,
        packets_len: usize,
        request: *const u64,
        request_len: usize,
        lengths: *const u64,
        lengths_len: usize,
    ) -> u32;
    pub fn thn_hand_over(
        state: *const u64,
        state_len: usize,
        answer: *mut u64,
        answer_len: usize,
        finished: *mut u32,
        finished_len: usize,
        w0: u32,
        w1: u32,
        w2: u32,
        w3: u32,
    ) -> u32;
    pub fn thn_reclaim(
        state: *mut u64,
        state_len: usize,
        answer: *mut u64,
        answer_len: usize,
        finished: *const u32,
        finished_len: usize,
        records: *mut u64,
        records_len: usize,
        packets: *mut u64,
        packets_len: usize,
        id: u64,
    ) -> u32;
    pub fn thn_cancel(state: *const u64, state_len: usize, records: *mut u64, records_len: usize, id: u64) -> u32;
    pub fn thn_retire(state: *mut u64, state_len: usize, records: *mut u64, records_len: usize) -> u32;
    pub fn thn_begin_reset(
        state: *mut u64,
        state_len: usize,
        answer: *mut u64,
        answer_len: usize,
        records: *const u64,
        records_len: usize,
    ) -> u32;
    pub fn thn_end_reset(state: *mut u64, state_len: usize, worked: u32) -> u32;
    pub fn thn_stop(state: *const u64, state_len: usize, answer: *mut u64, answer_len: usize) -> u32;
    pub fn thn_resume(state: *const u64, state_len: usize, answer: *mut u64, answer_len: usize) -> u32;
    pub fn thn_pointer(state: *const u64, state_len: usize, answer: *mut u64, answer_len: usize) -> u32;
}
