//! Our side: the exported calls of `dock_c`, linked as a static library.
use crate::{BASE, BUFFER, DCI, Load, SLOT, Side};

unsafe extern "C" {
    fn thn_make(
        state: *mut u64,
        state_len: usize,
        ring: *mut u32,
        ring_len: usize,
        finished: *mut u32,
        finished_len: usize,
        records: *mut u64,
        records_len: usize,
        packets: *mut u64,
        packets_len: usize,
        slots: usize,
        base: u64,
        mask: u64,
        slot: u8,
        dci: u8,
    ) -> u32;
    fn thn_configure(state: *mut u64, state_len: usize, packet: u16, burst: u8, interval: u8) -> u32;
    fn thn_submit(
        state: *mut u64,
        state_len: usize,
        answer: *mut u64,
        answer_len: usize,
        ring: *mut u32,
        ring_len: usize,
        finished: *mut u32,
        finished_len: usize,
        records: *mut u64,
        records_len: usize,
        packets: *mut u64,
        packets_len: usize,
        request: *const u64,
        request_len: usize,
        lengths: *const u64,
        lengths_len: usize,
    ) -> u32;
    fn thn_hand_over(
        state: *const u64,
        state_len: usize,
        answer: *mut u64,
        answer_len: usize,
        finished: *mut u32,
        finished_len: usize,
        w0: u32,
        w1: u32,
        w2: u32,
        w3: u32,
    ) -> u32;
    fn thn_reclaim(
        state: *mut u64,
        state_len: usize,
        answer: *mut u64,
        answer_len: usize,
        finished: *const u32,
        finished_len: usize,
        records: *mut u64,
        records_len: usize,
        packets: *mut u64,
        packets_len: usize,
        id: u64,
    ) -> u32;
}

const STATE_WORDS: usize = 22;
const ANSWER_WORDS: usize = 9;

pub struct Ours {
    state: [u64; STATE_WORDS],
    answer: [u64; ANSWER_WORDS],
    ring: Vec<u32>,
    finished: Vec<u32>,
    records: Vec<u64>,
    packets: Vec<u64>,
    request: [u64; 8],
    lengths: Vec<u64>,
}

impl Ours {
    pub fn new(slots: usize, load: &Load) -> Self {
        let mut side = Self {
            state: [0; STATE_WORDS],
            answer: [0; ANSWER_WORDS],
            ring: vec![0; 4 * slots],
            finished: vec![0; 4 * slots],
            records: vec![0; 64 * 12],
            packets: vec![0; 64 * 64],
            request: [3, 1, 0, 0, 0, 0, BUFFER, load.bytes() as u64],
            lengths: load.lengths.iter().map(|&length| length as u64).collect(),
        };
        // SAFETY: each slice is passed as its pointer and its length.
        let made = unsafe {
            thn_make(
                side.state.as_mut_ptr(),
                STATE_WORDS,
                side.ring.as_mut_ptr(),
                side.ring.len(),
                side.finished.as_mut_ptr(),
                side.finished.len(),
                side.records.as_mut_ptr(),
                side.records.len(),
                side.packets.as_mut_ptr(),
                side.packets.len(),
                slots,
                BASE,
                u64::MAX,
                SLOT,
                DCI,
            )
        };
        assert_eq!(made, 0);
        // SAFETY: as above.
        let set = unsafe { thn_configure(side.state.as_mut_ptr(), STATE_WORDS, load.packet, load.burst, 1) };
        assert_eq!(set, 0);
        side
    }
}

impl Side for Ours {
    fn prepare(&mut self) {}

    fn submit(&mut self) -> u64 {
        ours_submit(self)
    }

    fn hand_over(&mut self, words: [u32; 4]) {
        ours_hand_over(self, words);
    }

    fn reclaim(&mut self, id: u64) -> u64 {
        ours_reclaim(self, id)
    }
}

#[unsafe(no_mangle)]
#[inline(never)]
fn ours_submit(side: &mut Ours) -> u64 {
    // SAFETY: each slice is passed as its pointer and its length.
    let number = unsafe {
        thn_submit(
            side.state.as_mut_ptr(),
            STATE_WORDS,
            side.answer.as_mut_ptr(),
            ANSWER_WORDS,
            side.ring.as_mut_ptr(),
            side.ring.len(),
            side.finished.as_mut_ptr(),
            side.finished.len(),
            side.records.as_mut_ptr(),
            side.records.len(),
            side.packets.as_mut_ptr(),
            side.packets.len(),
            side.request.as_ptr(),
            side.request.len(),
            side.lengths.as_ptr(),
            side.lengths.len(),
        )
    };
    assert_eq!(number, 0, "admitted");
    side.answer[1]
}

#[unsafe(no_mangle)]
#[inline(never)]
fn ours_hand_over(side: &mut Ours, [w0, w1, w2, w3]: [u32; 4]) {
    // SAFETY: as above.
    let number = unsafe {
        thn_hand_over(
            side.state.as_ptr(),
            STATE_WORDS,
            side.answer.as_mut_ptr(),
            ANSWER_WORDS,
            side.finished.as_mut_ptr(),
            side.finished.len(),
            w0,
            w1,
            w2,
            w3,
        )
    };
    assert_eq!(number, 0, "taken");
}

#[unsafe(no_mangle)]
#[inline(never)]
fn ours_reclaim(side: &mut Ours, id: u64) -> u64 {
    // SAFETY: as above.
    let number = unsafe {
        thn_reclaim(
            side.state.as_mut_ptr(),
            STATE_WORDS,
            side.answer.as_mut_ptr(),
            ANSWER_WORDS,
            side.finished.as_ptr(),
            side.finished.len(),
            side.records.as_mut_ptr(),
            side.records.len(),
            side.packets.as_mut_ptr(),
            side.packets.len(),
            id,
        )
    };
    assert_eq!(number, 0, "done");
    side.answer[2]
}
