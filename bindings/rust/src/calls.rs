//! The exported calls over slices, one for each, and safe: nothing is asked of the numbers, and a slice of any length is answered.
//!
//! [`Ring`](crate::Ring) is the typed interface above them. These are for a driver that keeps an endpoint's words and tables by itself. Each
//! returns document 01's number. An endpoint is [`STATE_WORDS`](crate::STATE_WORDS) words, a request
//! [`REQUEST_WORDS`](crate::REQUEST_WORDS), an answer [`ANSWER_WORDS`](crate::ANSWER_WORDS): how many values it has, the values, then zeros.
//! Words of a wrong length, and a word of an endpoint or of a request that is too wide for its field, are answered 1 and leave everything.
use crate::raw;

// SAFETY, of every call below: each slice is handed on as its pointer and its length, so it is valid for reads, and where it is `&mut` for
// writes; two of them overlap only where neither is `&mut`. The function reads and writes within its slices alone, keeps no pointer, and its
// contract asks nothing else: it is proved safe for all numbers and all lengths.

/// Makes a ring: zeroes it, empties the tables, and writes a fresh endpoint into `state`. 13 outside the limits, then 1 for a wrong size.
#[allow(clippy::too_many_arguments)]
pub fn make(
    state: &mut [u64],
    ring: &mut [u32],
    finished: &mut [u32],
    records: &mut [u64],
    packets: &mut [u64],
    slots: usize,
    base: u64,
    mask: u64,
    slot: u8,
    dci: u8,
) -> u32 {
    unsafe {
        raw::thn_make(
            state.as_mut_ptr(),
            state.len(),
            ring.as_mut_ptr(),
            ring.len(),
            finished.as_mut_ptr(),
            finished.len(),
            records.as_mut_ptr(),
            records.len(),
            packets.as_mut_ptr(),
            packets.len(),
            slots,
            base,
            mask,
            slot,
            dci,
        )
    }
}

/// Sets max packet size, burst and interval; an interval of 0 is taken as 1.
pub fn configure(state: &mut [u64], packet: u16, burst: u8, interval: u8) -> u32 {
    unsafe { raw::thn_configure(state.as_mut_ptr(), state.len(), packet, burst, interval) }
}

/// Starts a submission: takes id, record and count, and stores no TRB.
pub fn start(state: &mut [u64], records: &mut [u64], packets: &mut [u64], request: &[u64], lengths: &[u64]) -> u32 {
    unsafe {
        raw::thn_start(
            state.as_mut_ptr(),
            state.len(),
            records.as_mut_ptr(),
            records.len(),
            packets.as_mut_ptr(),
            packets.len(),
            request.as_ptr(),
            request.len(),
            lengths.as_ptr(),
            lengths.len(),
        )
    }
}

/// The next store of the submission under way: the slot that changed; after the last also the id and the doorbell word.
pub fn store(state: &mut [u64], answer: &mut [u64], ring: &mut [u32], finished: &mut [u32], records: &[u64], packets: &[u64]) -> u32 {
    unsafe {
        raw::thn_store(
            state.as_mut_ptr(),
            state.len(),
            answer.as_mut_ptr(),
            answer.len(),
            ring.as_mut_ptr(),
            ring.len(),
            finished.as_mut_ptr(),
            finished.len(),
            records.as_ptr(),
            records.len(),
            packets.as_ptr(),
            packets.len(),
        )
    }
}

/// A whole submission, the start and its stores in order: the id and the doorbell word.
#[allow(clippy::too_many_arguments)]
pub fn submit(
    state: &mut [u64],
    answer: &mut [u64],
    ring: &mut [u32],
    finished: &mut [u32],
    records: &mut [u64],
    packets: &mut [u64],
    request: &[u64],
    lengths: &[u64],
) -> u32 {
    unsafe {
        raw::thn_submit(
            state.as_mut_ptr(),
            state.len(),
            answer.as_mut_ptr(),
            answer.len(),
            ring.as_mut_ptr(),
            ring.len(),
            finished.as_mut_ptr(),
            finished.len(),
            records.as_mut_ptr(),
            records.len(),
            packets.as_mut_ptr(),
            packets.len(),
            request.as_ptr(),
            request.len(),
            lengths.as_ptr(),
            lengths.len(),
        )
    }
}

/// Hands over a transfer event: the slot whose place has it.
pub fn hand_over(state: &[u64], answer: &mut [u64], finished: &mut [u32], event: [u32; 4]) -> u32 {
    let [w0, w1, w2, w3] = event;
    unsafe {
        raw::thn_hand_over(
            state.as_ptr(),
            state.len(),
            answer.as_mut_ptr(),
            answer.len(),
            finished.as_mut_ptr(),
            finished.len(),
            w0,
            w1,
            w2,
            w3,
        )
    }
}

/// Reclaims a request by its id: the id, the bytes moved, 1 where there are any and they came in, its record, its packets. 8 has the code.
pub fn reclaim(state: &mut [u64], answer: &mut [u64], finished: &[u32], records: &mut [u64], packets: &mut [u64], id: u64) -> u32 {
    unsafe {
        raw::thn_reclaim(
            state.as_mut_ptr(),
            state.len(),
            answer.as_mut_ptr(),
            answer.len(),
            finished.as_ptr(),
            finished.len(),
            records.as_mut_ptr(),
            records.len(),
            packets.as_mut_ptr(),
            packets.len(),
            id,
        )
    }
}

/// Cancels a request: its reclaim will answer 7.
pub fn cancel(state: &[u64], records: &mut [u64], id: u64) -> u32 {
    unsafe { raw::thn_cancel(state.as_ptr(), state.len(), records.as_mut_ptr(), records.len(), id) }
}

/// After a stop: every request in flight becomes stopped.
pub fn retire(state: &mut [u64], records: &mut [u64]) -> u32 {
    unsafe { raw::thn_retire(state.as_mut_ptr(), state.len(), records.as_mut_ptr(), records.len()) }
}

/// Begins a reset: no value where nothing is halted, else the words of two commands.
pub fn begin_reset(state: &mut [u64], answer: &mut [u64], records: &[u64]) -> u32 {
    unsafe {
        raw::thn_begin_reset(
            state.as_mut_ptr(),
            state.len(),
            answer.as_mut_ptr(),
            answer.len(),
            records.as_ptr(),
            records.len(),
        )
    }
}

/// Ends a reset, told whether its commands worked (not 0).
pub fn end_reset(state: &mut [u64], worked: u32) -> u32 {
    unsafe { raw::thn_end_reset(state.as_mut_ptr(), state.len(), worked) }
}

/// The four words of the command that stops the endpoint.
pub fn stop(state: &[u64], answer: &mut [u64]) -> u32 {
    unsafe { raw::thn_stop(state.as_ptr(), state.len(), answer.as_mut_ptr(), answer.len()) }
}

/// The four words of the command with which it goes on at the producer's place.
pub fn resume(state: &[u64], answer: &mut [u64]) -> u32 {
    unsafe { raw::thn_resume(state.as_ptr(), state.len(), answer.as_mut_ptr(), answer.len()) }
}

/// The address at which the producer stands, and its cycle.
pub fn pointer(state: &[u64], answer: &mut [u64]) -> u32 {
    unsafe { raw::thn_pointer(state.as_ptr(), state.len(), answer.as_mut_ptr(), answer.len()) }
}
