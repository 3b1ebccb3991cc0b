//! Slices of length 0 and of wrong lengths, words too wide for their fields, and words that no save has left: every call answers, and a refusal
//! leaves everything.
use thnaolups::{calls, ANSWER_WORDS, PACKETS_SIZE, RECORDS_SIZE, REQUEST_WORDS, STATE_WORDS};

const SLOTS: usize = 8;

/// Everything that a call may be lent.
#[derive(Clone, PartialEq, Eq, Debug)]
struct Lent {
    state: Vec<u64>,
    answer: Vec<u64>,
    ring: Vec<u32>,
    finished: Vec<u32>,
    records: Vec<u64>,
    packets: Vec<u64>,
    request: Vec<u64>,
    lengths: Vec<u64>,
}

/// The parts of it, by number.
const PARTS: usize = 7;
const STATE: usize = 0;
const ANSWER: usize = 1;
const RING: usize = 2;
const FINISHED: usize = 3;
const RECORDS: usize = 4;
const PACKETS: usize = 5;
const REQUEST: usize = 6;

/// A made ring with one ISO request in flight, and a bulk request to make.
fn made() -> Lent {
    let mut lent = Lent {
        state: vec![0; STATE_WORDS],
        answer: vec![0; ANSWER_WORDS],
        ring: vec![0; 4 * SLOTS],
        finished: vec![0; 4 * SLOTS],
        records: vec![0; RECORDS_SIZE],
        packets: vec![0; PACKETS_SIZE],
        request: vec![3, 1, 0, 0, 0, 0, 0x2_0000, 400],
        lengths: vec![100, 200],
    };
    assert_eq!(call(0, &mut lent), 0, "make");
    assert_eq!(call(4, &mut lent), 0, "submit");
    assert_eq!(lent.answer[..3], [2, 1, 1]);
    lent.request = vec![1, 1, 0, 0, 0, 0, 0x2_0000, 64];
    lent
}

/// The calls, by number.
const CALLS: usize = 14;

fn call(number: usize, l: &mut Lent) -> u32 {
    let event = [0x1_0000, 0, 0x0100_0000, 0x0101_8000];
    match number {
        0 => calls::make(
            &mut l.state,
            &mut l.ring,
            &mut l.finished,
            &mut l.records,
            &mut l.packets,
            SLOTS,
            0x1_0000,
            u64::MAX,
            1,
            1,
        ),
        1 => calls::configure(&mut l.state, 192, 0, 1),
        2 => calls::start(&mut l.state, &mut l.records, &mut l.packets, &l.request, &l.lengths),
        3 => calls::store(&mut l.state, &mut l.answer, &mut l.ring, &mut l.finished, &l.records, &l.packets),
        4 => calls::submit(
            &mut l.state,
            &mut l.answer,
            &mut l.ring,
            &mut l.finished,
            &mut l.records,
            &mut l.packets,
            &l.request,
            &l.lengths,
        ),
        5 => calls::hand_over(&l.state, &mut l.answer, &mut l.finished, event),
        6 => calls::reclaim(&mut l.state, &mut l.answer, &l.finished, &mut l.records, &mut l.packets, 1),
        7 => calls::cancel(&l.state, &mut l.records, 1),
        8 => calls::retire(&mut l.state, &mut l.records),
        9 => calls::begin_reset(&mut l.state, &mut l.answer, &l.records),
        10 => calls::end_reset(&mut l.state, 1),
        11 => calls::stop(&l.state, &mut l.answer),
        12 => calls::resume(&l.state, &mut l.answer),
        _ => calls::pointer(&l.state, &mut l.answer),
    }
}

/// The parts whose length each call tests.
const TESTED: [&[usize]; CALLS] = [
    &[STATE, RING, FINISHED, RECORDS, PACKETS],
    &[STATE],
    &[STATE, RECORDS, PACKETS, REQUEST],
    &[STATE, ANSWER, RING, FINISHED, RECORDS, PACKETS],
    &[STATE, ANSWER, RING, FINISHED, RECORDS, PACKETS, REQUEST],
    &[STATE, ANSWER, FINISHED],
    &[STATE, ANSWER, FINISHED, RECORDS, PACKETS],
    &[STATE, RECORDS],
    &[STATE, RECORDS],
    &[STATE, ANSWER, RECORDS],
    &[STATE],
    &[STATE, ANSWER],
    &[STATE, ANSWER],
    &[STATE, ANSWER],
];

/// What each call answers on the ring as it is made: a store and an end of reset have nothing to do, a reclaim is not finished, a reset has a
/// request in flight.
const FITTING: [u32; CALLS] = [0, 0, 0, 10, 0, 0, 10, 0, 0, 2, 10, 0, 0, 0];

fn resize(l: &mut Lent, part: usize, length: usize) {
    match part {
        STATE => l.state.resize(length, 0),
        ANSWER => l.answer.resize(length, 0),
        RING => l.ring.resize(length, 0),
        FINISHED => l.finished.resize(length, 0),
        RECORDS => l.records.resize(length, 0),
        PACKETS => l.packets.resize(length, 0),
        _ => l.request.resize(length, 0),
    }
}

fn length(l: &Lent, part: usize) -> usize {
    [
        l.state.len(),
        l.answer.len(),
        l.ring.len(),
        l.finished.len(),
        l.records.len(),
        l.packets.len(),
        l.request.len(),
    ][part]
}

/// The answer's words are told anew by every call that is lent them with their length; all else must be as it was.
fn same_but_answer(before: &Lent, after: &Lent) -> bool {
    let mut after = after.clone();
    after.answer = before.answer.clone();
    *before == after
}

#[test]
fn fitting_lengths() {
    for (number, fitting) in FITTING.iter().enumerate() {
        assert_eq!(call(number, &mut made()), *fitting, "call {number}");
    }
}

/// Each part by itself of length 0, one less, one more and twice: 1 where the call tests it, else the call's own answer.
#[test]
fn wrong_lengths() {
    let good = made();
    for (number, tested) in TESTED.iter().enumerate() {
        for part in 0..PARTS {
            let fits = length(&good, part);
            for wrong in [0, 1, fits - 1, fits + 1, 2 * fits] {
                let mut lent = good.clone();
                resize(&mut lent, part, wrong);
                let before = lent.clone();
                let no = call(number, &mut lent);
                if tested.contains(&part) {
                    assert_eq!(no, 1, "call {number}, part {part} of length {wrong}");
                    assert!(same_but_answer(&before, &lent), "call {number} refused changes something");
                    if part <= ANSWER || part == REQUEST {
                        assert_eq!(before, lent, "call {number}: words of a wrong length are left");
                    }
                } else {
                    assert_eq!(no, FITTING[number], "call {number}, part {part} of length {wrong}");
                }
            }
        }
    }
}

/// All slices empty.
#[test]
fn nothing_lent() {
    for number in 0..CALLS {
        let mut lent = Lent {
            state: vec![],
            answer: vec![],
            ring: vec![],
            finished: vec![],
            records: vec![],
            packets: vec![],
            request: vec![],
            lengths: vec![],
        };
        assert_eq!(call(number, &mut lent), 1, "call {number}");
    }
}

/// No packet lengths, and a hundred thousand of them.
#[test]
fn packet_lengths_of_any_number() {
    let mut lent = made();
    lent.request[0] = 3;
    lent.lengths = vec![];
    assert_eq!(call(4, &mut lent.clone()), 0);
    lent.lengths = vec![0; 100_000];
    let before = lent.clone();
    assert_eq!(call(4, &mut lent), 2, "no room for so many");
    assert!(same_but_answer(&before, &lent));
}

/// Kinds that are none: 1, and everything as it was, the answer's words too.
#[test]
fn a_request_of_no_kind() {
    for kind in [4, 5, 256, u64::MAX] {
        for number in [2, 4] {
            let mut lent = made();
            lent.request[0] = kind;
            let before = lent.clone();
            assert_eq!(call(number, &mut lent), 1);
            assert_eq!(before, lent);
        }
    }
    assert_eq!(made().request.len(), REQUEST_WORDS);
}

/// The words of an endpoint that have a narrower field, and its bits: slot id, dci, max packet size, burst, interval, next frame.
const NARROW_STATE: [(usize, u32); 6] = [(4, 8), (5, 8), (7, 16), (8, 8), (9, 8), (10, 16)];

/// Those of a control request: type, request, value, index.
const NARROW_REQUEST: [(usize, u32); 4] = [(2, 8), (3, 8), (4, 16), (5, 16)];

/// A control request with data, its first bits set where they may be.
fn control(word: u64) -> Vec<u64> {
    let mut request = vec![0, 0, 0, 0, 0, 0, 0x2_0000, 64];
    for (at, bits) in NARROW_REQUEST {
        request[at] = word & ((1 << bits) - 1);
    }
    request
}

/// The least and the largest word that does not fit.
fn too_wide(bits: u32) -> [u64; 2] {
    [1 << bits, u64::MAX]
}

/// A state word that is too wide: 1 from every call but making, and everything as it was, the answer's words too. Making writes it anew.
#[test]
fn state_words_that_are_too_wide() {
    let fresh = {
        let mut lent = made();
        assert_eq!(call(0, &mut lent), 0);
        lent
    };
    for (at, bits) in NARROW_STATE {
        for wide in too_wide(bits) {
            for number in 1..CALLS {
                let mut lent = made();
                lent.state[at] = wide;
                let before = lent.clone();
                assert_eq!(call(number, &mut lent), 1, "call {number}, state word {at} is {wide:x}");
                assert_eq!(before, lent, "call {number}, state word {at} is {wide:x}");
            }
            let mut lent = made();
            lent.state[at] = wide;
            assert_eq!(call(0, &mut lent), 0);
            assert_eq!(lent, fresh);
        }
    }
}

/// The largest that fits is taken; of the dci that is 31, by its limit.
#[test]
fn state_words_that_just_fit() {
    for (at, bits) in NARROW_STATE {
        let mut lent = made();
        lent.state[at] = if at == 5 { 31 } else { (1 << bits) - 1 };
        let before = lent.clone();
        assert_eq!(call(13, &mut lent), 0, "state word {at}");
        assert!(same_but_answer(&before, &lent));
        assert_eq!(call(7, &mut lent), 0, "state word {at}");
    }
}

/// A word of a control request that is too wide: 1, and everything as it was. The other kinds have no setup, and their words are not read.
#[test]
fn request_words_that_are_too_wide() {
    for (at, bits) in NARROW_REQUEST {
        for wide in too_wide(bits) {
            for number in [2, 4] {
                let mut lent = made();
                lent.request = control(u64::MAX);
                lent.request[at] = wide;
                let before = lent.clone();
                assert_eq!(call(number, &mut lent), 1, "call {number}, request word {at} is {wide:x}");
                assert_eq!(before, lent, "call {number}, request word {at} is {wide:x}");
                for kind in [1, 2, 3] {
                    let mut lent = made();
                    lent.request[0] = kind;
                    lent.lengths = vec![64];
                    lent.request[at] = wide;
                    assert_eq!(
                        call(number, &mut lent),
                        0,
                        "call {number}, kind {kind}, request word {at} is {wide:x}"
                    );
                }
            }
        }
    }
}

/// The largest that fit stand in the setup TRB.
#[test]
fn request_words_that_just_fit() {
    let mut lent = made();
    lent.request = control(u64::MAX);
    assert_eq!(call(4, &mut lent), 0);
    assert_eq!(lent.ring[8..10], [0xffff_ffff, 64 << 16 | 0xffff]);
}

/// A making outside the limits with words of a wrong length for the endpoint.
#[test]
fn making_knows_13_then_1() {
    let good = made();
    for length in [0, 1, STATE_WORDS - 1, STATE_WORDS + 1, 2 * STATE_WORDS] {
        for (slots, base, slot, dci, answer) in [
            (2, 0x1_0000, 1, 1, 13),
            (4097, 0x1_0000, 1, 1, 13),
            (5, 0x1_0800, 1, 1, 13),
            (257, 0xf000, 1, 1, 13),
            (256, 0xf000, 1, 1, 1),
            (5, 0x1_0000, 0, 1, 13),
            (5, 0x1_0000, 1, 0, 13),
            (5, 0x1_0000, 1, 32, 13),
            (5, 0x1_0000, 1, 1, 1),
        ] {
            let mut l = good.clone();
            l.state.resize(length, 7);
            l.ring.resize(4 * slots, 7);
            l.finished.resize(4 * slots, 7);
            let before = l.clone();
            let no = calls::make(
                &mut l.state,
                &mut l.ring,
                &mut l.finished,
                &mut l.records,
                &mut l.packets,
                slots,
                base,
                u64::MAX,
                slot,
                dci,
            );
            assert_eq!(no, answer, "{length} words, {slots} slots at {base:x}, slot id {slot}, dci {dci}");
            assert_eq!(before, l);
        }
    }
}

/// An endpoint whose slots and base are forged: every call but making answers 1 where its ring crosses a multiple of 65,536, and none does
/// where the ring ends there.
#[test]
fn a_forged_ring_at_a_boundary() {
    for (slots, base, fits) in [
        (257, 0xf000, false),
        (256, 0xf000, true),
        (4096, 0xf000, false),
        (4096, 0x1_1000, false),
        (4096, 0x1_0000, true),
    ] {
        for number in 1..CALLS {
            let mut lent = made();
            (lent.state[2], lent.state[3]) = (slots, base);
            resize(&mut lent, RING, 4 * slots as usize);
            resize(&mut lent, FINISHED, 4 * slots as usize);
            let before = lent.clone();
            let no = call(number, &mut lent);
            assert_eq!(no != 1, fits, "call {number}, {slots} slots at {base:x}");
            assert!(fits || same_but_answer(&before, &lent), "call {number}, {slots} slots at {base:x}");
        }
    }
}

/// Words of zeros are no endpoint.
#[test]
fn no_ring_made() {
    for number in 1..CALLS {
        let mut lent = made();
        lent.state.fill(0);
        let before = lent.clone();
        assert_eq!(call(number, &mut lent), 1, "call {number}");
        assert!(same_but_answer(&before, &lent));
    }
}

/// A flag is set by any word but 0; a refusal leaves it, a yes saves it anew.
#[test]
fn words_that_no_save_has_left() {
    let mut lent = made();
    let saved = lent.state.clone();
    lent.state[1] = 77; // cycle
    let forged = lent.clone();
    assert_eq!(call(10, &mut lent), 10);
    assert_eq!(lent, forged, "a refusal leaves the words, also those that a save would change");
    assert_eq!(call(13, &mut lent), 0);
    assert_eq!(lent.answer[..3], [2, 0x1_0020, 1]);
    assert_eq!(lent.state, forged.state, "a call that only reads leaves them too");
    assert_eq!(call(1, &mut lent), 0);
    assert_eq!(lent.state[1], saved[1]);
    assert_eq!(lent.state[7], 192);
}

/// A plain generator of numbers, so that a run repeats.
struct Chance(u64);

impl Chance {
    fn next(&mut self) -> u64 {
        self.0 = self.0.wrapping_mul(6364136223846793005).wrapping_add(1442695040888963407);
        self.0 >> 33 ^ self.0 << 17
    }

    fn below(&mut self, n: u64) -> u64 {
        self.next() % n
    }

    /// A number near a limit, or any.
    fn word(&mut self) -> u64 {
        const LIMITS: [u64; 12] = [0, 1, 2, SLOTS as u64, 63, 64, 255, 256, 65535, 65536, 1 << 32, u64::MAX];
        match self.below(4) {
            0 => self.next() << 32 ^ self.next(),
            1 => self.below(80),
            _ => LIMITS[self.below(12) as usize].wrapping_add(self.below(3)).wrapping_sub(1),
        }
    }
}

/// Forged words of any table, any call: always one of the paper's numbers, and a refusal leaves everything but the answer's words.
#[test]
fn forged_words() {
    let mut chance = Chance(20_260_110);
    let mut answers = [0u32; 14];
    let mut lent = made();
    for turn in 0..200_000 {
        if turn % 40 == 0 {
            lent = made();
        }
        for _ in 0..chance.below(3) {
            let word = chance.word();
            match chance.below(6) {
                0 | 1 => lent.state[chance.below(STATE_WORDS as u64) as usize] = word,
                2 => lent.ring[chance.below(4 * SLOTS as u64) as usize] = word as u32,
                3 => lent.finished[chance.below(4 * SLOTS as u64) as usize] = word as u32,
                4 => lent.records[chance.below(36) as usize] = word,
                _ => lent.packets[chance.below(192) as usize] = word,
            }
        }
        lent.request[chance.below(REQUEST_WORDS as u64) as usize] = chance.word() % 5;
        lent.lengths = (0..chance.below(5)).map(|_| chance.word() % 70_000).collect();
        let before = lent.clone();
        let number = chance.below(CALLS as u64) as usize;
        let no = call(number, &mut lent);
        assert!(no <= 13, "turn {turn}: call {number} answers {no}");
        answers[no as usize] += 1;
        match no {
            0 | 7 | 8 | 9 => {}
            10 => assert_eq!(before.state, lent.state, "turn {turn}: call {number}"),
            _ => assert!(
                same_but_answer(&before, &lent),
                "turn {turn}: call {number} refused ({no}) changes something"
            ),
        }
    }
    println!("answers 0 to 13: {answers:?}");
    assert!(answers[0] > 1000 && answers[1] > 1000);
}
