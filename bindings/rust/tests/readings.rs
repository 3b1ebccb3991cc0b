//! Document 01's "Readings from the bench", W1 to W10, W4 as document 02 has it, and what stands beside them, through the typed interface.
use thnaolups::{
    alignment, Answer, Direction::In, Place, Refusal, Request, Ring, Stored, Tables, Words, LEAST_SLOTS, MOST_SLOTS, PACKETS_SIZE,
    RECORDS_SIZE, SLOT_WORDS,
};

/// Tables for the largest ring.
struct Desk {
    ring: Vec<u32>,
    finished: Vec<u32>,
    records: Vec<u64>,
    packets: Vec<u64>,
}

impl Desk {
    fn new() -> Self {
        Desk {
            ring: vec![0; SLOT_WORDS * MOST_SLOTS],
            finished: vec![0; SLOT_WORDS * MOST_SLOTS],
            records: vec![0; RECORDS_SIZE],
            packets: vec![0; PACKETS_SIZE],
        }
    }

    /// A ring of so many slots at 10000 for slot id 1 and endpoint 1, whose controller reaches 32 bits.
    fn ring(&mut self, slots: usize) -> Ring<'_> {
        self.ring_at(slots, 0x1_0000).unwrap()
    }

    fn ring_at(&mut self, slots: usize, base: u64) -> Answer<Ring<'_>> {
        self.ring_below(0xffff_ffff, slots, base)
    }

    /// One whose controller reaches up to this mask.
    fn ring_below(&mut self, mask: u64, slots: usize, base: u64) -> Answer<Ring<'_>> {
        let tables = Tables {
            ring: &mut self.ring[..SLOT_WORDS * slots],
            finished: &mut self.finished[..SLOT_WORDS * slots],
            records: &mut self.records,
            packets: &mut self.packets,
        };
        let place = Place {
            slots,
            base,
            mask,
            slot: 1,
            dci: 1,
        };
        Ring::make(tables, place)
    }
}

fn iso(packets: &[u64]) -> Request<'_> {
    Request::Isoch {
        direction: In,
        address: 0x2_0000,
        length: packets.iter().sum(),
        packets,
    }
}

fn bulk(address: u64, length: u64) -> Request<'static> {
    Request::Bulk {
        direction: In,
        address,
        length,
    }
}

/// The event of a slot, with a code and a length that was not moved.
fn event(slot: u32, code: u32, remaining: u32) -> Words {
    [0x1_0000 + 16 * slot, 0, code << 24 | remaining, 0x0101_8000]
}

const DESCRIPTOR: Request<'_> = Request::Control {
    kind: 0x80,
    request: 6,
    value: 0x100,
    index: 0,
    address: 0x2_0000,
    length: 18,
};

#[test]
fn w1_a_full_ring_of_4096() {
    let mut desk = Desk::new();
    let mut ring = desk.ring(4096);
    for id in 1..=63 {
        assert_eq!(ring.submit(&iso(&[1; 64])).unwrap().id, id);
    }
    assert_eq!(ring.submit(&iso(&[1; 62])).unwrap().id, 64);
    assert_eq!(ring.submit(&bulk(0x2_0000, 64)), Err(Refusal::QueueFull));
}

/// The same by a start and its stores: as many TRBs as packets, and the ring as the whole submission leaves it.
#[test]
fn w1_store_by_store() {
    let (mut one, mut other) = (Desk::new(), Desk::new());
    let (mut ring, mut whole) = (one.ring(4096), other.ring(4096));
    for _ in 0..3 {
        let bell = whole.submit(&iso(&[7; 64])).unwrap();
        ring.start(&iso(&[7; 64])).unwrap();
        let mut stores = 1;
        let last = loop {
            match ring.store().unwrap() {
                Stored::Slot(_) => stores += 1,
                Stored::Last(_, bell) => break bell,
            }
        };
        assert_eq!((stores, last), (64, bell));
    }
    let (state, tables) = ring.into_parts();
    let (want, all) = whole.into_parts();
    assert_eq!(state, want);
    assert_eq!((tables.ring, tables.finished), (all.ring, all.finished));
    assert_eq!((tables.records, tables.packets), (all.records, all.packets));
}

#[test]
fn w2_room_for_one() {
    let mut desk = Desk::new();
    let mut ring = desk.ring(64);
    ring.submit(&iso(&[1; 61])).unwrap();
    let plain = Request::Control {
        kind: 0,
        request: 9,
        value: 1,
        index: 0,
        address: 0,
        length: 0,
    };
    assert_eq!(ring.submit(&plain), Err(Refusal::QueueFull));
    assert!(ring.submit(&bulk(0x2_0000, 64)).is_ok());
}

#[test]
fn w3_w4_the_mask() {
    let mut desk = Desk::new();
    let mut ring = desk.ring(64);
    assert!(ring.submit(&bulk(0xffff_f000, 4095)).is_ok());
    assert!(ring.submit(&bulk(0xffff_f000, 4096)).is_ok());
    assert_eq!(ring.submit(&bulk(0xffff_f000, 4097)), Err(Refusal::OutOfReach));
}

/// 5 exactly where a byte of the buffer lies above the mask, for buffers round each mask, 2^64 - 1 among them.
#[test]
fn each_side_of_a_mask() {
    let mut desk = Desk::new();
    for mask in [0, 1, 0xfff, 0xffff_ffff, 1 << 63, u64::MAX - 1, u64::MAX] {
        for length in [0, 1, 2, 192, 4096, 65_536] {
            for below in 0..4 {
                // the last byte two above the mask, one above, at it, one below
                let address = mask.wrapping_add(3).wrapping_sub(below).wrapping_sub(length);
                let last = u128::from(address) + u128::from(length) - u128::from(length > 0);
                let fits = length == 0 || last <= u128::from(mask);
                let mut ring = desk.ring_below(mask, 8, 0x1_0000).unwrap();
                let have = ring.submit(&bulk(address, length));
                assert_eq!(have.is_ok(), fits, "{length} bytes at {address:x} under {mask:x}");
                assert!(fits || have == Err(Refusal::OutOfReach));
            }
        }
    }
}

/// A buffer that ends at 2^64, and an empty packet behind it: its address is 0.
#[test]
fn an_empty_packet_at_the_top() {
    let mut desk = Desk::new();
    let top = 192u64.wrapping_neg();
    let request = |length, packets| Request::Isoch {
        direction: In,
        address: top,
        length,
        packets,
    };
    let mut ring = desk.ring_below(u64::MAX, 8, 0x1_0000).unwrap();
    assert_eq!(ring.submit(&request(193, &[192, 1])), Err(Refusal::OutOfReach));
    let id = ring.submit(&request(192, &[192, 0])).unwrap().id;
    assert_eq!(ring.slot(0).unwrap()[..3], [0xffff_ff40, 0xffff_ffff, 192]);
    assert_eq!(ring.slot(1).unwrap()[..3], [0, 0, 0]);
    for slot in 0..2 {
        ring.hand_over(event(slot, 1, 0)).unwrap();
    }
    let done = ring.reclaim(id).unwrap();
    assert_eq!((done.length, done.received), (192, true));
    let counted: Vec<u32> = ring.packets(&done).map(|packet| packet.counted).collect();
    assert_eq!(counted, [192, 0]);
    let mut ring = desk.ring_below(u64::MAX - 1, 8, 0x1_0000).unwrap();
    assert_eq!(ring.submit(&request(192, &[192, 0])), Err(Refusal::OutOfReach));
}

#[test]
fn w5_a_bulk_trb() {
    let mut desk = Desk::new();
    let mut ring = desk.ring(64);
    ring.submit(&bulk(0x2_0000, 64)).unwrap();
    assert_eq!(ring.slot(0), Some([0x2_0000, 0, 64, 0x0000_0425]));
    assert_eq!(ring.slot(64), None);
}

#[test]
fn w6_w7_isochronous_trbs() {
    let mut desk = Desk::new();
    let mut ring = desk.ring(64);
    ring.configure(192, 0, 1).unwrap();
    ring.submit(&iso(&[192, 192])).unwrap();
    assert_eq!(ring.slot(0).unwrap()[3], 0x8000_1625);
    assert_eq!(ring.slot(1).unwrap()[3], 0x8000_1425);
    ring.configure(1024, 2, 1).unwrap();
    ring.submit(&iso(&[4096])).unwrap();
    let words = ring.slot(2).unwrap();
    assert_eq!((words[2], words[3] >> 16 & 15), (0x0002_1000, 0));
}

#[test]
fn w8_what_a_packet_is_worth() {
    let mut desk = Desk::new();
    let mut ring = desk.ring(64);
    for (slot, code, worth) in [(0, 28, Ok(100)), (1, 27, Ok(0)), (2, 6, Err(Refusal::Failed(6)))] {
        let bell = ring.submit(&iso(&[192])).unwrap();
        assert_eq!(ring.hand_over(event(slot, code, 100)), Ok(slot as usize));
        let done = ring.reclaim(bell.id);
        assert_eq!(done.map(|done| done.length), worth);
        if let Ok(done) = done {
            let packets: Vec<_> = ring.packets(&done).collect();
            assert_eq!(packets.len(), 1);
            assert_eq!((packets[0].requested, u64::from(packets[0].counted)), (192, done.length));
            assert!(packets[0].told);
            assert_eq!(done.received, done.length > 0);
        }
    }
    // the stall halted the endpoint: a reset is due
    assert!(matches!(ring.begin_reset(), Ok(thnaolups::Resetting::Commands { .. })));
}

#[test]
fn w9_ids_go_round() {
    let mut desk = Desk::new();
    let (mut state, tables) = desk.ring(64).into_parts();
    // the next id is the twelfth word
    assert_eq!(state[11], 1);
    state[11] = u64::MAX;
    let mut ring = Ring::from_parts(state, tables);
    assert_eq!(ring.submit(&bulk(0x2_0000, 64)).unwrap().id, u64::MAX);
    assert_eq!(ring.submit(&bulk(0x2_0000, 64)).unwrap().id, 1);
}

#[test]
fn w10_a_control_transfer_across_the_wrap() {
    let mut desk = Desk::new();
    let mut ring = desk.ring(5);
    for slot in 0..3 {
        let bell = ring.submit(&bulk(0x2_0000, 64)).unwrap();
        ring.hand_over(event(slot, 1, 0)).unwrap();
        assert_eq!(ring.reclaim(bell.id).unwrap().length, 64);
    }
    let at = ring.pointer().unwrap();
    assert_eq!((at.address, at.cycle), (0x1_0030, true));
    ring.start(&DESCRIPTOR).unwrap();
    assert_eq!(ring.pointer(), Err(Refusal::UnderWay));
    let mut stores = Vec::new();
    let last = loop {
        let stored = ring.store().unwrap();
        stores.push((stored.slot(), ring.slot(stored.slot()).unwrap()[3]));
        if let Stored::Last(_, bell) = stored {
            break bell;
        }
    };
    let want = [
        (3, 0x0003_0840),
        (4, 0x0000_1803),
        (0, 0x0001_0c04),
        (1, 0x0000_1020),
        (3, 0x0003_0841),
    ];
    assert_eq!(stores, want);
    assert_eq!(ring.slot(4), Some([0x1_0000, 0, 0, 0x1803]));
    assert_eq!((last.id, last.doorbell), (4, 1));
    let at = ring.pointer().unwrap();
    assert_eq!((at.address, at.cycle), (0x1_0020, false));
    assert_eq!(ring.store(), Err(Refusal::Nothing));
}

#[test]
fn cancel_stop_retire_and_reset() {
    let mut desk = Desk::new();
    let mut ring = desk.ring(16);
    let first = ring.submit(&bulk(0x2_0000, 64)).unwrap();
    let second = ring.submit(&bulk(0x2_0000, 64)).unwrap();
    assert_eq!(ring.cancel(first.id), Ok(()));
    assert_eq!(ring.cancel(9), Err(Refusal::NotInFlight));
    assert_eq!(ring.hand_over(event(0, 1, 0)), Ok(0));
    assert_eq!(ring.hand_over(event(16, 1, 0)), Err(Refusal::Foreign));
    assert_eq!(ring.reclaim(first.id), Err(Refusal::Cancelled));
    assert_eq!(ring.reclaim(second.id), Err(Refusal::Nothing));
    // Stop Endpoint (15) and Set TR Dequeue (16) name endpoint 1 of slot id 1
    assert_eq!(ring.stop(), Ok([0, 0, 0, 0x0101_3c00]));
    assert_eq!(ring.resume(), Ok([0x1_0021, 0, 0, 0x0101_4000]));
    assert_eq!(ring.begin_reset(), Err(Refusal::QueueFull));
    assert_eq!(ring.retire(), Ok(()));
    assert_eq!(ring.begin_reset(), Ok(thnaolups::Resetting::Clear));
    assert_eq!(ring.end_reset(true), Err(Refusal::Nothing));
    assert_eq!(ring.reclaim(second.id), Err(Refusal::Cancelled));
    assert_eq!(ring.reclaim(second.id), Err(Refusal::Nothing));
    // a stall, and its reset
    let third = ring.submit(&bulk(0x2_0000, 64)).unwrap();
    ring.hand_over(event(2, 6, 64)).unwrap();
    assert_eq!(ring.reclaim(third.id), Err(Refusal::Failed(6)));
    let Ok(thnaolups::Resetting::Commands { reset, dequeue }) = ring.begin_reset() else {
        panic!("a halted endpoint has a reset to do");
    };
    assert_eq!(reset, [0, 0, 0, 0x0101_3800]);
    assert_eq!(dequeue, [0x1_0031, 0, 0, 0x0101_4000]);
    assert_eq!(ring.submit(&bulk(0x2_0000, 64)), Err(Refusal::QueueFull));
    // the commands did not work: the endpoint is halted still
    assert_eq!(ring.end_reset(false), Ok(()));
    assert!(matches!(ring.begin_reset(), Ok(thnaolups::Resetting::Commands { .. })));
    assert_eq!(ring.end_reset(true), Ok(()));
    assert_eq!(ring.begin_reset(), Ok(thnaolups::Resetting::Clear));
    assert!(ring.submit(&bulk(0x2_0000, 64)).is_ok());
}

/// Bytes that go out are moved, and none are received; the kind of a request stands in its record.
#[test]
fn kinds_and_directions() {
    let mut desk = Desk::new();
    let mut ring = desk.ring(16);
    let interrupt = Request::Interrupt {
        direction: thnaolups::Direction::Out,
        address: 0x2_0000,
        length: 8,
    };
    let bell = ring.submit(&interrupt).unwrap();
    assert_eq!((ring.tables().records[0], ring.tables().records[1]), (bell.id, 2));
    ring.hand_over(event(0, 1, 0)).unwrap();
    let done = ring.reclaim(bell.id).unwrap();
    assert_eq!((done.length, done.received), (8, false));
    assert_eq!(ring.packets(&done).count(), 0);
    for (request, kind) in [(DESCRIPTOR, 0), (bulk(0x2_0000, 64), 1), (interrupt, 2), (iso(&[8]), 3)] {
        ring.submit(&request).unwrap();
        assert_eq!(ring.tables().records[1], kind);
        ring.retire().unwrap();
        assert_eq!(ring.reclaim(bell.id + 1 + kind), Err(Refusal::Cancelled));
    }
}

/// Every number of slots, at the first and the last multiple of its alignment and at some between.
#[test]
fn a_ring_at_its_alignment() {
    let mut desk = Desk::new();
    for slots in LEAST_SLOTS..=MOST_SLOTS {
        let align = alignment(slots) as u64;
        for base in [0, align, 3 * align, 15 * align, align.wrapping_neg()] {
            assert!(desk.ring_at(slots, base).is_ok(), "{slots} slots at {base:x}");
        }
    }
    assert_eq!(alignment(0), 4096);
    assert_eq!(alignment(usize::MAX), 65536);
}

#[test]
fn a_ring_outside_the_limits() {
    let mut desk = Desk::new();
    let place = Place {
        slots: 4096,
        base: 0x1_0000,
        mask: u64::MAX,
        slot: 255,
        dci: 31,
    };
    let refused = |desk: &mut Desk, place: Place| {
        let tables = Tables {
            ring: &mut desk.ring,
            finished: &mut desk.finished,
            records: &mut desk.records,
            packets: &mut desk.packets,
        };
        Ring::make(tables, place).err()
    };
    assert_eq!(refused(&mut desk, place), None);
    assert_eq!(
        refused(
            &mut desk,
            Place {
                base: u64::MAX - 0xffff,
                ..place
            }
        ),
        None
    );
    let outside = Some(Refusal::OutsideLimits);
    assert_eq!(refused(&mut desk, Place { slots: 2, ..place }), outside);
    assert_eq!(refused(&mut desk, Place { slots: 4097, ..place }), outside);
    assert_eq!(refused(&mut desk, Place { base: 0x800, ..place }), outside);
    assert_eq!(refused(&mut desk, Place { slot: 0, ..place }), outside);
    assert_eq!(refused(&mut desk, Place { dci: 0, ..place }), outside);
    assert_eq!(refused(&mut desk, Place { dci: 32, ..place }), outside);
    // across a multiple of 65,536
    assert_eq!(refused(&mut desk, Place { base: 0xf000, ..place }), outside);
    assert_eq!(refused(&mut desk, Place { base: 0x1_1000, ..place }), outside);
    // within the limits, but the tables are those of another ring
    assert_eq!(refused(&mut desk, Place { slots: 4095, ..place }), Some(Refusal::Unfit));
}
