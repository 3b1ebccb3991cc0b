//! A lesson of an isochronous sensor: three packets of 192 bytes, of which the second comes short and the first is never told.
//!
//! `cargo run --example lesson` writes every store, and what each packet came to.
use thnaolups::{Answer, Direction, Place, Request, Ring, Stored, Tables, PACKETS_SIZE, RECORDS_SIZE};

const SLOTS: usize = 16;
const BASE: u64 = 0x1_0000;

/// The words of a transfer event for a slot: what a controller writes.
fn event(slot: usize, code: u32, remaining: u32) -> [u32; 4] {
    [
        (BASE as u32) + 16 * slot as u32,
        0,
        code << 24 | remaining,
        1 << 24 | 3 << 16 | 32 << 10,
    ]
}

fn main() -> Answer<()> {
    let (mut ring, mut finished) = ([0; 4 * SLOTS], [0; 4 * SLOTS]);
    let (mut records, mut packets) = ([0; RECORDS_SIZE], [0; PACKETS_SIZE]);
    let tables = Tables {
        ring: &mut ring,
        finished: &mut finished,
        records: &mut records,
        packets: &mut packets,
    };
    let place = Place {
        slots: SLOTS,
        base: BASE,
        mask: 0xffff_ffff,
        slot: 1,
        dci: 3,
    };
    let mut ring = Ring::make(tables, place)?;
    ring.configure(192, 0, 1)?;

    // store by store, as a driver does that puts a barrier between them
    ring.start(&Request::Isoch {
        direction: Direction::In,
        address: 0x2_0000,
        length: 576,
        packets: &[192; 3],
    })?;
    let bell = loop {
        let stored = ring.store()?;
        let words = ring.slot(stored.slot()).expect("a slot of the ring");
        println!("slot {} {:08x?}", stored.slot(), words);
        if let Stored::Last(_, bell) = stored {
            break bell;
        }
    };
    println!("ring the doorbell with {}", bell.doorbell);

    // Short Packet (13): 100 bytes of the second packet did not come; then the third, whole (1); the first has no event
    ring.hand_over(event(1, 13, 100))?;
    println!("not yet: {:?}", ring.reclaim(bell.id));
    ring.hand_over(event(2, 1, 0))?;
    let done = ring.reclaim(bell.id)?;
    println!("request {}: {} bytes", done.id, done.length);
    for (i, packet) in ring.packets(&done).enumerate() {
        println!("packet {i}: {} of {}", packet.counted, packet.requested);
    }
    Ok(())
}
