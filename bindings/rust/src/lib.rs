//! A proved xHCI transfer ring for Rust drivers: the producer ring and the endpoint bookkeeping of a USB host, over the static library `dock_c`.
//!
//! Every call of the library is proved equal to a definition, for any endpoint, tables and arguments; this crate declares the library's
//! functions once and gives them types. It is `no_std`, allocates nothing and has no dependency, and its users write no `unsafe`.
//!
//! A [`Ring`] holds an endpoint and borrows its four tables. A driver submits a [`Request`], rings the doorbell, hands over each transfer event
//! and reclaims the request by its id:
//!
//! ```
//! use thnaolups::{Direction, Place, Request, Ring, Tables, PACKETS_SIZE, RECORDS_SIZE};
//!
//! let (mut ring, mut finished) = ([0u32; 4 * 16], [0u32; 4 * 16]);
//! let (mut records, mut packets) = ([0u64; RECORDS_SIZE], [0u64; PACKETS_SIZE]);
//! let tables = Tables { ring: &mut ring, finished: &mut finished, records: &mut records, packets: &mut packets };
//! let place = Place { slots: 16, base: 0x1_0000, mask: 0xffff_ffff, slot: 1, dci: 3 };
//! let mut ring = Ring::make(tables, place)?;
//!
//! let bell = ring.submit(&Request::Bulk { direction: Direction::In, address: 0x2_0000, length: 64 })?;
//! assert_eq!((bell.id, bell.doorbell), (1, 3));
//! // the doorbell is rung; the controller writes an event for slot 0: Short Packet (13), 14 bytes not moved
//! ring.hand_over([0x1_0000, 0, 0x0d00_000e, 0x0103_8000])?;
//! let done = ring.reclaim(bell.id)?;
//! assert_eq!((done.length, done.received), (50, true));
//! # Ok::<(), thnaolups::Refusal>(())
//! ```
//!
//! # What the driver keeps to itself
//! The ring's memory is shared with the controller: it stands at the bus address `base`, and the driver sees to it that the controller finds
//! there what was stored. Within one call the stores are plain ones, which a compiler or a processor may reorder before the call returns. So a
//! driver whose controller may be reading the ring goes store by store ([`Ring::start`], [`Ring::store`]) and puts its barrier between the
//! stores, or at least before the last one, which publishes a control transfer; one that submits whole ([`Ring::submit`]) puts it before the
//! doorbell.
#![no_std]
#![deny(missing_docs, unsafe_code)]

#[cfg(not(target_pointer_width = "64"))]
compile_error!("the library counts in 64 bits");

#[allow(unsafe_code)]
pub mod calls;
#[allow(unsafe_code)]
mod raw;

use core::fmt;

pub use raw::{ANSWER_WORDS, PACKETS, RECORD_COUNT, RECORD_WORDS, REQUEST_WORDS, STATE_WORDS};

/// The words of a slot of the ring, and of a place of the finished table.
pub const SLOT_WORDS: usize = 4;
/// The bytes of a slot of the ring.
pub const SLOT_BYTES: usize = 16;
/// The least slots of a ring.
pub const LEAST_SLOTS: usize = 3;
/// The most slots of a ring.
pub const MOST_SLOTS: usize = 4096;

/// The alignment of its bus address to ask an allocator for: a ring of so many slots, at most [`MOST_SLOTS`], at any multiple of it below 2^64 is
/// within the limits of [`Place::base`].
///
/// ```
/// assert_eq!(thnaolups::alignment(256), 4096);
/// assert_eq!(thnaolups::alignment(257), 8192);
/// assert_eq!(thnaolups::alignment(4096), 65536);
/// ```
pub const fn alignment(slots: usize) -> usize {
    let mut align = 4096;
    while align < 65536 && align / SLOT_BYTES < slots {
        align *= 2;
    }
    align
}

/// The words of the request records.
pub const RECORDS_SIZE: usize = RECORD_COUNT * RECORD_WORDS;
/// The words of the packet records.
pub const PACKETS_SIZE: usize = RECORD_COUNT * PACKETS;

/// The tables that a ring works on, lent by the driver.
#[derive(Debug)]
pub struct Tables<'a> {
    /// The ring itself, [`SLOT_WORDS`] words a slot: what the controller reads.
    pub ring: &'a mut [u32],
    /// The events that were handed over and not yet overwritten, [`SLOT_WORDS`] words a slot.
    pub finished: &'a mut [u32],
    /// The request records, [`RECORDS_SIZE`] words.
    pub records: &'a mut [u64],
    /// The packet records, [`PACKETS_SIZE`] words.
    pub packets: &'a mut [u64],
}

/// Where a ring stands and whose it is.
#[derive(Clone, Copy, Debug, PartialEq, Eq)]
pub struct Place {
    /// The slots of the ring, the link's included: 3 to 4,096.
    pub slots: usize,
    /// The bus address of slot 0: a multiple of 4,096 from which on the ring crosses no multiple of 65,536. [`alignment`] says how to get one.
    pub base: u64,
    /// The highest address that the controller reaches: a buffer's last byte may have it.
    pub mask: u64,
    /// The slot id of the device, 1 to 255.
    pub slot: u8,
    /// The endpoint's device context index, 1 to 31.
    pub dci: u8,
}

/// Which way the bytes of a transfer go.
#[derive(Clone, Copy, Debug, PartialEq, Eq)]
pub enum Direction {
    /// To the device.
    Out,
    /// From the device.
    In,
}

/// A request. Lengths are in bytes and addresses are the bus's.
#[derive(Clone, Copy, Debug, PartialEq, Eq)]
pub enum Request<'a> {
    /// A control transfer: the fields of its setup packet, and a data stage where `length` is above 0.
    Control {
        /// The request type; bit 7 is set where data comes in.
        kind: u8,
        /// The request.
        request: u8,
        /// Its value.
        value: u16,
        /// Its index.
        index: u16,
        /// The data's address.
        address: u64,
        /// The data's length, at most 65,535.
        length: u64,
    },
    /// A bulk transfer.
    Bulk {
        /// Which way it goes.
        direction: Direction,
        /// The buffer's address.
        address: u64,
        /// Its length, at most 65,536.
        length: u64,
    },
    /// An interrupt transfer.
    Interrupt {
        /// Which way it goes.
        direction: Direction,
        /// The buffer's address.
        address: u64,
        /// Its length, at most 65,536.
        length: u64,
    },
    /// An isochronous transfer: one TRB a packet.
    Isoch {
        /// Which way it goes.
        direction: Direction,
        /// The buffer's address.
        address: u64,
        /// Its length, at least the sum of the packets.
        length: u64,
        /// The lengths of its packets, at most 64 of at most 65,536 bytes. None means one packet of length 0.
        packets: &'a [u64],
    },
}

impl Request<'_> {
    /// The request as the words that cross to the library.
    pub fn words(&self) -> [u64; REQUEST_WORDS] {
        match *self {
            Request::Control {
                kind,
                request,
                value,
                index,
                address,
                length,
            } => [0, 0, kind.into(), request.into(), value.into(), index.into(), address, length],
            Request::Bulk {
                direction,
                address,
                length,
            } => plain(1, direction, address, length),
            Request::Interrupt {
                direction,
                address,
                length,
            } => plain(2, direction, address, length),
            Request::Isoch {
                direction,
                address,
                length,
                ..
            } => plain(3, direction, address, length),
        }
    }

    /// The lengths of its packets; of any other kind there are none.
    pub fn lengths(&self) -> &[u64] {
        match self {
            Request::Isoch { packets, .. } => packets,
            _ => &[],
        }
    }
}

fn plain(kind: u64, direction: Direction, address: u64, length: u64) -> [u64; REQUEST_WORDS] {
    [kind, (direction == Direction::In).into(), 0, 0, 0, 0, address, length]
}

/// Why a call was not done: the rows of document 01's "When the dock says no". A refusal leaves everything as it was, but for
/// [`Cancelled`](Refusal::Cancelled), [`Failed`](Refusal::Failed) and [`PacketsDiffer`](Refusal::PacketsDiffer), which free the request's
/// record, and [`Nothing`](Refusal::Nothing), which keeps the packet lengths that the reclaim has recorded.
#[derive(Clone, Copy, Debug, PartialEq, Eq)]
pub enum Refusal {
    /// 1: tables of the wrong size, or a state or a request that does not fit.
    Unfit,
    /// 2: a reset under way, or no room for the request's TRBs; for a reset, requests in flight.
    QueueFull,
    /// 3: a data length over its limit, over 64 packets, or packets longer than the buffer.
    TooLong,
    /// 4: all 64 records are taken.
    NoRecord,
    /// 5: the buffer has a byte above [`Place::mask`]. One whose last byte is the mask's is admitted.
    OutOfReach,
    /// 6: the id to cancel is not in flight.
    NotInFlight,
    /// 7: the request was cancelled or stopped. Its record is freed.
    Cancelled,
    /// 8: the completion code is an error; here it is. The record is freed; code 6 (Stall) halts the endpoint.
    Failed(u8),
    /// 9: the request's packets and the lengths given are not as many. The record is freed.
    PacketsDiffer,
    /// 10: an id that is unknown or not finished; a store or an end of reset with none under way.
    Nothing,
    /// 11: no transfer event, or one of another slot, endpoint or ring.
    Foreign,
    /// 12: a submission's stores are under way; only [`Ring::store`] is served.
    UnderWay,
    /// 13: a ring outside the limits.
    OutsideLimits,
}

impl Refusal {
    /// Document 01's number.
    pub fn number(&self) -> u32 {
        match self {
            Refusal::Unfit => 1,
            Refusal::QueueFull => 2,
            Refusal::TooLong => 3,
            Refusal::NoRecord => 4,
            Refusal::OutOfReach => 5,
            Refusal::NotInFlight => 6,
            Refusal::Cancelled => 7,
            Refusal::Failed(_) => 8,
            Refusal::PacketsDiffer => 9,
            Refusal::Nothing => 10,
            Refusal::Foreign => 11,
            Refusal::UnderWay => 12,
            Refusal::OutsideLimits => 13,
        }
    }
}

impl fmt::Display for Refusal {
    fn fmt(&self, f: &mut fmt::Formatter<'_>) -> fmt::Result {
        match self {
            Refusal::Unfit => f.write_str("tables or state do not fit"),
            Refusal::QueueFull => f.write_str("queue full"),
            Refusal::TooLong => f.write_str("a length is over its limit"),
            Refusal::NoRecord => f.write_str("all records are taken"),
            Refusal::OutOfReach => f.write_str("buffer with a byte above the mask"),
            Refusal::NotInFlight => f.write_str("request not in flight"),
            Refusal::Cancelled => f.write_str("cancelled"),
            Refusal::Failed(code) => write!(f, "completion code {code}"),
            Refusal::PacketsDiffer => f.write_str("packets and lengths differ in number"),
            Refusal::Nothing => f.write_str("nothing"),
            Refusal::Foreign => f.write_str("an event of another ring"),
            Refusal::UnderWay => f.write_str("a submission's stores are under way"),
            Refusal::OutsideLimits => f.write_str("outside the limits of a ring"),
        }
    }
}

impl core::error::Error for Refusal {}

/// The answer of a call: what it tells, or why it was not done.
pub type Answer<T> = Result<T, Refusal>;

/// A submission that is whole: its id, and the doorbell word to ring with.
#[derive(Clone, Copy, Debug, PartialEq, Eq)]
pub struct Bell {
    /// The id by which the request is reclaimed or cancelled.
    pub id: u64,
    /// The word for the device's doorbell register: the dci.
    pub doorbell: u32,
}

/// What one store did.
#[derive(Clone, Copy, Debug, PartialEq, Eq)]
pub enum Stored {
    /// The slot that changed; more stores follow.
    Slot(usize),
    /// The slot that changed by the submission's last store: the doorbell may be rung.
    Last(usize, Bell),
}

impl Stored {
    /// The slot that changed.
    pub fn slot(&self) -> usize {
        match *self {
            Stored::Slot(slot) | Stored::Last(slot, _) => slot,
        }
    }
}

/// A request that is done.
#[derive(Clone, Copy, Debug, PartialEq, Eq)]
pub struct Completion {
    /// Its id.
    pub id: u64,
    /// The bytes moved, of all packets together.
    pub length: u64,
    /// Whether there are any and they came in.
    pub received: bool,
    record: usize,
    packets: usize,
}

/// A packet of an isochronous request.
#[derive(Clone, Copy, Debug, PartialEq, Eq)]
pub struct Packet {
    /// The bytes asked for.
    pub requested: u32,
    /// The bytes counted.
    pub counted: u32,
    /// Whether its event, or a later packet's, has told it.
    pub told: bool,
}

/// The words of a TRB, of a command or of an event.
pub type Words = [u32; SLOT_WORDS];

/// What there is to do for a reset.
#[derive(Clone, Copy, Debug, PartialEq, Eq)]
pub enum Resetting {
    /// Nothing: the endpoint is not halted.
    Clear,
    /// Two commands to send, in this order; [`Ring::end_reset`] is told whether they worked.
    Commands {
        /// Reset Endpoint.
        reset: Words,
        /// Set TR Dequeue Pointer.
        dequeue: Words,
    },
}

/// Where the producer stands.
#[derive(Clone, Copy, Debug, PartialEq, Eq)]
pub struct Pointer {
    /// The bus address of the next TRB.
    pub address: u64,
    /// Its cycle bit.
    pub cycle: bool,
}

/// The values that go with an answer.
struct Told([u64; ANSWER_WORDS]);

impl Told {
    fn count(&self) -> u64 {
        self.0[0]
    }

    fn value(&self, i: usize) -> u64 {
        self.0[1 + i]
    }

    fn words(&self, at: usize) -> Words {
        core::array::from_fn(|i| self.value(at + i) as u32)
    }
}

/// An answer's number, as what it says. The calls give no number but those of the table.
fn answered<T>(number: u32, code: u64, done: impl FnOnce() -> T) -> Answer<T> {
    Err(match number {
        0 => return Ok(done()),
        2 => Refusal::QueueFull,
        3 => Refusal::TooLong,
        4 => Refusal::NoRecord,
        5 => Refusal::OutOfReach,
        6 => Refusal::NotInFlight,
        7 => Refusal::Cancelled,
        8 => Refusal::Failed(code as u8),
        9 => Refusal::PacketsDiffer,
        10 => Refusal::Nothing,
        11 => Refusal::Foreign,
        12 => Refusal::UnderWay,
        13 => Refusal::OutsideLimits,
        _ => Refusal::Unfit,
    })
}

/// An endpoint with its ring: every call of the library.
#[derive(Debug)]
pub struct Ring<'a> {
    state: [u64; STATE_WORDS],
    tables: Tables<'a>,
}

impl<'a> Ring<'a> {
    /// Makes a ring: zeroes it and empties the tables, whose sizes must be those of `place.slots`.
    pub fn make(tables: Tables<'a>, place: Place) -> Answer<Self> {
        let mut state = [0; STATE_WORDS];
        let number = calls::make(
            &mut state,
            tables.ring,
            tables.finished,
            tables.records,
            tables.packets,
            place.slots,
            place.base,
            place.mask,
            place.slot,
            place.dci,
        );
        answered(number, 0, || Ring { state, tables })
    }

    /// A ring from an endpoint's words and its tables, as [`Ring::into_parts`] gave them. Any words are safe: where one is too wide for its field,
    /// or slots, base, slot id, dci, place or next id is outside the limits, every call answers 1; where a submission is under way that no record
    /// has, the calls that are lent the records do.
    pub fn from_parts(state: [u64; STATE_WORDS], tables: Tables<'a>) -> Self {
        Ring { state, tables }
    }

    /// The endpoint's words and the tables.
    pub fn into_parts(self) -> ([u64; STATE_WORDS], Tables<'a>) {
        (self.state, self.tables)
    }

    /// The endpoint's words.
    pub fn state(&self) -> &[u64; STATE_WORDS] {
        &self.state
    }

    /// The tables as they stand.
    pub fn tables(&self) -> &Tables<'a> {
        &self.tables
    }

    /// The words of a slot, if the ring has it.
    pub fn slot(&self, slot: usize) -> Option<Words> {
        let at = slot.checked_mul(SLOT_WORDS)?;
        self.tables.ring.get(at..)?.first_chunk().copied()
    }

    /// Sets max packet size, burst and interval of a periodic endpoint; an interval of 0 is taken as 1.
    pub fn configure(&mut self, packet: u16, burst: u8, interval: u8) -> Answer<()> {
        let number = calls::configure(&mut self.state, packet, burst, interval);
        answered(number, 0, || ())
    }

    /// Starts a submission: it takes id, record and count, and stores no TRB. Its stores follow, one [`Ring::store`] each.
    pub fn start(&mut self, request: &Request<'_>) -> Answer<()> {
        let number = calls::start(
            &mut self.state,
            self.tables.records,
            self.tables.packets,
            &request.words(),
            request.lengths(),
        );
        answered(number, 0, || ())
    }

    /// The next store of the submission under way: it changes one slot.
    pub fn store(&mut self) -> Answer<Stored> {
        let mut told = Told([0; ANSWER_WORDS]);
        let number = calls::store(
            &mut self.state,
            &mut told.0,
            self.tables.ring,
            self.tables.finished,
            self.tables.records,
            self.tables.packets,
        );
        answered(number, 0, || {
            let slot = told.value(0) as usize;
            if told.count() == 1 {
                return Stored::Slot(slot);
            }
            Stored::Last(
                slot,
                Bell {
                    id: told.value(1),
                    doorbell: told.value(2) as u32,
                },
            )
        })
    }

    /// A whole submission: the start and its stores in order.
    pub fn submit(&mut self, request: &Request<'_>) -> Answer<Bell> {
        let mut told = Told([0; ANSWER_WORDS]);
        let number = calls::submit(
            &mut self.state,
            &mut told.0,
            self.tables.ring,
            self.tables.finished,
            self.tables.records,
            self.tables.packets,
            &request.words(),
            request.lengths(),
        );
        answered(number, 0, || Bell {
            id: told.value(0),
            doorbell: told.value(1) as u32,
        })
    }

    /// Hands over a transfer event: the slot whose TRB it is for.
    pub fn hand_over(&mut self, event: Words) -> Answer<usize> {
        let mut told = Told([0; ANSWER_WORDS]);
        let number = calls::hand_over(&self.state, &mut told.0, self.tables.finished, event);
        answered(number, 0, || told.value(0) as usize)
    }

    /// Reclaims a request. [`Ring::packets`] has its packets.
    pub fn reclaim(&mut self, id: u64) -> Answer<Completion> {
        let mut told = Told([0; ANSWER_WORDS]);
        let number = calls::reclaim(
            &mut self.state,
            &mut told.0,
            self.tables.finished,
            self.tables.records,
            self.tables.packets,
            id,
        );
        answered(number, told.value(0), || Completion {
            id: told.value(0),
            length: told.value(1),
            received: told.value(2) != 0,
            record: told.value(3) as usize,
            packets: told.value(4) as usize,
        })
    }

    /// The packets of a request that is done, in order. They stand until a submission takes its record again, so they are read next.
    pub fn packets(&self, done: &Completion) -> impl Iterator<Item = Packet> + '_ {
        let at = done.record.saturating_mul(PACKETS).min(self.tables.packets.len());
        let count = done.packets;
        self.tables.packets[at..].iter().take(count).map(|w| Packet {
            requested: *w as u32,
            counted: (w >> 32) as u32 & 0x7fff_ffff,
            told: w >> 63 != 0,
        })
    }

    /// Cancels a request: its reclaim will answer [`Refusal::Cancelled`].
    pub fn cancel(&mut self, id: u64) -> Answer<()> {
        let number = calls::cancel(&self.state, self.tables.records, id);
        answered(number, 0, || ())
    }

    /// After a stop: every request in flight becomes stopped, and its reclaim will answer [`Refusal::Cancelled`].
    pub fn retire(&mut self) -> Answer<()> {
        let number = calls::retire(&mut self.state, self.tables.records);
        answered(number, 0, || ())
    }

    /// Begins a reset of a halted endpoint.
    pub fn begin_reset(&mut self) -> Answer<Resetting> {
        let mut told = Told([0; ANSWER_WORDS]);
        let number = calls::begin_reset(&mut self.state, &mut told.0, self.tables.records);
        answered(number, 0, || {
            if told.count() == 0 {
                return Resetting::Clear;
            }
            Resetting::Commands {
                reset: told.words(0),
                dequeue: told.words(4),
            }
        })
    }

    /// Ends a reset, told whether its commands worked.
    pub fn end_reset(&mut self, worked: bool) -> Answer<()> {
        let number = calls::end_reset(&mut self.state, worked.into());
        answered(number, 0, || ())
    }

    /// The words of Stop Endpoint.
    pub fn stop(&self) -> Answer<Words> {
        let mut told = Told([0; ANSWER_WORDS]);
        let number = calls::stop(&self.state, &mut told.0);
        answered(number, 0, || told.words(0))
    }

    /// The words of Set TR Dequeue Pointer, with which a stopped endpoint goes on at the producer's place.
    pub fn resume(&self) -> Answer<Words> {
        let mut told = Told([0; ANSWER_WORDS]);
        let number = calls::resume(&self.state, &mut told.0);
        answered(number, 0, || told.words(0))
    }

    /// Where the producer stands.
    pub fn pointer(&self) -> Answer<Pointer> {
        let mut told = Told([0; ANSWER_WORDS]);
        let number = calls::pointer(&self.state, &mut told.0);
        answered(number, 0, || Pointer {
            address: told.value(0),
            cycle: told.value(1) != 0,
        })
    }
}
