//! Submit, hand over and reclaim of ISO requests: the unchanged Rust and our library in one program, by turns.
//!
//!     bench table BLOCKS                         the table: nanoseconds a request, the least of BLOCKS blocks
//!     bench first BLOCKS                         its first row
//!     bench bursts BLOCKS                        submissions of 64 packets that need burst counts of each kind
//!     bench count rust|ours L PACKETS DEPTH N    N requests of one side, for counting instructions
//!     bench count rust|ours L PACKETS DEPTH N MAX_PACKET BURST LENGTHS    the same of a row of `bursts`
//!
//! A packet is 192 bytes in, max packet 192, but in `bursts`. A request's events are handed over at once, coded Success, in order; DEPTH requests
//! are in flight when one is reclaimed, the oldest. The Rust's request (a vector of lengths) is made before the time is taken. What the clock
//! itself costs is taken off.
#[cfg(ours)]
mod ours;
mod rust;

use std::{
    collections::VecDeque,
    env,
    hint::black_box,
    time::{Duration, Instant},
};

pub const BASE: u64 = 0x10000;
pub const BUFFER: u64 = 0x20_0000;
pub const PACKET: usize = 192;
pub const SLOT: u8 = 1;
pub const DCI: u8 = 3;

/// What a request asks for: packets of these lengths, at a max packet size and a burst.
pub struct Load {
    pub lengths: Vec<usize>,
    pub packet: u16,
    pub burst: u8,
}

impl Load {
    fn plain(packets: usize) -> Self {
        Self {
            lengths: vec![PACKET; packets],
            packet: PACKET as u16,
            burst: 0,
        }
    }

    /// Lengths by their name in `bursts`. Where they differ, all of them do: none is remembered from the packet before it.
    fn named(name: &str, packets: usize, packet: u16, burst: u8) -> Self {
        let one = usize::from(packet);
        let burst_bytes = one * (usize::from(burst) + 1);
        let up_to = |end: usize| (0..packets).map(|i| end - i).collect();
        let lengths = match name {
            "packet" => up_to(one),
            "burst" => up_to(burst_bytes),
            "two" => up_to(2 * burst_bytes),
            // from one 64th of two bursts to two bursts, in no order
            "mixed" => (0..packets).map(|i| (i * 29 % 64 + 1) * (burst_bytes / 32)).collect(),
            "same-packet" => vec![one; packets],
            "same-two" => vec![2 * burst_bytes; packets],
            _ => panic!("{}", NAMES.map(|(name, _)| name).join(", ")),
        };
        Self { lengths, packet, burst }
    }

    pub fn bytes(&self) -> usize {
        self.lengths.iter().sum()
    }
}

const NAMES: [(&str, &str); 6] = [
    ("packet", "up to the max packet size"),
    ("burst", "up to a whole burst"),
    ("two", "up to two bursts"),
    ("mixed", "mixed, up to two bursts"),
    ("same-packet", "all the max packet size"),
    ("same-two", "all two bursts"),
];

pub trait Side {
    fn prepare(&mut self);
    fn submit(&mut self) -> u64;
    fn hand_over(&mut self, words: [u32; 4]);
    fn reclaim(&mut self, id: u64) -> u64;
}

/// One side with its requests in flight.
struct Lane {
    side: Box<dyn Side>,
    slots: usize,
    packets: usize,
    bytes: usize,
    depth: usize,
    place: usize,
    waiting: VecDeque<u64>,
}

impl Lane {
    fn new(side: Box<dyn Side>, slots: usize, load: &Load, depth: usize) -> Self {
        let mut lane = Self {
            side,
            slots,
            packets: load.lengths.len(),
            bytes: load.bytes(),
            depth,
            place: 0,
            waiting: VecDeque::with_capacity(depth),
        };
        while lane.waiting.len() + 1 < depth {
            lane.once();
        }
        lane
    }

    /// One request more; the oldest is reclaimed where DEPTH are in flight. Gives the time of each phase.
    fn once(&mut self) -> [Duration; 3] {
        self.side.prepare();
        let t0 = Instant::now();
        let id = black_box(self.side.submit());
        let t1 = Instant::now();
        for _ in 0..self.packets {
            let address = BASE + 16 * self.place as u64;
            let w3 = 32 << 10 | u32::from(DCI) << 16 | u32::from(SLOT) << 24;
            self.side
                .hand_over(black_box([address as u32, (address >> 32) as u32, 1 << 24, w3]));
            self.place = if self.place == self.slots - 2 { 0 } else { self.place + 1 };
        }
        self.waiting.push_back(id);
        let t2 = Instant::now();
        if self.waiting.len() == self.depth {
            let oldest = self.waiting.pop_front().expect("a request");
            let total = self.side.reclaim(black_box(oldest));
            assert_eq!(total, self.bytes as u64);
        }
        let t3 = Instant::now();
        [t1 - t0, t2 - t1, t3 - t2]
    }

    fn block(&mut self, requests: u32) -> [f64; 3] {
        let mut sums = [Duration::ZERO; 3];
        for _ in 0..requests {
            for (sum, part) in sums.iter_mut().zip(self.once()) {
                *sum += part;
            }
        }
        sums.map(|sum| sum.as_secs_f64() * 1e9 / f64::from(requests))
    }
}

/// What two readings of the clock cost by themselves: the least of many blocks.
fn clock() -> f64 {
    let mut least = f64::MAX;
    for _ in 0..200 {
        let mut sum = Duration::ZERO;
        for _ in 0..1000 {
            let t0 = Instant::now();
            let t1 = Instant::now();
            sum += t1 - t0;
        }
        least = least.min(sum.as_secs_f64() * 1e9 / 1000.0);
    }
    least
}

fn sides(slots: usize, load: &Load, depth: usize) -> Vec<(&'static str, Lane)> {
    let mut sides: Vec<(&'static str, Lane)> = Vec::new();
    let rust = Box::new(rust::Rust::new(slots, load));
    sides.push(("Rust", Lane::new(rust, slots, load, depth)));
    #[cfg(ours)]
    {
        let ours = Box::new(ours::Ours::new(slots, load));
        sides.push(("ours", Lane::new(ours, slots, load, depth)));
    }
    sides
}

/// The least of the blocks, the sides by turns.
fn row(slots: usize, load: &Load, depth: usize, blocks: u32, off: f64) -> Vec<(&'static str, [f64; 3])> {
    let mut sides = sides(slots, load, depth);
    let mut least = vec![[f64::MAX; 3]; sides.len()];
    let requests = (64_000 / load.lengths.len() as u32).clamp(200, 2000);
    for _ in 0..blocks {
        for ((_, lane), least) in sides.iter_mut().zip(&mut least) {
            for (least, time) in least.iter_mut().zip(lane.block(requests)) {
                *least = least.min(time);
            }
        }
    }
    sides
        .iter()
        .zip(least)
        .map(|((name, _), times)| (*name, times.map(|time| (time - off).max(0.0))))
        .collect()
}

/// Says how it is measured, and gives what the clock costs.
fn head(blocks: u32) -> f64 {
    let off = clock();
    let queue = if cfg!(feature = "plain-queue") {
        "a plain table in the place of queue.rs"
    } else {
        "queue.rs as it is"
    };
    println!("ns a request, least of {blocks} blocks, by turns; the Rust with {queue}; two clock readings, {off:.1} ns, are taken off");
    off
}

fn table(blocks: u32, first: bool) {
    let off = head(blocks);
    println!("| L | packets | in flight | side | submit | hand over | reclaim | whole | submit a packet |");
    println!("|---|---|---|---|---|---|---|---|---|");
    let mut rows = vec![(4096, 64, 1)];
    rows.extend([64, 128, 256, 1024, 2048, 4096].map(|slots| (slots, 32, 1)));
    rows.extend([1, 2, 4, 8, 16, 32, 48].map(|packets| (4096, packets, 1)));
    rows.extend([2, 4, 8, 16, 32, 63].map(|depth| (4096, 64, depth)));
    rows.push((4096, 62, 64));
    if first {
        rows.truncate(1);
    }
    for (slots, packets, depth) in rows {
        let times = row(slots, &Load::plain(packets), depth, blocks, off);
        for (name, [submit, events, reclaim]) in &times {
            let (whole, each) = (submit + events + reclaim, submit / packets as f64);
            println!("| {slots} | {packets} | {depth} | {name} | {submit:.0} | {events:.0} | {reclaim:.0} | {whole:.0} | {each:.1} |");
        }
        if let [(_, rust), (_, ours)] = &times[..] {
            let part = |at: usize| ours[at] / rust[at];
            let whole = ours.iter().sum::<f64>() / rust.iter().sum::<f64>();
            println!(
                "| {slots} | {packets} | {depth} | ours / Rust | {:.2} | {:.2} | {:.2} | {whole:.2} | |",
                part(0),
                part(1),
                part(2)
            );
        }
    }
}

/// 64 packets, 4,096 slots, one request in flight: what a submission costs by the burst counts that its packets need.
fn bursts(blocks: u32) {
    let off = head(blocks);
    println!("| max packet | burst | lengths | Rust, submit | ours, submit | ours / Rust | ours, a packet |");
    println!("|---|---|---|---|---|---|---|");
    for packet in [192, 1024] {
        for burst in [0, 2, 15] {
            for (name, text) in NAMES {
                let times = row(4096, &Load::named(name, 64, packet, burst), 1, blocks, off);
                if let [(_, rust), (_, ours)] = &times[..] {
                    let (rust, ours) = (rust[0], ours[0]);
                    println!("| {packet} | {burst} | {text} | {rust:.0} | {ours:.0} | {:.2} | {:.1} |", ours / rust, ours / 64.0);
                }
            }
        }
    }
}

fn main() {
    let words: Vec<String> = env::args().collect();
    let number = |at: usize| -> usize { words[at].parse().expect("a number") };
    match words.get(1).map(String::as_str) {
        Some("count") => {
            let (slots, packets, depth, requests) = (number(3), number(4), number(5), number(6));
            let load = match words.get(9) {
                Some(name) => Load::named(name, packets, number(7) as u16, number(8) as u8),
                None => Load::plain(packets),
            };
            let mut found = sides(slots, &load, depth);
            let (_, lane) = found
                .iter_mut()
                .find(|(name, _)| name.to_lowercase() == words[2])
                .expect("a side that is linked");
            for _ in 0..requests {
                lane.once();
            }
        }
        Some("table") => table(number(2) as u32, false),
        Some("first") => table(number(2) as u32, true),
        Some("bursts") => bursts(number(2) as u32),
        _ => panic!("table, first, bursts or count"),
    }
}
