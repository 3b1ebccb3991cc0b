//! Damaged input: a session with one line spoilt, or cut off, as bytes. A bad line ends a run, so each is a run of its own.
use crate::{chance::Chance, random, script::Script};

const NUMBERS: [&str; 22] = [
    "",
    "0",
    "1",
    "2",
    "00",
    "01",
    "31",
    "32",
    "255",
    "256",
    "4096",
    "4097",
    "65535",
    "65536",
    "ffff",
    "10000",
    "FFFFFFFF",
    "100000000",
    "18446744073709551615",
    "18446744073709551616",
    "ffffffffffffffff",
    "10000000000000000",
];
const TEXTS: [&str; 12] = ["+1", "-1", "0x10", " 1", "1 ", "1_0", "g", "ring", "new", "\r", "\u{0}", "\u{e9}"];

/// The bytes of one damaged input.
pub fn write(script: &mut Script, seed: u64, own: bool) -> Vec<u8> {
    let session = script.write(|script| random::write(script, seed, own));
    let mut chance = Chance::new(seed ^ 0xdead);
    let mut lines: Vec<Vec<u8>> = session.lines.iter().take(40).map(|line| line.clone().into_bytes()).collect();
    let at = chance.below(lines.len() as u64) as usize;
    lines[at] = damaged(&lines[at], &mut chance);
    if chance.percent(5) {
        lines.insert(at, b"new".to_vec());
    }
    if chance.percent(2) {
        let mut long = b"iso\t1\t20000\t64".to_vec();
        for _ in 0..chance.of(&[64, 65, 300, 4094, 4095, 4096, 4097, 5000, 100_000]) {
            long.extend_from_slice(b"\t0");
        }
        lines.insert(at, long);
    }
    let mut bytes = lines.join(&b'\n');
    // perhaps no newline at the end
    if chance.percent(50) {
        bytes.push(b'\n');
    }
    bytes
}

fn damaged(line: &[u8], chance: &mut Chance) -> Vec<u8> {
    let mut fields: Vec<Vec<u8>> = line.split(|byte| *byte == b'\t').map(<[u8]>::to_vec).collect();
    let at = chance.below(fields.len() as u64) as usize;
    match chance.below(10) {
        0 => {
            fields.remove(at);
        }
        1 => fields.insert(at, b"1".to_vec()),
        2..5 => fields[at] = chance.of(&NUMBERS).as_bytes().to_vec(),
        5 => fields[at] = chance.of(&TEXTS).as_bytes().to_vec(),
        6 => fields[at].push(chance.below(256) as u8),
        7 => fields.truncate(at),
        8 => {
            let mut zeros = vec![b'0'; chance.below(40) as usize];
            zeros.extend_from_slice(&fields[at]);
            fields[at] = zeros;
        }
        _ => {
            let mut bytes = fields.join(&b'\t');
            if !bytes.is_empty() {
                let at = chance.below(bytes.len() as u64) as usize;
                bytes[at] ^= 1 << chance.below(8);
            }
            return bytes;
        }
    }
    fields.join(&b'\t')
}
