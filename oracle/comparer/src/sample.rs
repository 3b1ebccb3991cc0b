//! A fixed sample of the Rust's answers: sessions in one input of `drive`, and what the Rust writes for it, to be replayed with no Rust at
//! hand. Random sessions are looked at, the shortest first, and one is kept where it shows something that none before it has shown.
use std::{
    cmp::Ordering,
    collections::{BTreeMap, BTreeSet},
    fs,
    path::Path,
};

use crab_oracle::exceptions::Exceptions;

use crate::{
    exhaustive::FAMILIES,
    random::{self, BOUNDARY},
    script::{Script, Session},
};

/// Out of how many random sessions the sample is taken.
const OUT_OF: u64 = 40_000;
/// Longer ones are left out: the sample is to be replayed in seconds.
const LONGEST: usize = 400;

pub fn write(least: u64, seed: u64, folder: &Path) {
    let mut script = Script::new(Exceptions::all(), false);
    let mut found: Vec<Session> = Vec::new();
    for number in 0..OUT_OF {
        let seed = seed.wrapping_mul(0x1_0000_0001).wrapping_add(number);
        found.push(script.write(|script| random::write(script, seed, false)));
    }
    for family in &FAMILIES {
        for number in 0..200 {
            found.push(script.write(|script| family.write(script, number * (family.size() / 200))));
        }
    }
    found.retain(|session| session.lines.len() <= LONGEST && !session.panicked);
    found.sort_by_key(|session| session.lines.len());
    let mut seen = BTreeSet::new();
    let (mut kept, mut rest) = (Vec::new(), Vec::new());
    for session in found {
        let shown = shows(&session);
        if shown.is_subset(&seen) {
            rest.push(session);
        } else {
            seen.extend(shown);
            kept.push(session);
        }
    }
    // the shortest of the others that are of some length
    rest.retain(|session| session.lines.len() > 20);
    while (kept.len() as u64) < least && !rest.is_empty() {
        kept.push(rest.remove(0));
    }
    let (mut input, mut want) = (String::new(), Vec::new());
    let mut calls = 0;
    for session in &kept {
        input.push_str(&session.text());
        if session.made {
            input.push_str("new\n");
        }
        want.extend_from_slice(&session.out);
        calls += session.calls;
    }
    fs::create_dir_all(folder).expect("a folder for the sample");
    fs::write(folder.join("stdin"), &input).expect("a file for the sample");
    fs::write(folder.join("stdout"), &want).expect("a file for the sample");
    let mut counts: BTreeMap<&str, u64> = BTreeMap::new();
    for what in &seen {
        *counts.entry(what.split(' ').next().expect("a word")).or_default() += 1;
    }
    println!(
        "{} sessions, {} lines, {calls} calls, {} lines of answers, {} things shown",
        kept.len(),
        input.lines().count(),
        want.split(|b| *b == b'\n').count() - 1,
        seen.len()
    );
    for (word, count) in counts {
        println!("{word}\t{count}");
    }
    for what in seen.iter().filter(|what| what.starts_with("wrap")) {
        println!("{what}");
    }
}

/// The fields of a line.
fn fields(line: &str) -> Vec<&str> {
    line.split('\t').collect()
}

/// What a session shows: each call with its answer, the wraps, the sizes, the codes, where the buffers lie.
fn shows(session: &Session) -> BTreeSet<String> {
    let mut shown = BTreeSet::new();
    let out = String::from_utf8_lossy(&session.out);
    let mut answers = out.lines();
    let mut kinds: BTreeMap<String, String> = BTreeMap::new();
    let mut code = String::new();
    let mut frame = 0u64;
    let mut begun = String::new();
    let mut mask = 0;
    for line in &session.lines {
        let line = fields(line);
        let word = line[0];
        // the request of a line, whichever way it is asked for
        let request = match word {
            "begin" | "whole" => line[1],
            "store" => begun.as_str(),
            other => other,
        }
        .to_string();
        if word == "begin" {
            begun = request.clone();
        }
        let asked = if ["begin", "whole"].contains(&word) {
            &line[1..]
        } else {
            &line[..]
        };
        let buffer = buffer_of(asked);
        if let Some((address, length)) = buffer {
            shown.insert(format!("buffer {request} {}", side_of(mask, address, length)));
        }
        if word == "event" {
            code = line[3].chars().rev().skip(6).collect::<Vec<_>>().iter().rev().collect();
        }
        let mut stores: Vec<Vec<&str>> = Vec::new();
        if ["new", "nextid", "poke"].contains(&word) {
            continue;
        }
        if word == "ring" {
            let slots: u64 = line[1].parse().expect("a number");
            let base = u64::from_str_radix(line[2], 16).expect("a number");
            mask = u64::from_str_radix(line[3], 16).expect("a number");
            // within document 01's limits
            if (3..=4096).contains(&slots) && base % 4096 == 0 && base.checked_add(16 * slots - 1).is_some() {
                let end = match (base % BOUNDARY + 16 * slots).cmp(&BOUNDARY) {
                    Ordering::Less => "before",
                    Ordering::Equal => "at",
                    Ordering::Greater => "past",
                };
                shown.insert(format!("ring ends {end} a boundary"));
            }
            if !answers.clone().next().is_some_and(|next| next.starts_with("no")) {
                let size = match slots {
                    0..=8 => slots,
                    9..=62 => 9,
                    63..=69 => slots,
                    255..=256 => slots,
                    4095..=4096 => slots,
                    _ => 257,
                };
                shown.insert(format!("slots {size}"));
                shown.insert(format!(
                    "base {}",
                    if line[2] == "0" {
                        "0"
                    } else if line[2].len() == 16 {
                        "high"
                    } else {
                        "low"
                    }
                ));
                continue;
            }
        }
        loop {
            let answer = fields(answers.next().expect("an answer"));
            match answer[0] {
                "store" => {
                    stores.push(answer);
                    if word == "store" && stores.len() == 1 {
                        // a bell may follow
                        if !out_is_bell(&answers) {
                            break;
                        }
                    }
                }
                "took" => {
                    shown.insert(format!("took {}", kind_of(answer[5])));
                }
                "command" => {
                    shown.insert(format!("{word} command {}", &answer[4][7..]));
                    let two = word == "reset" && answers.clone().next().is_some_and(|next| next.starts_with("command"));
                    if !two {
                        break;
                    }
                }
                "bell" => {
                    shown.insert(format!("{word} {request} bell"));
                    kinds.insert(answer[2].to_string(), request.clone());
                    if answer[2] == "18446744073709551615" {
                        shown.insert("wrap id at its top".to_string());
                    }
                    break;
                }
                "no" => {
                    let kind = kinds.get(*line.get(1).unwrap_or(&"")).cloned().unwrap_or_default();
                    let of = if word == "reclaim" || word == "cancel" {
                        kind
                    } else {
                        request.clone()
                    };
                    shown.insert(format!("{word} {of} no {} {}", answer[1], answer.get(2).unwrap_or(&"")));
                    break;
                }
                "done" => {
                    let kind = kinds.get(line[1]).cloned().unwrap_or_default();
                    let zero = answer[4..].iter().any(|length| *length == "0");
                    shown.insert(format!("reclaim {kind} done {} {} {zero}", answer[3], (answer.len() - 4).min(3)));
                    shown.insert(format!("reclaim {kind} after {code}"));
                    break;
                }
                "stands" => {
                    shown.insert(format!("stands {} {}", answer[1].len(), answer[2]));
                    break;
                }
                "state" => {
                    let now: u64 = answer[5].parse().expect("a number");
                    if now < frame {
                        shown.insert("wrap frame".to_string());
                    }
                    frame = now;
                    shown.insert(format!("state halted {} reset {} cycle {}", answer[6], answer[7], answer[2]));
                    if answer[4] == "1" && !kinds.is_empty() {
                        shown.insert("wrap id to 1".to_string());
                    }
                    break;
                }
                other => {
                    shown.insert(format!("{word} {other}"));
                    break;
                }
            }
        }
        let link = stores.iter().position(|store| kind_of(store[5]) == 6);
        if let Some(link) = link {
            // behind which store of its TD the link came, and with which cycle
            let before = if request == "control" || link == 1 {
                link.to_string()
            } else if link + 1 == stores.len() {
                "last".to_string()
            } else {
                "middle".to_string()
            };
            let cycle = &stores[link][5][7..];
            shown.insert(format!("wrap {word} {request} {before} of {} cycle {cycle}", stores.len().min(6)));
        }
        for store in &stores {
            if kind_of(store[5]) == 5 {
                let w2 = u32::from_str_radix(store[4], 16).expect("a word");
                let w3 = u32::from_str_radix(store[5], 16).expect("a word");
                let class = |n: u32, most: u32| if n > 1 && n < most { 2 } else { n };
                shown.insert(format!("burst {} {}", class(w2 >> 17 & 31, 31), class(w3 >> 16 & 15, 15)));
                let begins_at_0 = buffer.is_some_and(|(address, length)| address == 0 || length == 0);
                if word != "store" && !begins_at_0 && store[2..4] == ["00000000", "00000000"] {
                    shown.insert("wrap address of an empty packet".to_string());
                }
            }
        }
    }
    shown
}

/// The address and the length of a request's buffer.
fn buffer_of(request: &[&str]) -> Option<(u64, u64)> {
    let at = match request[0] {
        "control" => 5,
        "bulk" | "interrupt" | "iso" => 2,
        _ => return None,
    };
    let address = u64::from_str_radix(request[at], 16).expect("an address");
    Some((address, request[at + 1].parse().expect("a length")))
}

/// Where a buffer lies that is asked for under this mask.
fn side_of(mask: u64, address: u64, length: u64) -> &'static str {
    if length == 0 {
        return if address > mask { "of none above the mask" } else { "of none" };
    }
    let end = u128::from(address) + u128::from(length);
    match end.cmp(&(u128::from(mask) + 1)) {
        Ordering::Less => "before the mask",
        Ordering::Equal if mask == u64::MAX => "just fits below 2^64",
        Ordering::Equal => "just fits",
        Ordering::Greater if end == u128::from(mask) + 2 => "a byte past the mask",
        Ordering::Greater => "past the mask",
    }
}

fn out_is_bell(answers: &std::str::Lines<'_>) -> bool {
    answers.clone().next().is_some_and(|next| next.starts_with("bell"))
}

fn kind_of(w3: &str) -> u32 {
    u32::from_str_radix(w3, 16).expect("a word") >> 10 & 0x3f
}
