//! The format of the program `drive` over this crate: lines in, lines out, every call through the boundary. Fields are parted by tabs; addresses,
//! words and control fields are hex, all else decimal; a line that cannot be read writes `bad` and its number and ends the run.
use std::fmt::Write;

use thnaolups::{
    Answer, Completion, Direction, Place, Refusal, Request, Resetting, Ring, Stored, Tables, Words, PACKETS_SIZE, RECORDS_SIZE, SLOT_WORDS,
    STATE_WORDS,
};

/// A line that is `bad`.
struct Bad;

/// The fields of a line that are left.
struct Fields<'a>(std::str::Split<'a, char>);

impl<'a> Fields<'a> {
    fn text(&mut self) -> Result<&'a str, Bad> {
        self.0.next().ok_or(Bad)
    }

    /// Digits alone: no sign, no prefix.
    fn number(text: &str, radix: u32, most: u64) -> Result<u64, Bad> {
        if text.is_empty() || !text.chars().all(|c| c.is_digit(radix)) {
            return Err(Bad);
        }
        match u64::from_str_radix(text, radix) {
            Ok(value) if value <= most => Ok(value),
            _ => Err(Bad),
        }
    }

    fn decimal(&mut self, most: u64) -> Result<u64, Bad> {
        Self::number(self.text()?, 10, most)
    }

    fn hex(&mut self, most: u64) -> Result<u64, Bad> {
        Self::number(self.text()?, 16, most)
    }

    fn word(&mut self) -> Result<u32, Bad> {
        Ok(self.hex(u32::MAX.into())? as u32)
    }

    fn direction(&mut self) -> Result<Direction, Bad> {
        Ok(if self.decimal(1)? == 1 { Direction::In } else { Direction::Out })
    }

    fn end(&mut self) -> Result<(), Bad> {
        match self.0.next() {
            Some(_) => Err(Bad),
            None => Ok(()),
        }
    }

    /// The fields of a request, the lengths of its packets into `packets`.
    fn request<'p>(&mut self, word: &str, packets: &'p mut Vec<u64>) -> Result<Request<'p>, Bad> {
        let any = u64::MAX;
        let request = match word {
            "control" => Request::Control {
                kind: self.hex(0xff)? as u8,
                request: self.hex(0xff)? as u8,
                value: self.hex(0xffff)? as u16,
                index: self.hex(0xffff)? as u16,
                address: self.hex(any)?,
                length: self.decimal(any)?,
            },
            "bulk" => Request::Bulk {
                direction: self.direction()?,
                address: self.hex(any)?,
                length: self.decimal(any)?,
            },
            "interrupt" => Request::Interrupt {
                direction: self.direction()?,
                address: self.hex(any)?,
                length: self.decimal(any)?,
            },
            "iso" => {
                let direction = self.direction()?;
                let (address, length) = (self.hex(any)?, self.decimal(any)?);
                for text in self.0.by_ref() {
                    packets.push(Self::number(text, 10, any)?);
                }
                Request::Isoch {
                    direction,
                    address,
                    length,
                    packets,
                }
            }
            _ => return Err(Bad),
        };
        self.end()?;
        Ok(request)
    }
}

/// What stands between two lines: the endpoint's words and the tables. Each line makes a `Ring` of them and takes it apart again, so that the
/// words of an endpoint are what lasts.
struct Desk {
    state: [u64; STATE_WORDS],
    ring: Vec<u32>,
    finished: Vec<u32>,
    records: Vec<u64>,
    packets: Vec<u64>,
    /// The controller's slot and cycle.
    controller: (usize, bool),
}

impl Desk {
    fn with<T>(&mut self, act: impl FnOnce(&mut Ring<'_>) -> T) -> T {
        let tables = Tables {
            ring: &mut self.ring,
            finished: &mut self.finished,
            records: &mut self.records,
            packets: &mut self.packets,
        };
        let mut ring = Ring::from_parts(self.state, tables);
        let told = act(&mut ring);
        self.state = ring.into_parts().0;
        told
    }

    fn slot(&self, slot: usize) -> Words {
        let mut words = [0; SLOT_WORDS];
        for (i, word) in words.iter_mut().enumerate() {
            *word = self.ring.get(SLOT_WORDS * slot + i).copied().unwrap_or(0);
        }
        words
    }
}

#[derive(Default)]
struct Drive {
    desk: Option<Desk>,
    out: String,
}

fn hex(words: Words) -> String {
    words.iter().fold(String::new(), |mut text, word| {
        write!(text, "\t{word:08x}").unwrap();
        text
    })
}

impl Drive {
    fn say(&mut self, line: std::fmt::Arguments<'_>) {
        self.out.write_fmt(line).unwrap();
        self.out.push('\n');
    }

    /// What an answer writes: its own line, or `no` and the number, for a refused code also that.
    fn answer<T>(&mut self, answer: Answer<T>, done: impl FnOnce(&mut Self, T)) {
        match answer {
            Ok(told) => done(self, told),
            Err(Refusal::Failed(code)) => self.say(format_args!("no\t8\t{code}")),
            Err(refusal) => self.say(format_args!("no\t{}", refusal.number())),
        }
    }

    fn bell(&mut self, bell: thnaolups::Bell) {
        self.say(format_args!("bell\t{:x}\t{}", bell.doorbell, bell.id));
    }

    /// One store: its slot and words, the last one's bell; whether there are more.
    fn store(&mut self, answer: Answer<Stored>) -> bool {
        let mut more = false;
        self.answer(answer, |drive, stored| {
            let slot = stored.slot();
            let words = drive.desk.as_ref().unwrap().slot(slot);
            drive.say(format_args!("store\t{slot}{}", hex(words)));
            match stored {
                Stored::Slot(_) => more = true,
                Stored::Last(_, bell) => drive.bell(bell),
            }
        });
        more
    }

    fn steps(&mut self, steps: u64) {
        for _ in 0..steps {
            let desk = self.desk.as_mut().unwrap();
            let (slot, cycle) = desk.controller;
            let words = desk.slot(slot);
            if (words[3] & 1 == 1) != cycle {
                break;
            }
            if words[3] >> 10 & 63 == 6 {
                desk.controller = (0, !cycle);
                continue;
            }
            desk.controller.0 = slot + 1;
            self.say(format_args!("took\t{slot}{}", hex(words)));
        }
        let (slot, cycle) = self.desk.as_ref().unwrap().controller;
        self.say(format_args!("stands\t{slot}\t{}", u8::from(cycle)));
    }

    fn line(&mut self, line: &str) -> Result<(), Bad> {
        let mut fields = Fields(line.split('\t'));
        let word = fields.text()?;
        let any = u64::MAX;
        if word == "ring" {
            let place = Place {
                slots: fields.decimal(any)? as usize,
                base: fields.hex(any)?,
                mask: fields.hex(any)?,
                slot: fields.decimal(255)? as u8,
                dci: fields.decimal(255)? as u8,
            };
            fields.end()?;
            if self.desk.is_some() {
                return Err(Bad);
            }
            let size = SLOT_WORDS * place.slots.min(thnaolups::MOST_SLOTS + 1);
            // whatever stood in the tables before: making clears it
            let (mut ring, mut finished) = (vec![!0; size], vec![!0; size]);
            let (mut records, mut packets) = (vec![!0; RECORDS_SIZE], vec![!0; PACKETS_SIZE]);
            let made = Ring::make(
                Tables {
                    ring: &mut ring,
                    finished: &mut finished,
                    records: &mut records,
                    packets: &mut packets,
                },
                place,
            )
            .map(|ring| *ring.state());
            self.answer(made, |drive, state| {
                drive.desk = Some(Desk {
                    state,
                    ring,
                    finished,
                    records,
                    packets,
                    controller: (0, true),
                })
            });
            return Ok(());
        }
        let desk = self.desk.as_mut().ok_or(Bad)?;
        let mut packets = Vec::new();
        match word {
            "control" | "bulk" | "interrupt" | "iso" => {
                let request = fields.request(word, &mut packets)?;
                let started = desk.with(|ring| ring.start(&request));
                let mut more = started.is_ok();
                self.answer(started, |_, ()| {});
                while more {
                    let stored = self.desk.as_mut().unwrap().with(|ring| ring.store());
                    more = self.store(stored);
                }
            }
            "begin" => {
                let word = fields.text()?;
                let request = fields.request(word, &mut packets)?;
                let started = desk.with(|ring| ring.start(&request));
                self.answer(started, |drive, ()| drive.say(format_args!("begun")));
            }
            "store" => {
                fields.end()?;
                let stored = desk.with(|ring| ring.store());
                self.store(stored);
            }
            "whole" => {
                let word = fields.text()?;
                let request = fields.request(word, &mut packets)?;
                let bell = desk.with(|ring| ring.submit(&request));
                self.answer(bell, |drive, bell| drive.bell(bell));
            }
            "event" => {
                let event = [fields.word()?, fields.word()?, fields.word()?, fields.word()?];
                fields.end()?;
                let taken = desk.with(|ring| ring.hand_over(event));
                self.answer(taken, |drive, slot| drive.say(format_args!("taken\t{slot}")));
            }
            "reclaim" => {
                let id = fields.decimal(any)?;
                fields.end()?;
                let done = desk.with(|ring| {
                    let done = ring.reclaim(id)?;
                    let mut lengths = String::new();
                    for packet in ring.packets(&done) {
                        write!(lengths, "\t{}", packet.counted).unwrap();
                    }
                    Ok((done, lengths))
                });
                self.answer(done, |drive, (done, lengths): (Completion, String)| {
                    let (id, length, yes) = (done.id, done.length, u8::from(done.received));
                    drive.say(format_args!("done\t{id}\t{length}\t{yes}{lengths}"))
                });
            }
            "cancel" => {
                let id = fields.decimal(any)?;
                fields.end()?;
                let cut = desk.with(|ring| ring.cancel(id));
                self.answer(cut, |drive, ()| drive.say(format_args!("cut\t{id}")));
            }
            "configure" => {
                let packet = fields.decimal(0xffff)? as u16;
                let (burst, interval) = (fields.decimal(0xff)? as u8, fields.decimal(0xff)? as u8);
                fields.end()?;
                let set = desk.with(|ring| ring.configure(packet, burst, interval));
                self.answer(set, |drive, ()| drive.say(format_args!("set")));
            }
            "slot" => {
                let slot = fields.decimal(any)?;
                fields.end()?;
                let words = usize::try_from(slot).ok().and_then(|slot| desk.with(|ring| ring.slot(slot)));
                let words = words.ok_or(Bad)?;
                self.say(format_args!("slot\t{slot}{}", hex(words)));
            }
            "retire" => {
                fields.end()?;
                let retired = desk.with(|ring| ring.retire());
                self.answer(retired, |drive, ()| drive.say(format_args!("retired")));
            }
            "stop" | "resume" => {
                fields.end()?;
                let command = desk.with(|ring| if word == "stop" { ring.stop() } else { ring.resume() });
                self.answer(command, |drive, words| drive.say(format_args!("command{}", hex(words))));
            }
            "reset" => {
                fields.end()?;
                let begun = desk.with(|ring| ring.begin_reset());
                self.answer(begun, |drive, resetting| match resetting {
                    Resetting::Clear => drive.say(format_args!("clear")),
                    Resetting::Commands { reset, dequeue } => {
                        drive.say(format_args!("command{}", hex(reset)));
                        drive.say(format_args!("command{}", hex(dequeue)));
                    }
                });
            }
            "end" => {
                let worked = fields.decimal(1)? == 1;
                fields.end()?;
                let ended = desk.with(|ring| ring.end_reset(worked));
                self.answer(ended, |drive, ()| drive.say(format_args!("ended")));
            }
            "pointer" => {
                fields.end()?;
                let pointer = desk.with(|ring| ring.pointer());
                self.answer(pointer, |drive, at| {
                    drive.say(format_args!("pointer\t{:x}\t{}", at.address, u8::from(at.cycle)))
                });
            }
            "step" => {
                let steps = fields.decimal(any)?;
                fields.end()?;
                self.steps(steps);
            }
            "nextid" => {
                let id = fields.decimal(any)?;
                fields.end()?;
                desk.state[11] = id;
            }
            "poke" => {
                let table = fields.text()?;
                let index = usize::try_from(fields.decimal(any)?).map_err(|_| Bad)?;
                let value = fields.hex(any)?;
                fields.end()?;
                match table {
                    "ring" | "finished" => {
                        let words = if table == "ring" { &mut desk.ring } else { &mut desk.finished };
                        *words.get_mut(index).ok_or(Bad)? = u32::try_from(value).map_err(|_| Bad)?;
                    }
                    "records" => *desk.records.get_mut(index).ok_or(Bad)? = value,
                    "packets" => *desk.packets.get_mut(index).ok_or(Bad)? = value,
                    _ => return Err(Bad),
                }
            }
            "state" => {
                fields.end()?;
                let w = desk.state;
                self.say(format_args!(
                    "state\t{}\t{}\t{}\t{}\t{}\t{}\t{}",
                    w[0], w[1], w[13], w[11], w[10], w[14], w[15]
                ));
            }
            "new" => {
                fields.end()?;
                self.desk = None;
            }
            _ => return Err(Bad),
        }
        Ok(())
    }
}

/// What a run writes.
pub fn run(input: &str) -> String {
    let mut drive = Drive::default();
    let text = input.strip_suffix('\n').unwrap_or(input);
    if input.is_empty() {
        return drive.out;
    }
    for (i, line) in text.split('\n').enumerate() {
        if drive.line(line).is_err() {
            drive.say(format_args!("bad\t{}", i + 1));
            break;
        }
    }
    drive.out
}
