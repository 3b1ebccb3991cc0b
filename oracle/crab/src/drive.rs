//! `drive`'s format over the dock of the Rust: lines in, lines out. The format is that of document 01's session, with the further words
//! of this repository's `drive`.
use alloc::{format, string::String, vec::Vec};

use crate::{
    dock::{Ask, Commands, Dock, No, Place, Submitted, Taken},
    exceptions::Exceptions,
};

/// A line that is `bad`.
struct Bad;

/// The fields of a line after its word.
struct Fields<'a> {
    left: core::slice::Split<'a, u8, fn(&u8) -> bool>,
}

fn is_tab(byte: &u8) -> bool {
    *byte == b'\t'
}

impl<'a> Fields<'a> {
    fn of(line: &'a [u8]) -> Self {
        Self {
            left: line.split(is_tab as fn(&u8) -> bool),
        }
    }

    fn text(&mut self) -> Result<&'a [u8], Bad> {
        self.left.next().ok_or(Bad)
    }

    /// Digits alone: no sign, no prefix, no space.
    fn number(text: &[u8], radix: u32, most: u64) -> Result<u64, Bad> {
        let mut value = 0u64;
        if text.is_empty() {
            return Err(Bad);
        }
        for byte in text {
            let digit = char::from(*byte).to_digit(radix).ok_or(Bad)?;
            value = value
                .checked_mul(radix.into())
                .and_then(|value| value.checked_add(digit.into()))
                .ok_or(Bad)?;
        }
        if value > most { Err(Bad) } else { Ok(value) }
    }

    fn decimal(&mut self, most: u64) -> Result<u64, Bad> {
        Self::number(self.text()?, 10, most)
    }

    fn hex(&mut self, most: u64) -> Result<u64, Bad> {
        Self::number(self.text()?, 16, most)
    }

    fn flag(&mut self) -> Result<bool, Bad> {
        Ok(self.decimal(1)? == 1)
    }

    fn end(&mut self) -> Result<(), Bad> {
        match self.left.next() {
            Some(_) => Err(Bad),
            None => Ok(()),
        }
    }

    /// A request line's own word and fields.
    fn ask(&mut self, word: &[u8], more: bool) -> Result<Ask, Bad> {
        let ask = match word {
            b"control" => Ask::Control {
                kind: self.hex(0xff)? as u8,
                request: self.hex(0xff)? as u8,
                value: self.hex(0xffff)? as u16,
                index: self.hex(0xffff)? as u16,
                address: self.hex(u64::MAX)?,
                length: self.decimal(u64::MAX)?,
            },
            b"bulk" => Ask::Bulk {
                incoming: self.flag()?,
                address: self.hex(u64::MAX)?,
                length: self.decimal(u64::MAX)?,
            },
            b"interrupt" if more => Ask::Interrupt {
                incoming: self.flag()?,
                address: self.hex(u64::MAX)?,
                length: self.decimal(u64::MAX)?,
            },
            b"iso" => {
                let (incoming, address, length) = (self.flag()?, self.hex(u64::MAX)?, self.decimal(u64::MAX)?);
                let mut packets = Vec::new();
                for text in self.left.by_ref() {
                    packets.push(Self::number(text, 10, u64::MAX)?);
                }
                Ask::Iso {
                    incoming,
                    address,
                    length,
                    packets,
                }
            }
            _ => return Err(Bad),
        };
        self.end()?;
        Ok(ask)
    }
}

/// What stands in the tables beside the ring, as the dock lays them out: 64 records of 12 words, 64 packets for each.
const RECORD_WORDS: u64 = 64 * 12;
const PACKET_WORDS: u64 = 64 * 64;

pub struct Drive {
    pub exceptions: Exceptions,
    pub dock: Option<Dock>,
    commands: Commands,
    /// Only the words of document 01's session, and L at most 256.
    session: bool,
    /// The controller's slot and cycle.
    controller: (usize, bool),
    /// A word was forged that the Rust has no equal of, or a ring word: what follows is not the Rust's.
    pub forged: bool,
    pub forged_ring: bool,
    pub lines: u64,
    pub out: Vec<u8>,
}

impl Drive {
    pub fn new(exceptions: Exceptions, session: bool) -> Self {
        Self {
            exceptions,
            dock: None,
            commands: Commands::new(),
            session,
            controller: (0, true),
            forged: false,
            forged_ring: false,
            lines: 0,
            out: Vec::new(),
        }
    }

    fn say(&mut self, text: &str) {
        self.out.extend_from_slice(text.as_bytes());
        self.out.push(b'\n');
    }

    fn words(&mut self, name: &str, [w0, w1, w2, w3]: [u32; 4]) {
        self.say(&format!("{name}\t{w0:08x}\t{w1:08x}\t{w2:08x}\t{w3:08x}"));
    }

    fn no(&mut self, no: No) {
        if no.number == 8 {
            self.say(&format!("no\t8\t{}", no.code));
        } else {
            self.say(&format!("no\t{}", no.number));
        }
    }

    /// A whole input: its lines, to the end or a bad one.
    pub fn input(&mut self, bytes: &[u8]) {
        let mut lines: Vec<&[u8]> = bytes.split(|byte| *byte == b'\n').collect();
        if lines.last().is_some_and(|line| line.is_empty()) {
            lines.pop();
        }
        for line in lines {
            if !self.line(line) {
                return;
            }
        }
    }

    /// Whether all that was written is the Rust's, or played by a rule that is named: no word was forged, no buffer too long for Rust named.
    pub fn is_comparable(&self) -> bool {
        !self.forged && self.dock.as_ref().is_none_or(|dock| !dock.untried)
    }

    /// One line of input. False where it is `bad`, which ends the run.
    pub fn line(&mut self, line: &[u8]) -> bool {
        self.lines += 1;
        if self.read(line).is_ok() {
            return true;
        }
        let number = self.lines;
        self.say(&format!("bad\t{number}"));
        false
    }

    /// Forgets the ring and the controller.
    pub fn forget(&mut self) {
        if let Some(dock) = self.dock.take() {
            self.forged |= dock.untried;
            assert!(self.forged_ring || dock.agrees(), "the ring has not the words of its stores");
            dock.give_back(&mut self.commands);
        }
        self.controller = (0, true);
        self.forged_ring = false;
    }

    fn read(&mut self, line: &[u8]) -> Result<(), Bad> {
        let mut fields = Fields::of(line);
        let word = fields.text()?;
        if word == b"ring" {
            return self.ring(fields);
        }
        if self.dock.is_none() {
            return Err(Bad);
        }
        let more = !self.session;
        match word {
            b"control" | b"bulk" | b"interrupt" | b"iso" => {
                let ask = fields.ask(word, more)?;
                self.stores(&ask, true)
            }
            b"whole" if more => {
                let word = fields.text()?;
                let ask = fields.ask(word, more)?;
                self.stores(&ask, false)
            }
            b"begin" if more => {
                let word = fields.text()?;
                let ask = fields.ask(word, more)?;
                let (dock, exceptions) = self.dock();
                let answer = dock.begin(&ask, exceptions);
                self.answered(answer, "begun");
            }
            b"store" if more => {
                fields.end()?;
                let answer = self.dock().0.store();
                self.store(answer, true);
            }
            b"event" => {
                let mut words = [0; 4];
                for word in &mut words {
                    *word = fields.hex(0xffff_ffff)? as u32;
                }
                fields.end()?;
                let (dock, exceptions) = self.dock();
                match dock.event(words, exceptions) {
                    Ok(Taken::Slot(slot)) => self.say(&format!("taken\t{slot}")),
                    Ok(Taken::Ignored) => self.say("ignored"),
                    Err(no) => self.no(no),
                }
            }
            b"reclaim" => {
                let id = fields.decimal(u64::MAX)?;
                fields.end()?;
                self.reclaim(id);
            }
            b"cancel" => {
                let id = fields.decimal(u64::MAX)?;
                fields.end()?;
                let answer = self.dock().0.cancel(id);
                self.answered(answer, &format!("cut\t{id}"));
            }
            _ if more => return self.read_more(word, fields),
            _ => return Err(Bad),
        }
        Ok(())
    }

    /// The words that a session has not.
    fn read_more(&mut self, word: &[u8], mut fields: Fields<'_>) -> Result<(), Bad> {
        match word {
            b"configure" => {
                let packet = fields.decimal(0xffff)? as u16;
                let burst = fields.decimal(0xff)? as u8;
                let interval = fields.decimal(0xff)? as u8;
                fields.end()?;
                let answer = self.dock().0.configure(packet, burst, interval);
                self.answered(answer, "set");
            }
            b"slot" => {
                let index = fields.decimal(u64::MAX)?;
                fields.end()?;
                let index = usize::try_from(index).map_err(|_| Bad)?;
                let words = self.dock().0.slot(index).ok_or(Bad)?;
                self.words(&format!("slot\t{index}"), words);
            }
            b"retire" => {
                fields.end()?;
                let answer = self.dock().0.retire();
                self.answered(answer, "retired");
            }
            b"stop" => {
                fields.end()?;
                let (dock, exceptions) = self.dock();
                let answer = dock.stop(exceptions);
                self.commanded(answer);
            }
            b"resume" => {
                fields.end()?;
                let (dock, exceptions) = self.dock();
                let answer = dock.resume(exceptions);
                self.commanded(answer);
            }
            b"reset" => {
                fields.end()?;
                let (dock, exceptions) = self.dock();
                match dock.begin_reset(exceptions) {
                    Ok(commands) if commands.is_empty() => self.say("clear"),
                    answer => self.commanded(answer),
                }
            }
            b"end" => {
                let worked = fields.flag()?;
                fields.end()?;
                let (dock, exceptions) = self.dock();
                let answer = dock.end_reset(worked, exceptions);
                self.answered(answer, "ended");
            }
            b"pointer" => {
                fields.end()?;
                match self.dock().0.pointer() {
                    Ok((address, cycle)) => {
                        self.say(&format!("pointer\t{address:x}\t{}", u8::from(cycle)));
                    }
                    Err(no) => self.no(no),
                }
            }
            b"step" => {
                let steps = fields.decimal(u64::MAX)?;
                fields.end()?;
                self.steps(steps);
            }
            b"nextid" => {
                let id = fields.decimal(u64::MAX)?;
                fields.end()?;
                self.forged |= id == 0;
                self.dock().0.set_next_id(id);
            }
            b"poke" => self.poke(fields)?,
            b"state" => {
                fields.end()?;
                let (dock, exceptions) = self.dock();
                let s = dock.state(exceptions);
                self.say(&format!(
                    "state\t{}\t{}\t{}\t{}\t{}\t{}\t{}",
                    s.place,
                    u8::from(s.cycle),
                    s.outstanding,
                    s.next_id,
                    s.next_frame,
                    u8::from(s.halted),
                    u8::from(s.reset)
                ));
            }
            b"new" => {
                fields.end()?;
                self.forget();
            }
            _ => return Err(Bad),
        }
        Ok(())
    }

    fn ring(&mut self, mut fields: Fields<'_>) -> Result<(), Bad> {
        let place = Place {
            l: fields.decimal(u64::MAX)?,
            base: fields.hex(u64::MAX)?,
            mask: fields.hex(u64::MAX)?,
            slot: fields.decimal(0xff)? as u8,
            dci: fields.decimal(0xff)? as u8,
        };
        fields.end()?;
        if self.dock.is_some() {
            return Err(Bad);
        }
        let most = if self.session { 256 } else { 4096 };
        match Dock::new(&mut self.commands, place, most, &mut self.exceptions) {
            Ok(dock) => self.dock = Some(dock),
            Err(no) => self.no(no),
        }
        Ok(())
    }

    fn dock(&mut self) -> (&mut Dock, &mut Exceptions) {
        let dock = self.dock.as_mut().expect("a ring was made");
        (dock, &mut self.exceptions)
    }

    fn answered(&mut self, answer: Result<(), No>, done: &str) {
        match answer {
            Ok(()) => self.say(done),
            Err(no) => self.no(no),
        }
    }

    fn commanded(&mut self, answer: Result<Vec<[u32; 4]>, No>) {
        match answer {
            Ok(commands) => {
                for words in commands {
                    self.words("command", words);
                }
            }
            Err(no) => self.no(no),
        }
    }

    /// A store's lines; true where stores are left.
    fn store(&mut self, answer: Result<(usize, [u32; 4], Option<Submitted>), No>, shows: bool) -> bool {
        match answer {
            Ok((slot, words, last)) => {
                if shows {
                    self.words(&format!("store\t{slot}"), words);
                }
                if let Some(Submitted { bell, id }) = last {
                    self.say(&format!("bell\t{bell:x}\t{id}"));
                }
                last.is_none()
            }
            Err(no) => {
                self.no(no);
                false
            }
        }
    }

    /// The start and its stores.
    fn stores(&mut self, ask: &Ask, shows: bool) {
        let (dock, exceptions) = self.dock();
        match dock.begin(ask, exceptions) {
            Ok(()) => loop {
                let answer = self.dock().0.store();
                if !self.store(answer, shows) {
                    break;
                }
            },
            Err(no) => self.no(no),
        }
    }

    fn reclaim(&mut self, id: u64) {
        let (dock, exceptions) = self.dock();
        match dock.reclaim(id, exceptions) {
            Ok(done) => {
                let mut text: String = format!("done\t{id}\t{}\t{}", done.length, u8::from(done.yes));
                for packet in done.packets {
                    text.push_str(&format!("\t{packet}"));
                }
                self.say(&text);
            }
            Err(no) => self.no(no),
        }
    }

    /// The controller: at its slot, other cycle bit than its own, nothing happens; a link leads to slot 0 and toggles; else it consumes.
    fn steps(&mut self, steps: u64) {
        for _ in 0..steps {
            let (slot, cycle) = self.controller;
            let words = self.dock().0.slot(slot).expect("a slot of the ring");
            if (words[3] & 1 == 1) != cycle {
                break;
            }
            if words[3] >> 10 & 0x3f == 6 {
                self.controller = (0, !cycle);
                continue;
            }
            self.words(&format!("took\t{slot}"), words);
            let slots = self.dock().0.slots();
            self.controller.0 = if slot + 1 == slots { 0 } else { slot + 1 };
        }
        let (slot, cycle) = self.controller;
        self.say(&format!("stands\t{slot}\t{}", u8::from(cycle)));
    }

    /// Forges a word. A ring word is forged here too; of the other tables the Rust has no equal, so the session is marked.
    fn poke(&mut self, mut fields: Fields<'_>) -> Result<(), Bad> {
        let table = fields.text()?;
        let index = fields.decimal(u64::MAX)?;
        let slots = self.dock().0.slots() as u64;
        let (length, most) = match table {
            b"ring" | b"finished" => (4 * slots, 0xffff_ffff),
            b"records" => (RECORD_WORDS, u64::MAX),
            b"packets" => (PACKET_WORDS, u64::MAX),
            _ => return Err(Bad),
        };
        let word = fields.hex(most)?;
        fields.end()?;
        if index >= length {
            return Err(Bad);
        }
        if table == b"ring" {
            self.forged_ring = true;
            self.dock().0.forge(index as usize, word as u32);
        } else {
            self.forged = true;
        }
        Ok(())
    }
}
