//! A session as it is written: its lines, and what the Rust answers to each.
use std::panic::{AssertUnwindSafe, catch_unwind};

use crab_oracle::{
    dock::Dock,
    drive::Drive,
    exceptions::{COUNT, Exceptions},
};

#[derive(Default)]
pub struct Session {
    pub lines: Vec<String>,
    pub out: Vec<u8>,
    /// Public calls among the lines.
    pub calls: u64,
    /// The Rust panicked at the last line.
    pub panicked: bool,
    /// A ring was made, so that `new` can follow.
    pub made: bool,
}

impl Session {
    pub fn text(&self) -> String {
        let mut text = self.lines.join("\n");
        text.push('\n');
        text
    }
}

/// Writes sessions: each line goes to the Rust at once, so that the next one can follow from what it answered.
pub struct Script {
    pub drive: Drive,
    pub session: Session,
    exceptions: Exceptions,
    used: [u64; COUNT],
}

/// The words that are no public call.
const NO_CALLS: [&str; 6] = ["state", "slot", "step", "nextid", "poke", "new"];

impl Script {
    pub fn new(exceptions: Exceptions, session: bool) -> Self {
        Self {
            drive: Drive::new(exceptions.clone(), session),
            session: Session::default(),
            exceptions,
            used: [0; COUNT],
        }
    }

    /// A line; gives what the Rust answered.
    pub fn say(&mut self, line: &str) -> String {
        let from = self.drive.out.len();
        let word = line.split('\t').next().expect("a word");
        if !NO_CALLS.contains(&word) {
            self.session.calls += 1;
        }
        self.session.lines.push(line.to_string());
        let went_on = self.drive.line(line.as_bytes());
        assert!(went_on, "a bad line was written: {line}");
        String::from_utf8_lossy(&self.drive.out[from..]).into_owned()
    }

    /// A call, and the state after it.
    pub fn call(&mut self, line: &str) -> String {
        let answer = self.say(line);
        if self.drive.dock.is_some() {
            self.say("state");
        }
        answer
    }

    pub fn dock(&self) -> &Dock {
        self.drive.dock.as_ref().expect("a ring was made")
    }

    /// Writes one session. A panic of the Rust ends it.
    pub fn write(&mut self, writer: impl FnOnce(&mut Self)) -> Session {
        self.session = Session::default();
        self.drive.out.clear();
        let panicked = catch_unwind(AssertUnwindSafe(|| {
            writer(self);
            self.session.made = self.drive.dock.is_some();
            self.drive.forget();
        }))
        .is_err();
        if panicked {
            self.note();
            self.drive = Drive::new(self.exceptions.clone(), false);
        }
        let mut session = std::mem::take(&mut self.session);
        session.out = std::mem::take(&mut self.drive.out);
        session.panicked = panicked;
        session
    }

    fn note(&mut self) {
        for (sum, used) in self.used.iter_mut().zip(self.drive.exceptions.used) {
            *sum += used;
        }
    }

    /// How often each exception was at work.
    pub fn used(&mut self) -> [u64; COUNT] {
        self.note();
        self.drive.exceptions.used = [0; COUNT];
        self.used
    }
}

/// What the Rust writes for this input, from nothing; nothing where it cannot be compared.
pub fn replay(input: &[u8], exceptions: &Exceptions, session: bool) -> Option<Vec<u8>> {
    catch_unwind(AssertUnwindSafe(|| {
        let mut drive = Drive::new(exceptions.clone(), session);
        drive.input(input);
        if drive.is_comparable() { Some(drive.out) } else { None }
    }))
    .unwrap_or(Some(b"the Rust panicked\n".to_vec()))
}

/// Lines as an input.
pub fn joined(lines: &[String]) -> Vec<u8> {
    let mut input = lines.join("\n").into_bytes();
    input.push(b'\n');
    input
}
