//! The differential run: sessions are written, run on the unchanged Rust and on this repository's `drive`, and compared line by line.
//!
//!     comparer --drive PROGRAM [--calls N] [--seed N] [--seconds N] [--without NAME,..] [--first] [--keep FOLDER] [--random]
//!     comparer --sample N --seed N --keep FOLDER        writes sessions and the Rust's answers to them, to be replayed with no Rust at hand
//!     comparer --drive PROGRAM --damaged N [--seed N]   N inputs with a damaged line, each a run of its own
//!     comparer --names                                  the exceptions
//!
//! First every short session out of a list (exhaustive.rs), then random ones (random.rs), until N calls are made or the seconds are over.
//! `--without` switches exceptions off (`all`: every one). `--first` ends the run at the first difference. `--as-found` keeps it as it was found. `--random` leaves the short
//! ones out. `--session`: PROGRAM is document 01's session program. A difference is made small and kept in FOLDER, with both outputs. The last line ends in ' 0 differ' where nothing differs.
mod chance;
mod damage;
mod exhaustive;
mod ours;
mod random;
mod sample;
mod script;
mod shrink;

use std::{
    env, fs,
    io::{self, Write},
    path::PathBuf,
    process::exit,
    time::{Duration, Instant},
};

use crab_oracle::exceptions::{ALL, Exceptions};
use exhaustive::FAMILIES;
use ours::{Ours, Run};
use script::{Script, Session};

struct Settings {
    drive: Option<PathBuf>,
    calls: u64,
    seed: u64,
    seconds: Option<u64>,
    exceptions: Exceptions,
    first: bool,
    as_found: bool,
    random: bool,
    session: bool,
    sample: Option<u64>,
    damaged: Option<u64>,
    keep: PathBuf,
}

fn usage(text: &str) -> ! {
    eprintln!("comparer: {text}");
    exit(2)
}

fn settings() -> Settings {
    let mut s = Settings {
        drive: None,
        calls: 2_000_000,
        seed: 1,
        seconds: None,
        exceptions: Exceptions::all(),
        first: false,
        as_found: false,
        random: false,
        session: false,
        sample: None,
        damaged: None,
        keep: PathBuf::from("target/differs"),
    };
    let mut words = env::args().skip(1);
    while let Some(word) = words.next() {
        let mut next = || words.next().unwrap_or_else(|| usage(&format!("{word} needs a word")));
        let number = |text: String| text.parse().unwrap_or_else(|_| usage(&format!("{text} is no number")));
        match word.as_str() {
            "--drive" => s.drive = Some(PathBuf::from(next())),
            "--calls" => s.calls = number(next()),
            "--seed" => s.seed = number(next()),
            "--seconds" => s.seconds = Some(number(next())),
            "--sample" => s.sample = Some(number(next())),
            "--damaged" => s.damaged = Some(number(next())),
            "--keep" => s.keep = PathBuf::from(next()),
            "--first" => s.first = true,
            "--as-found" => s.as_found = true,
            "--random" => s.random = true,
            "--session" => s.session = true,
            "--without" => {
                if let Err(name) = s.exceptions.switch(&next(), false) {
                    usage(&format!("no exception has the name {name}"));
                }
            }
            "--names" => {
                for (_, name, text) in ALL {
                    println!("{name}\t{text}");
                }
                exit(0)
            }
            _ => usage(&format!("{word} is not known")),
        }
    }
    s
}

/// Which session comes next: the short ones of each family in turn, then random ones.
struct Source {
    family: usize,
    number: u64,
    seed: u64,
    random: u64,
    own: bool,
}

impl Source {
    fn write(&mut self, script: &mut Script) -> Session {
        if let Some(family) = FAMILIES.get(self.family) {
            let number = self.number;
            self.number += 1;
            if self.number == family.size() {
                self.family += 1;
                self.number = 0;
            }
            return script.write(|script| family.write(script, number));
        }
        self.random += 1;
        let seed = self.seed.wrapping_mul(0x1_0000_0001).wrapping_add(self.random);
        let own = self.own;
        script.write(|script| random::write(script, seed, own))
    }
}

/// Sessions that one run of our program takes, with `new` between them, and a bad line at the end.
struct Batch {
    sessions: Vec<Session>,
    want: Vec<u8>,
    run: Run,
}

const BATCH_CALLS: u64 = 20_000;

fn batch(source: &mut Source, script: &mut Script, ours: &Ours, calls: u64) -> Batch {
    let mut sessions = Vec::new();
    let mut written = 0;
    let (mut input, mut want, mut lines) = (Vec::new(), Vec::new(), 0);
    while written < calls.min(BATCH_CALLS) {
        let session = source.write(script);
        written += session.calls;
        input.extend_from_slice(session.text().as_bytes());
        want.extend_from_slice(&session.out);
        lines += session.lines.len();
        let (panicked, made) = (session.panicked, session.made);
        sessions.push(session);
        if source.own || panicked {
            break;
        }
        if made {
            input.extend_from_slice(b"new\n");
            lines += 1;
        }
    }
    if !source.own {
        input.extend_from_slice(b"ring\n");
        want.extend_from_slice(format!("bad\t{}\n", lines + 1).as_bytes());
    }
    let run = ours.start(input);
    Batch { sessions, want, run }
}

/// What was found, and where it is kept.
struct Found {
    settings: Settings,
    ours: Ours,
    differ: u64,
    calls: u64,
    sessions: u64,
}

impl Found {
    fn differs(&self, lines: &[String]) -> bool {
        self.differs_on(script::joined(lines))
    }

    fn differs_on(&self, input: Vec<u8>) -> bool {
        match script::replay(&input, &self.settings.exceptions, self.settings.session) {
            None => false,
            Some(rust) => rust != self.ours.run(input),
        }
    }

    fn take(&mut self, batch: Batch) {
        let got = batch.run.end();
        let panicked = batch.sessions.iter().any(|session| session.panicked);
        if got == batch.want && !panicked {
            self.calls += batch.sessions.iter().map(|session| session.calls).sum::<u64>();
            self.sessions += batch.sessions.len() as u64;
            return;
        }
        let before = self.differ;
        let mut lines: Vec<String> = Vec::new();
        for session in &batch.sessions {
            self.calls += session.calls;
            self.sessions += 1;
            if session.panicked || self.differs(&session.lines) {
                self.differ += 1;
                if self.differ <= 3 {
                    self.keep(session.lines.clone());
                }
                if self.settings.first {
                    return;
                }
            }
            lines.extend(session.lines.iter().cloned());
            if session.made {
                lines.push("new".to_string());
            }
        }
        if self.differ == before {
            // no session by itself: what one leaves behind shows in another
            self.differ += 1;
            self.keep(lines);
        }
    }

    fn keep(&self, lines: Vec<String>) {
        println!("a session of {} lines differs, after {} calls", lines.len(), self.calls);
        let small = if self.settings.as_found {
            lines
        } else {
            shrink::shrink(lines, |lines| self.differs(lines))
        };
        self.show(script::joined(&small));
    }

    fn show(&self, input: Vec<u8>) {
        let rust = script::replay(&input, &self.settings.exceptions, self.settings.session).unwrap_or_default();
        let ours = self.ours.run(input.clone());
        let folder = &self.settings.keep;
        let name = format!("{}-{}", self.settings.seed, self.differ);
        fs::create_dir_all(folder).expect("a folder for what differs");
        for (end, bytes) in [("in", &input), ("rust", &rust), ("ours", &ours)] {
            fs::write(folder.join(format!("{name}.{end}")), bytes).expect("a file for what differs");
        }
        println!("{}", folder.join(format!("{name}.in")).display());
        print!("{}", String::from_utf8_lossy(&input));
        println!("the Rust writes");
        print!("{}", String::from_utf8_lossy(&rust));
        println!("we write");
        print!("{}", String::from_utf8_lossy(&ours));
    }
}

/// Inputs with a damaged line; each is a run of its own.
fn damaged(found: &mut Found, script: &mut Script, count: u64) -> ! {
    let seed = found.settings.seed;
    let (mut bad, mut made) = (0, 0);
    for number in 0..count {
        if found.settings.first && found.differ > 0 {
            break;
        }
        made += 1;
        let seed = seed.wrapping_mul(0x1_0000_0001).wrapping_add(number);
        let input = damage::write(script, seed, found.settings.session);
        let rust = script::replay(&input, &found.settings.exceptions, found.settings.session).unwrap_or_default();
        bad += u64::from(rust.split(|byte| *byte == b'\n').any(|line| line.starts_with(b"bad")));
        if found.differs_on(input.clone()) {
            found.differ += 1;
            if found.differ <= 3 {
                found.show(input);
            }
        }
    }
    println!("seed {seed}: {made} damaged inputs, {bad} of them bad, {} differ", found.differ);
    exit(if found.differ == 0 { 0 } else { 1 })
}

fn main() {
    let settings = settings();
    if let Some(count) = settings.sample {
        sample::write(count, settings.seed, &settings.keep);
        return;
    }
    // a panic of the Rust is an answer here, and is shown with its session
    std::panic::set_hook(Box::new(|_| {}));
    let Some(program) = settings.drive.clone() else {
        usage("--drive names our program");
    };
    let ours = Ours { program };
    let began = Instant::now();
    let limit = settings.seconds.map(Duration::from_secs);
    let (calls, seed) = (settings.calls, settings.seed);
    println!("seed {seed}");
    let mut script = Script::new(settings.exceptions.clone(), settings.session);
    let mut source = Source {
        family: if settings.random || settings.session { FAMILIES.len() } else { 0 },
        number: 0,
        seed,
        random: 0,
        own: settings.session,
    };
    let mut found = Found {
        settings,
        ours: ours.clone(),
        differ: 0,
        calls: 0,
        sessions: 0,
    };
    if let Some(count) = found.settings.damaged {
        damaged(&mut found, &mut script, count);
    }
    let mut said = Instant::now();
    let mut under_way = batch(&mut source, &mut script, &ours, calls);
    let mut written: u64 = under_way.sessions.iter().map(|session| session.calls).sum();
    loop {
        let over = limit.is_some_and(|limit| began.elapsed() >= limit) || written >= calls;
        let next = (!over).then(|| batch(&mut source, &mut script, &ours, calls - written));
        found.take(under_way);
        if said.elapsed() > Duration::from_secs(5) {
            said = Instant::now();
            println!(
                "{} calls, {} sessions, {} differ; {:.0} s",
                found.calls,
                found.sessions,
                found.differ,
                began.elapsed().as_secs_f64()
            );
            let _ = io::stdout().flush();
        }
        match next {
            Some(batch) if !(found.settings.first && found.differ > 0) => {
                written += batch.sessions.iter().map(|session| session.calls).sum::<u64>();
                under_way = batch;
            }
            _ => break,
        }
    }
    for ((exception, name, _), used) in ALL.iter().zip(script.used()) {
        if found.settings.exceptions.is_on(*exception) {
            println!("exception {name} was at work {used} times");
        }
    }
    let minutes = began.elapsed().as_secs_f64() / 60.0;
    println!("{:.0} calls a minute", found.calls as f64 / minutes);
    println!(
        "seed {seed}: {} calls in {} sessions, {} differ",
        found.calls, found.sessions, found.differ
    );
    exit(if found.differ == 0 { 0 } else { 1 });
}
