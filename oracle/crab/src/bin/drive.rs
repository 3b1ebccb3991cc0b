//! Runs `drive`'s format on the unchanged Rust: `drive [--session] [--without NAME,..] [--with NAME,..] < in > out`.
//!
//! `--session`: only the words of document 01's session. `--without`: the exceptions of these names are off (`all`: every one), and the
//! Rust's own rule shows. `--with`: they are on, as they are where nothing is said.
use std::{
    env,
    io::{self, Read, Write},
    process::exit,
};

use crab_oracle::{drive::Drive, exceptions::Exceptions};

fn main() -> io::Result<()> {
    let mut exceptions = Exceptions::all();
    let mut session = false;
    let mut words = env::args().skip(1);
    while let Some(word) = words.next() {
        match word.as_str() {
            "--session" => session = true,
            "--with" | "--without" => {
                let names = words.next().unwrap_or_default();
                if let Err(name) = exceptions.switch(&names, word == "--with") {
                    eprintln!("drive: no exception has the name {name}");
                    exit(2);
                }
            }
            other => {
                eprintln!("drive: {other} is not known");
                exit(2);
            }
        }
    }
    let mut drive = Drive::new(exceptions, session);
    let mut bytes = Vec::new();
    io::stdin().read_to_end(&mut bytes)?;
    drive.input(&bytes);
    if !drive.is_comparable() {
        eprintln!("drive: words were forged, or a buffer named, that the Rust has no equal of: this is not comparable");
    }
    io::stdout().write_all(&drive.out)
}
