//! The program `drive` over this crate: lines on standard input, answers on standard output, every call through the boundary. So whatever compares
//! `drive` with something else can compare the exported calls too (`DRIVE=.. oracle/compare`).
#[path = "../tests/drive/mod.rs"]
mod drive;

use std::io::{self, Read, Write};

fn main() -> io::Result<()> {
    let mut input = Vec::new();
    io::stdin().read_to_end(&mut input)?;
    io::stdout().write_all(drive::run(&String::from_utf8_lossy(&input)).as_bytes())
}
