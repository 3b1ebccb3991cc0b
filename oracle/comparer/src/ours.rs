//! Runs the other side: the program `drive` of this repository, as a process of its own.
use std::{
    io::{Read, Write},
    path::PathBuf,
    process::{Child, Command, Stdio},
    sync::mpsc::{Receiver, RecvTimeoutError, channel},
    thread,
    time::Duration,
};

#[derive(Clone)]
pub struct Ours {
    pub program: PathBuf,
}

/// A run under way.
pub struct Run {
    child: Child,
    out: Receiver<Vec<u8>>,
}

const PATIENCE: Duration = Duration::from_secs(20);

impl Ours {
    pub fn start(&self, input: Vec<u8>) -> Run {
        let mut child = Command::new(&self.program)
            .stdin(Stdio::piped())
            .stdout(Stdio::piped())
            .stderr(Stdio::null())
            .spawn()
            .unwrap_or_else(|error| panic!("{} does not start: {error}", self.program.display()));
        let mut to = child.stdin.take().expect("a pipe");
        thread::spawn(move || {
            // a program that ends early leaves its input
            let _ = to.write_all(&input);
        });
        let mut from = child.stdout.take().expect("a pipe");
        let (send, out) = channel();
        thread::spawn(move || {
            let mut bytes = Vec::new();
            let _ = from.read_to_end(&mut bytes);
            let _ = send.send(bytes);
        });
        Run { child, out }
    }

    pub fn run(&self, input: Vec<u8>) -> Vec<u8> {
        self.start(input).end()
    }
}

impl Run {
    /// What it wrote; with a line more where it did not end well.
    pub fn end(mut self) -> Vec<u8> {
        let mut bytes = match self.out.recv_timeout(PATIENCE) {
            Ok(bytes) => bytes,
            Err(RecvTimeoutError::Timeout | RecvTimeoutError::Disconnected) => {
                let _ = self.child.kill();
                let mut bytes = self.out.recv().unwrap_or_default();
                bytes.extend_from_slice(b"our program did not end\n");
                bytes
            }
        };
        let status = self.child.wait().expect("a child that was started");
        if !status.success() {
            bytes.extend_from_slice(format!("our program ended with {status}\n").as_bytes());
        }
        bytes
    }
}

/// A run that nobody waits for any more does not go on: a slip may never end.
impl Drop for Run {
    fn drop(&mut self) {
        let _ = self.child.kill();
        let _ = self.child.wait();
    }
}
