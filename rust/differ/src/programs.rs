//! The planner under test: the built programs, or, to try the comparison itself, a planner with a known slip or with none.

use crate::miscounts;
use crate::planner::{calls_text, narrowed, OneJob};
use crate::slips::{Slip, SlippedBoard};
use crate::texts::{job_of, text_of};
use reference::{totals, Board};
use std::io::{Read, Write};
use std::process::{Child, Command, Stdio};
use std::sync::mpsc;
use std::time::Duration;

const PATIENCE: Duration = Duration::from_secs(300);

pub enum UnderTest {
    /// A command that takes a program's name and runs it.
    Runner(String),
    Slipped(Slip),
    /// The reference once more, to see what the mix of jobs and calls comes to.
    Reference,
}

impl UnderTest {
    pub fn calls(&self, stream: &[u8]) -> String {
        match self {
            UnderTest::Runner(path) => run(path, "calls", stream),
            UnderTest::Slipped(slip) => calls_text(&mut SlippedBoard::empty(*slip), stream),
            UnderTest::Reference => calls_text(&mut Board::empty(), stream),
        }
    }

    /// What a program of one job prints.
    pub fn told(&self, program: OneJob, job: &[u8]) -> String {
        match self {
            UnderTest::Runner(path) => run(path, program.name(), job),
            UnderTest::Slipped(slip) => program.text(&mut SlippedBoard::empty(*slip), job),
            UnderTest::Reference => program.text(&mut Board::empty(), job),
        }
    }

    /// The picture of a job with what is asked for in front of it. A planner in plain Rust draws nothing, and has none.
    pub fn picture(&self, asked: &[u8]) -> Option<String> {
        match self {
            UnderTest::Runner(path) => Some(run(path, "draw", asked)),
            UnderTest::Slipped(_) | UnderTest::Reference => None,
        }
    }

    /// A job narrowed.
    pub fn narrowed(&self, job: &[u8]) -> Vec<u8> {
        match self {
            UnderTest::Runner(path) => run_bytes(path, "narrow_job", job),
            UnderTest::Slipped(slip) => narrowed(&mut SlippedBoard::empty(*slip), job),
            UnderTest::Reference => narrowed(&mut Board::empty(), job),
        }
    }

    /// The season's totals of a wrapped stream.
    pub fn totals(&self, stream: &[u8]) -> String {
        match self {
            UnderTest::Runner(path) => run(path, "totals", stream),
            UnderTest::Slipped(slip) => miscounts::text(*slip, stream),
            UnderTest::Reference => totals::text(stream),
        }
    }

    /// A job as text.
    pub fn text(&self, job: &[u8]) -> Vec<u8> {
        match self {
            UnderTest::Runner(path) => run_bytes(path, "job_to_text", job),
            UnderTest::Slipped(slip) => text_of(job, Some(*slip)),
            UnderTest::Reference => text_of(job, None),
        }
    }

    /// The job of a text.
    pub fn job(&self, text: &[u8]) -> Vec<u8> {
        match self {
            UnderTest::Runner(path) => run_bytes(path, "text_to_job", text),
            UnderTest::Slipped(slip) => job_of(text, Some(*slip)),
            UnderTest::Reference => job_of(text, None),
        }
    }
}

/// What a program prints that prints text.
fn run(runner: &str, program: &str, input: &[u8]) -> String {
    String::from_utf8_lossy(&run_bytes(runner, program, input)).into_owned()
}

/// What the program prints. A bad end or no end is made visible as a last line that no program prints.
fn run_bytes(runner: &str, program: &str, input: &[u8]) -> Vec<u8> {
    let child = Command::new(runner)
        .arg(program)
        .stdin(Stdio::piped())
        .stdout(Stdio::piped())
        // How many turns were made is told there, too.
        .stderr(Stdio::null())
        .spawn();
    match child {
        Ok(child) => talk(child, input),
        Err(error) => {
            eprintln!("cannot run {runner} {program}: {error}");
            std::process::exit(2);
        }
    }
}

fn talk(mut child: Child, input: &[u8]) -> Vec<u8> {
    let mut stdin = child.stdin.take().expect("standard input is a pipe");
    let mut stdout = child.stdout.take().expect("standard output is a pipe");
    let input = input.to_vec();
    // A program may stop reading early, as at a broken stream; what it then leaves unread is no fault.
    let writer = std::thread::spawn(move || drop(stdin.write_all(&input)));
    let (sender, receiver) = mpsc::channel();
    let reader = std::thread::spawn(move || {
        let mut bytes = Vec::new();
        let read = stdout.read_to_end(&mut bytes).is_ok();
        drop(sender.send((bytes, read)));
    });
    let answer = receiver.recv_timeout(PATIENCE);
    if answer.is_err() {
        drop(child.kill());
    }
    let status = child.wait();
    drop(writer.join());
    drop(reader.join());
    let Ok((mut bytes, true)) = answer else {
        return b"(no end within the time allowed)\n".to_vec();
    };
    match status {
        Ok(status) if status.success() => {}
        Ok(status) => bytes.extend(format!("(ended with {status})\n").bytes()),
        Err(error) => bytes.extend(format!("(ended with {error})\n").bytes()),
    }
    bytes
}
