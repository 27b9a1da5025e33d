//! Runs that end otherwise than with the end of a pipe.

use std::fs::File;
use std::io::{self, Read, Write};
use std::os::fd::{AsRawFd, OwnedFd};
use std::os::unix::net::{UnixDatagram, UnixStream};
use std::os::unix::process::ExitStatusExt;
use std::process::{Command, Stdio};
use std::thread;
use std::time::Duration;

use lines::line::{answers, SETUP, START};

use crate::boundaries::LONGEST_ANSWER;
use crate::compare::{self, first_difference, Comparison, Outcome, Run};

const SIGPIPE: i32 = 13;

/// How long the program may take to notice a failure.
const SOME_SECONDS: Duration = Duration::from_secs(10);

pub fn compare(comparison: &mut Comparison) -> Outcome {
    for (name, ended) in [
        ("nobody reads", reader_gone(0, comparison)),
        ("nobody reads after 10 bytes", reader_gone(10, comparison)),
        ("one write fails, the next not", failing_output(comparison)),
    ] {
        ended.map_err(|text| format!("difference where {name}: {text}"))?;
    }
    no_input(comparison)?;
    for more in ["", "\n", "tick\t\n", "t", "tick", "tick\t", "tick\t00"] {
        let text = format!("{SETUP}\n{START}\n{more}");
        failing_input(text.as_bytes(), comparison)?;
    }
    failing_input(b"", comparison)
}

/// The reader goes away after some bytes, while the input goes on and on.
fn reader_gone(bytes: usize, comparison: &Comparison) -> Outcome {
    let (mut child, mut stdin) = compare::start_on_pipes(&comparison.program)?;
    let mut stdout = child.stdout.take().expect("standard output is a pipe");
    let status = thread::scope(|scope| {
        scope.spawn(move || while writeln!(stdin, "{SETUP}\n{START}").is_ok() {});
        scope.spawn(move || stdout.read_exact(&mut vec![0; bytes]));
        compare::wait(&mut child, SOME_SECONDS)
    })?;
    match status.signal() {
        Some(SIGPIPE) => Ok(()),
        _ => compare::by_itself(status, true),
    }
}

/// Their answers fill a write of 65,536 bytes, or writes of a half or a quarter of that; those to
/// the last few fit a message.
const TICKS: usize = 65_536 / LONGEST_ANSWER + 10;

/// About; in bytes.
const LONGEST_MESSAGE: usize = 4_608;

/// The output is a socket that takes short messages and refuses long ones. The answers to the first
/// piece of input fit; in the middle of the second a write fails, while one at its end would work
/// again. The program is to end with the failure, though more input may come.
fn failing_output(comparison: &Comparison) -> Outcome {
    let failed = |error| format!("no socket: {error}");
    let (mut input, stdin) = UnixStream::pair().map_err(failed)?;
    let (output, stdout) = UnixDatagram::pair().map_err(failed)?;
    shorten_messages(&stdout).map_err(failed)?;
    let patient = output.set_read_timeout(Some(SOME_SECONDS));
    patient.map_err(failed)?;
    let mut command = Command::new(&comparison.program);
    let [stdin, stdout] = [OwnedFd::from(stdin), OwnedFd::from(stdout)];
    let mut child = compare::start(command.stdin(stdin).stdout(stdout))?;

    let pieces = [SETUP.replacen('1', "4", 1) + "\n", "tick\t\n".repeat(TICKS)];
    let mut found = Vec::new();
    let mut receive = || {
        let mut message = [0; LONGEST_MESSAGE];
        let count = output.recv(&mut message).unwrap_or(0);
        found.extend_from_slice(&message[..count]);
        count
    };
    input.write_all(pieces[0].as_bytes()).map_err(failed)?;
    receive();
    input.write_all(pieces[1].as_bytes()).map_err(failed)?;
    compare::by_itself(compare::wait(&mut child, SOME_SECONDS)?, true)?;
    // What a program has written that has ended is there.
    output.set_nonblocking(true).map_err(failed)?;
    while receive() > 0 {}
    let text = pieces.concat();
    let expected = answers(text.as_bytes());
    match expected.starts_with(&found) {
        true if found.is_empty() || found == expected => Err("none or all is written".to_string()),
        true => Ok(()),
        false => Err(first_difference(text.as_bytes(), &expected, &found)),
    }
}

fn shorten_messages(socket: &UnixDatagram) -> io::Result<()> {
    extern "C" {
        fn setsockopt(socket: i32, level: i32, option: i32, value: *const i32, size: u32) -> i32;
    }
    const SOL_SOCKET: i32 = 1;
    const SO_SNDBUF: i32 = 7;
    // The system doubles it.
    let bytes = LONGEST_MESSAGE as i32 / 2;
    // SAFETY: the value is lent for the call, with its size.
    match unsafe { setsockopt(socket.as_raw_fd(), SOL_SOCKET, SO_SNDBUF, &bytes, 4) } {
        0 => Ok(()),
        _ => Err(io::Error::last_os_error()),
    }
}

/// The program reads all of the input, and then a read fails: a socket is reset whose other end is
/// closed with something unread. The rest of a line that is cut off so is not known, and the line
/// not answered.
fn failing_input(input: &[u8], comparison: &mut Comparison) -> Outcome {
    let reset = || {
        let (mut ours, mut theirs) = UnixStream::pair()?;
        theirs.write_all(b"unread")?;
        ours.write_all(input)?;
        Ok(OwnedFd::from(theirs))
    };
    let stdin = reset().map_err(|error: io::Error| format!("no socket: {error}"))?;
    let run = run_on(&mut Command::new(&comparison.program), stdin);
    let last = input.iter().rposition(|&byte| byte == b'\n');
    let whole_lines = &input[..last.map_or(0, |last| last + 1)];
    comparison.held_to_second("an input that fails", whole_lines, run, true)
}

fn run_on(command: &mut Command, stdin: impl Into<Stdio>) -> Run {
    compare::finish(compare::start(command.stdin(stdin).stdout(Stdio::piped()))?)
}

/// Nothing to read: an empty file, a directory, no descriptor at all.
fn no_input(comparison: &mut Comparison) -> Outcome {
    let program = &mut Command::new(&comparison.program);
    let directory = File::open(".").map_err(|error| format!("no directory: {error}"))?;
    let mut shell = Command::new("sh");
    let closed = shell.args(["-c", "exec \"$0\" <&-"]);
    let closed = closed.arg(&comparison.program);
    for (name, run, failed) in [
        ("an empty file", run_on(program, Stdio::null()), false),
        ("a directory for an input", run_on(program, directory), true),
        ("no standard input", run_on(closed, Stdio::null()), true),
    ] {
        comparison.held_to_second(name, b"", run, failed)?;
    }
    Ok(())
}
