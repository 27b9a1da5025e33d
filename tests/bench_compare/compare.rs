//! One input through both, the second implementation and the program, which is a child, fed and
//! read from threads of their own, so that neither side can wait for the other for ever.

use std::io::{Read, Write};
use std::path::{Path, PathBuf};
use std::process::{Child, ChildStdin, Command, ExitStatus, Stdio};
use std::time::{Duration, Instant};
use std::{env, fs, thread};

use lines::line::answers;

/// The first difference is an error, told in full.
pub type Outcome = Result<(), String>;

/// After each piece, long enough for the program to take what there is.
const PAUSE: Duration = Duration::from_micros(300);

#[derive(Default)]
pub struct Comparison {
    pub program: PathBuf,
    pub inputs: usize,
    pub bytes: usize,
}

impl Comparison {
    /// The input as fast as it is taken.
    pub fn same(&mut self, name: &str, input: &[u8]) -> Outcome {
        self.same_in_pieces(name, input, &[])
    }

    /// The input in pieces of these sizes, with pauses, so that reads come short; what is left
    /// comes at once.
    pub fn same_in_pieces(&mut self, name: &str, input: &[u8], sizes: &[usize]) -> Outcome {
        let run = run(&self.program, |mut stdin, _| {
            let mut rest = input;
            for &size in sizes {
                let (piece, after) = rest.split_at(size.min(rest.len()));
                // A program that reads no further shows in its answers.
                if piece.is_empty() || stdin.write_all(piece).is_err() {
                    return;
                }
                thread::sleep(PAUSE);
                rest = after;
            }
            let _ = stdin.write_all(rest);
        });
        self.held_to_second(name, input, run, false)
    }

    /// A run that has read this input to its end, or up to a failure.
    pub fn held_to_second(&mut self, name: &str, input: &[u8], run: Run, failed: bool) -> Outcome {
        self.inputs += 1;
        self.bytes += input.len();
        let expected = answers(input);
        let same = run.and_then(|(output, status)| match output == expected {
            true => by_itself(status, failed),
            false => Err(first_difference(input, &expected, &output)),
        });
        same.map_err(|text| {
            // To be tried again.
            let path = env::temp_dir().join("bench_compare_input");
            let kept = match fs::write(&path, input) {
                Ok(()) => format!("the input stands in {}", path.display()),
                Err(error) => format!("the input can't be kept: {error}"),
            };
            format!("difference in {name}: {text}\n{kept}")
        })
    }
}

/// The line at which the answers part.
pub fn first_difference(input: &[u8], expected: &[u8], found: &[u8]) -> String {
    let equal = expected.iter().zip(found).take_while(|(a, b)| a == b);
    let before = &expected[..equal.count()];
    let at = before.iter().filter(|&&byte| byte == b'\n').count();
    let [input, expected, found] = [input, expected, found].map(|text| line_at(text, at));
    format!(
        "the answers part at line {}\n  line                   {input}\n  \
         second implementation  {expected}\n  program                {found}",
        at + 1,
    )
}

fn line_at(text: &[u8], at: usize) -> String {
    const MOST_SHOWN: usize = 200;
    let mut lines = text.split_inclusive(|&byte| byte == b'\n');
    let line = lines.nth(at).unwrap_or(b"(none)");
    let shown = line[..line.len().min(MOST_SHOWN)].escape_ascii();
    format!("\"{shown}\", {} bytes", line.len())
}

/// How long a run may take from its start to its end.
const PATIENCE: Duration = Duration::from_secs(120);

/// What the program has written, and its end. An error is a text to be shown.
pub type Run = Result<(Vec<u8>, ExitStatus), String>;

/// After a failure the status may say so.
pub fn by_itself(status: ExitStatus, failed: bool) -> Result<(), String> {
    match status.code() {
        Some(0) => Ok(()),
        Some(1) if failed => Ok(()),
        _ => Err(format!("the program ends with {status}")),
    }
}

pub fn start(command: &mut Command) -> Result<Child, String> {
    let child = command.spawn();
    child.map_err(|error| format!("{command:?} can't be started: {error}"))
}

/// Starts the program with pipes on both sides.
pub fn start_on_pipes(program: &Path) -> Result<(Child, ChildStdin), String> {
    let mut command = Command::new(program);
    let mut child = start(command.stdin(Stdio::piped()).stdout(Stdio::piped()))?;
    let stdin = child.stdin.take().expect("standard input is a pipe");
    Ok((child, stdin))
}

/// Runs the program to its end. The feeder gets its standard input and its number.
pub fn run(program: &Path, feed: impl FnOnce(ChildStdin, u32) + Send) -> Run {
    let (child, stdin) = start_on_pipes(program)?;
    let number = child.id();
    thread::scope(|scope| {
        scope.spawn(move || feed(stdin, number));
        finish(child)
    })
}

/// Reads all that the child writes and waits for its end.
pub fn finish(mut child: Child) -> Run {
    let mut stdout = child.stdout.take().expect("standard output is a pipe");
    let reader = thread::spawn(move || {
        let mut output = Vec::new();
        // What came before an error is compared all the same.
        let _ = stdout.read_to_end(&mut output);
        output
    });
    // Its end closes the pipes and so ends the threads.
    let status = wait(&mut child, PATIENCE);
    let output = reader.join().expect("the reader ends");
    status.map(|status| (output, status))
}

/// A child that doesn't end by itself is ended.
pub fn wait(child: &mut Child, patience: Duration) -> Result<ExitStatus, String> {
    let start = Instant::now();
    while start.elapsed() < patience {
        match child.try_wait() {
            Ok(Some(status)) => return Ok(status),
            Ok(None) => thread::sleep(Duration::from_millis(1)),
            Err(error) => return Err(format!("no word of the program: {error}")),
        }
    }
    // It may have ended in the meantime.
    let _ = child.kill();
    let _ = child.wait();
    Err(format!("it hasn't ended after {} s", patience.as_secs()))
}
