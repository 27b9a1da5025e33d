//! The calls are made in a child that notes ahead of each which one it is. If the library crashes
//! or hangs there, the parent says where.

use std::fs::{self, File};
use std::io;
use std::os::fd::AsFd;
use std::os::unix::fs::FileExt;
use std::process::{self, Command, ExitStatus};
use std::thread;
use std::time::{Duration, Instant};

/// The child's first argument.
pub const ARGUMENT: &str = "calls";

/// Far longer than any call takes, on a busy machine too.
const LONGEST_CALL: Duration = Duration::from_secs(20);

/// What is noted in place of a call after the last one.
pub const FINISHED: &str = "finished";

/// The file that the parent has handed over as standard input.
pub fn notes() -> File {
    let input = io::stdin().as_fd().try_clone_to_owned();
    input.expect("a file of the parent's").into()
}

/// A line; what is left of longer ones stands after it.
pub fn note(notes: &File, line: &str) {
    let written = notes.write_all_at([line, "\n"].concat().as_bytes(), 0);
    written.expect("a file of the parent's");
}

fn read(file: &File) -> String {
    let mut bytes = [b'\n'; 100];
    // Before the first call there is nothing to read.
    let _ = file.read_at(&mut bytes, 0);
    let text = String::from_utf8_lossy(&bytes);
    text.lines().next().unwrap_or_default().to_string()
}

/// The child prints what it comes to; an end before that is told here.
pub fn watch(program: &str, factor: &str) -> Result<String, String> {
    let (ended, note) = run(program, factor).map_err(|error| format!("no child: {error}\n"))?;
    match ended {
        Some(status) if note == FINISHED && status.success() => Ok(String::new()),
        Some(_) if note == FINISHED => Err(String::new()),
        Some(status) => Err(format!("the library crashes ({status}) in {note}\n")),
        None => Err(format!("the library hangs in {note}\n")),
    }
}

/// Without an end of its own if the child has been in one call for too long.
fn run(program: &str, factor: &str) -> io::Result<(Option<ExitStatus>, String)> {
    let path = std::env::temp_dir().join(format!("{program}.{}", process::id()));
    let file = File::create_new(&path)?;
    fs::remove_file(&path)?;
    let mut command = Command::new(std::env::current_exe()?);
    let command = command.args([ARGUMENT, factor]).stdin(file.try_clone()?);
    let mut child = command.spawn()?;
    let (mut note, mut since) = (read(&file), Instant::now());
    loop {
        if let Some(status) = child.try_wait()? {
            return Ok((Some(status), read(&file)));
        }
        let newest = read(&file);
        if newest != note {
            (note, since) = (newest, Instant::now());
        } else if since.elapsed() > LONGEST_CALL {
            child.kill()?;
            child.wait()?;
            return Ok((None, note));
        }
        thread::sleep(Duration::from_millis(20));
    }
}
