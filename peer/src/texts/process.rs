//! A program that runs as a process of its own for each image.

use std::ffi::OsString;
use std::io::{self, ErrorKind, Write};
use std::process::{Child, ChildStdin, Command, Output, Stdio};
use std::thread;
use std::time::Duration;

/// A program by its path.
pub struct Process(pub OsString);

impl Process {
    /// What the program writes to standard output with an image on standard
    /// input, or how it failed.
    pub fn text(&self, image: &[u8]) -> Result<Vec<u8>, String> {
        let output = self.output(image).map_err(|error| error.to_string())?;
        if output.status.success() {
            Ok(output.stdout)
        } else {
            Err(output.status.to_string())
        }
    }

    fn output(&self, image: &[u8]) -> io::Result<Output> {
        let mut command = Command::new(&self.0);
        let child = command.stdin(Stdio::piped()).stdout(Stdio::piped());
        converse(child.spawn()?, image)
    }
}

/// Writes and reads at once: neither pipe waits for the other one.
fn converse(mut child: Child, image: &[u8]) -> io::Result<Output> {
    let input = child.stdin.take().expect("standard input is a pipe");
    thread::scope(|scope| {
        let writing = scope.spawn(move || hand_over(image, input));
        let output = child.wait_with_output();
        writing.join().expect("writing does not panic")?;
        output
    })
}

/// Writes the image and closes the pipe. A program that has read enough may
/// close it before.
fn hand_over(image: &[u8], mut input: ChildStdin) -> io::Result<()> {
    match write_parts(image, &mut input) {
        Err(error) if error.kind() == ErrorKind::BrokenPipe => Ok(()),
        outcome => outcome,
    }
}

/// Long enough for a program to start and read.
const PAUSE: Duration = Duration::from_millis(4);

/// Some images, chosen by their length, go in three parts with pauses, so
/// that the program reads less at once than there is.
fn write_parts(image: &[u8], input: &mut ChildStdin) -> io::Result<()> {
    if image.is_empty() || !image.len().is_multiple_of(64) {
        return input.write_all(image);
    }
    for part in image.chunks(image.len().div_ceil(3)) {
        input.write_all(part)?;
        thread::sleep(PAUSE);
    }
    Ok(())
}
