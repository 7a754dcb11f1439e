//! Runs the program under comparison on a call list.

use std::io::{Read, Write};
use std::path::Path;
use std::process::{Child, Command, ExitStatus, Stdio};
use std::sync::mpsc::{self, Receiver};
use std::thread;
use std::time::{Duration, Instant};

/// How long one run may take, and what each line of its input adds.
const LIMIT: Duration = Duration::from_secs(30);
const LIMIT_PER_LINE: Duration = Duration::from_millis(20);

/// The program's output on this input; an error if it cannot be run, fails or takes too long.
pub fn run(program: &Path, input: &[u8]) -> Result<Vec<u8>, String> {
    let mut child = Command::new(program)
        .stdin(Stdio::piped())
        .stdout(Stdio::piped())
        .stderr(Stdio::piped())
        .spawn()
        .map_err(|error| format!("the replay program cannot be run: {error}"))?;
    let lines = input.iter().filter(|byte| **byte == b'\n').count();
    let limit = LIMIT + LIMIT_PER_LINE * lines as u32;
    let deadline = Instant::now() + limit;
    feed(&mut child, input.to_vec());
    let errors = collect(child.stderr.take().expect("a piped stream"));
    let output = collect(child.stdout.take().expect("a piped stream"));
    let output = output.recv_timeout(limit);
    let status = wait(&mut child, deadline)?;
    if !status.success() {
        let errors = errors.recv_timeout(Duration::from_secs(1));
        let errors = errors.unwrap_or_default();
        let first = String::from_utf8_lossy(&errors);
        let first = first.lines().next().unwrap_or_default();
        return Err(format!("the replay program failed, {status}: {first}"));
    }
    output.map_err(|_| "the replay program's output does not end".to_string())
}

/// Writes the input from a thread of its own, so that neither side waits for the other.
fn feed(child: &mut Child, input: Vec<u8>) {
    let mut stream = child.stdin.take().expect("a piped stream");
    // A program that stops reading shows in its output or its exit status.
    thread::spawn(move || stream.write_all(&input).unwrap_or(()));
}

fn collect(mut stream: impl Read + Send + 'static) -> Receiver<Vec<u8>> {
    let (sender, receiver) = mpsc::channel();
    thread::spawn(move || {
        let mut bytes = Vec::new();
        // What came before a reading error is still compared.
        let _ = stream.read_to_end(&mut bytes);
        let _ = sender.send(bytes);
    });
    receiver
}

fn wait(child: &mut Child, deadline: Instant) -> Result<ExitStatus, String> {
    loop {
        match child.try_wait() {
            Ok(Some(status)) => return Ok(status),
            Ok(None) if Instant::now() < deadline => thread::sleep(Duration::from_millis(1)),
            Ok(None) => {
                let _ = child.kill();
                let _ = child.wait();
                return Err("the replay program does not end in time".to_string());
            }
            Err(error) => return Err(format!("the replay program is lost: {error}")),
        }
    }
}
