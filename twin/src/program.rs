//! Runs the other program on one input, within a time limit.

use std::io::{self, Read, Write};
use std::path::Path;
use std::process::{Child, ChildStdin, ChildStdout, Command, ExitStatus, Stdio};
use std::sync::mpsc;
use std::thread;
use std::time::{Duration, Instant};

use crate::generate::random::Random;

/// How the input reaches the program.
#[derive(Clone, Debug)]
pub enum Feeding {
    AtOnce,
    /// In pieces of 1 up to so many bytes, each flushed.
    InPieces {
        longest: u64,
        random: Random,
    },
}

/// Enough for a line of every two bytes of the longest input, as many as the shortest
/// record has; more is a fault.
const MOST_OUTPUT: u64 = 4 << 20;
/// Between pieces, so that the reader may find less than it asks for.
const PAUSE: Duration = Duration::from_micros(20);

/// The program's standard output, or what went wrong.
pub fn run(
    program: &Path,
    input: &[u8],
    feeding: Feeding,
    limit: Duration,
) -> Result<Vec<u8>, String> {
    let deadline = Instant::now() + limit;
    let mut child = Command::new(program)
        .stdin(Stdio::piped())
        .stdout(Stdio::piped())
        .stderr(Stdio::null())
        .spawn()
        .map_err(|error| format!("could not start {}: {error}", program.display()))?;
    let outcome = talk(&mut child, input, feeding, deadline);
    if outcome.is_err() {
        // Only our own child, and harmless if it has ended by itself.
        let _ = child.kill();
        let _ = child.wait();
    }
    outcome
}

fn talk(
    child: &mut Child,
    input: &[u8],
    feeding: Feeding,
    deadline: Instant,
) -> Result<Vec<u8>, String> {
    let (stdin, stdout) = child.stdin.take().zip(child.stdout.take()).ok_or("no pipes")?;
    let input = input.to_vec();
    // A program may stop reading at its limit, so a failed write is no fault.
    thread::spawn(move || feed(stdin, &input, feeding));
    let output = output_until(stdout, deadline)?;
    let status = wait_until(child, deadline)?;
    if !status.success() {
        return Err(format!("ended with {status}"));
    }
    Ok(output)
}

fn feed(mut stdin: ChildStdin, input: &[u8], feeding: Feeding) -> io::Result<()> {
    match feeding {
        Feeding::AtOnce => stdin.write_all(input),
        Feeding::InPieces { longest, mut random } => {
            let mut rest = input;
            while !rest.is_empty() {
                let length = (1 + random.below(longest) as usize).min(rest.len());
                stdin.write_all(&rest[..length])?;
                stdin.flush()?;
                rest = &rest[length..];
                thread::sleep(PAUSE);
            }
            Ok(())
        }
    }
}

fn output_until(stdout: ChildStdout, deadline: Instant) -> Result<Vec<u8>, String> {
    let (sender, receiver) = mpsc::channel();
    thread::spawn(move || {
        let mut output = Vec::new();
        let reading = stdout.take(MOST_OUTPUT).read_to_end(&mut output);
        // Nobody listens any more after the time limit.
        let _ = sender.send(reading.map(|_| output));
    });
    let left = deadline.saturating_duration_since(Instant::now());
    let reading = receiver.recv_timeout(left).map_err(|_| "did not end within the time limit")?;
    let output = reading.map_err(|error| format!("could not read its output: {error}"))?;
    if output.len() as u64 == MOST_OUTPUT {
        return Err("printed too much".to_string());
    }
    Ok(output)
}

fn wait_until(child: &mut Child, deadline: Instant) -> Result<ExitStatus, String> {
    loop {
        let state = child.try_wait().map_err(|error| format!("could not wait: {error}"))?;
        if let Some(status) = state {
            return Ok(status);
        }
        if Instant::now() > deadline {
            return Err("closed its output but did not end within the time limit".to_string());
        }
        thread::sleep(Duration::from_micros(100));
    }
}

#[cfg(test)]
mod tests {
    use super::*;

    fn run_program(program: &str, input: &[u8], feeding: Feeding) -> Result<Vec<u8>, String> {
        run(Path::new(program), input, feeding, Duration::from_millis(500))
    }

    #[test]
    fn output_comes_back_whole() {
        let input: Vec<u8> = (0..200_000u32).map(|number| number as u8).collect();
        assert_eq!(run_program("/bin/cat", &input, Feeding::AtOnce), Ok(input));
    }

    #[test]
    fn pieces_arrive_whole() {
        let input: Vec<u8> = (0..5_000u32).map(|number| number as u8).collect();
        let feeding = Feeding::InPieces { longest: 700, random: Random::new(1) };
        assert_eq!(run_program("/bin/cat", &input, feeding), Ok(input));
    }

    #[test]
    fn a_program_that_does_not_read_is_no_fault_by_itself() {
        let output = run_program("/bin/true", &[7; 200_000], Feeding::AtOnce);
        assert_eq!(output, Ok(vec![]));
    }

    /// A shell reads its standard input as what to do.
    #[test]
    fn hangs_and_crashes_are_told() {
        for script in ["exec sleep 60", "exec >&-; exec sleep 60", "kill -SEGV $$", "exit 3"] {
            assert!(run_program("/bin/sh", script.as_bytes(), Feeding::AtOnce).is_err());
        }
        assert_eq!(run_program("/bin/sh", b"echo", Feeding::AtOnce), Ok(vec![b'\n']));
    }

    #[test]
    fn failures_are_told() {
        assert!(run_program("/bin/false", &[], Feeding::AtOnce).is_err());
        assert!(run_program("/no/such/program", &[], Feeding::AtOnce).is_err());
        assert!(run_program("/usr/bin/yes", &[], Feeding::AtOnce).is_err());
    }
}
