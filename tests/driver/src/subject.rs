//! The program that is under test: it reads a script and prints answers.

use reference::text::{self, Line};
use std::io::{Read, Write};
use std::process::{Command, Stdio};
use std::sync::{mpsc, Mutex};
use std::time::Duration;

/// A program that runs longer, or says more, is stopped.
const LONGEST: Duration = Duration::from_secs(60);
const LONGEST_ANSWERS: u64 = 1 << 30;

#[derive(Clone)]
pub struct Subject {
    program: String,
    args: Vec<String>,
}

impl Subject {
    /// A command with its words parted by spaces.
    pub fn new(command: &str) -> Subject {
        let mut words = command.split(' ').filter(|word| !word.is_empty()).map(str::to_string);
        Subject { program: words.next().unwrap_or_default(), args: words.collect() }
    }

    /// The answers to a script. An error is what the program said when it failed.
    pub fn play(&self, script: &[Line]) -> Result<String, String> {
        let input: String = script.iter().map(|line| text::of_line(line) + "\n").collect();
        let child = Command::new(&self.program).args(&self.args).stdin(Stdio::piped()).stdout(Stdio::piped()).stderr(Stdio::piped()).spawn();
        let mut child = child.map_err(|e| format!("{}: {e}", self.program))?;
        let mut stdin = child.stdin.take().expect("a pipe");
        let mut stdout = child.stdout.take().expect("a pipe").take(LONGEST_ANSWERS);
        let mut stderr = child.stderr.take().expect("a pipe");
        let child = Mutex::new(child);
        let kill = || {
            let _ = child.lock().expect("no thread panics").kill();
        };
        let kill = &kill;
        let (done, waits) = mpsc::channel::<()>();
        let mut answers = Vec::new();
        let mut said = String::new();
        let was_late = std::thread::scope(|scope| {
            // a program that ended early does not read to the end
            scope.spawn(move || stdin.write_all(input.as_bytes()));
            let said = &mut said;
            scope.spawn(move || stderr.read_to_string(said));
            let late = scope.spawn(move || {
                let is_late = waits.recv_timeout(LONGEST) == Err(mpsc::RecvTimeoutError::Timeout);
                if is_late {
                    kill();
                }
                is_late
            });
            let _ = stdout.read_to_end(&mut answers);
            if answers.len() as u64 == LONGEST_ANSWERS {
                kill();
            }
            drop(done);
            late.join().expect("no thread panics")
        });
        let status = child.into_inner().expect("no thread panics").wait().map_err(|e| e.to_string())?;
        if was_late {
            return Err(format!("the program did not end in {} s", LONGEST.as_secs()));
        }
        let answers = String::from_utf8_lossy(&answers).into_owned();
        if !status.success() {
            return Err(format!("the program ended with {status}: {}", said.trim()));
        }
        Ok(answers)
    }
}
