//! The other program: started once for each trace, fed and listened to.

use std::io::{self, Read, Write};
use std::process::{Child, Command, ExitStatus, Stdio};
use std::sync::mpsc;
use std::thread;
use std::time::{Duration, Instant};

/// How long a program may take over one trace.
const PATIENCE: Duration = Duration::from_secs(30);
/// How long the second piece of a trace waits for the first to be read.
const PAUSE: Duration = Duration::from_millis(30);
/// Bytes listened to: more than any right report has.
const MOST: u64 = 1 << 20;

/// A command line, split at blanks.
pub struct Other {
    words: Vec<String>,
}

/// What the program wrote, and how it ended; no status when it took too long.
pub struct Reply {
    pub bytes: Vec<u8>,
    pub status: Option<ExitStatus>,
}

impl Reply {
    /// Whether the program ended by itself, whatever its status: document 01
    /// gives none. A program that is killed has no status number.
    pub fn ended(&self) -> bool {
        self.status.is_some_and(|status| status.code().is_some())
    }
}

impl Other {
    /// None when there is no word in the line.
    pub fn new(line: &str) -> Option<Other> {
        let words: Vec<String> = line.split_whitespace().map(String::from).collect();
        (!words.is_empty()).then_some(Other { words })
    }

    /// Gives the program the trace, whole or in two pieces, and waits for its end.
    /// An error when it can't be started.
    pub fn ask(&self, trace: &[u8], in_pieces: bool) -> io::Result<Reply> {
        let mut child = Command::new(&self.words[0])
            .args(&self.words[1..])
            .stdin(Stdio::piped())
            .stdout(Stdio::piped())
            .stderr(Stdio::null())
            .spawn()?;
        let deadline = Instant::now() + PATIENCE;
        if let Some(mut input) = child.stdin.take() {
            let (first, second) = trace.split_at(if in_pieces { trace.len() / 2 } else { 0 });
            let (first, second) = (first.to_vec(), second.to_vec());
            // A program may end without reading all, so a failed write is no error.
            thread::spawn(move || {
                if !first.is_empty() {
                    let _ = input.write_all(&first);
                    thread::sleep(PAUSE);
                }
                let _ = input.write_all(&second);
            });
        }
        let (send, receive) = mpsc::channel();
        if let Some(output) = child.stdout.take() {
            thread::spawn(move || {
                let mut bytes = Vec::new();
                let _ = output.take(MOST).read_to_end(&mut bytes);
                let _ = send.send(bytes);
            });
        }
        let bytes = receive.recv_timeout(PATIENCE).unwrap_or_default();
        let status = wait(&mut child, deadline)?;
        Ok(Reply { bytes, status })
    }
}

/// The child's status, or none when it had to be ended at the deadline.
fn wait(child: &mut Child, deadline: Instant) -> io::Result<Option<ExitStatus>> {
    while Instant::now() < deadline {
        if let Some(status) = child.try_wait()? {
            return Ok(Some(status));
        }
        thread::sleep(Duration::from_micros(100));
    }
    child.kill()?;
    child.wait()?;
    Ok(None)
}
