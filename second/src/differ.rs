//! Running another replay program and finding where its answers differ.

use crate::replay::{next_line, Replay};
use std::io::{self, Read, Write};
use std::path::Path;
use std::process::{Child, Command, ExitStatus, Stdio};
use std::sync::mpsc::{channel, RecvTimeoutError};
use std::time::Duration;

/// A program that gives no end to its answers within this time is ended.
const LONGEST_RUN: Duration = Duration::from_secs(60);

/// One line of an answer and the script line (from 1) it belongs to.
pub struct Answer {
    pub line: usize,
    pub text: String,
}

/// The first difference between this program and another on a script.
#[derive(Clone, Debug, PartialEq, Eq)]
pub struct Difference {
    /// The line of the script, counted from 1.
    pub line: usize,
    pub call: String,
    /// The two answers' lines.
    pub second: String,
    pub other: String,
}

/// What another program did with a script.
struct Outcome {
    output: Vec<u8>,
    /// How it ended; nothing where it had to be ended.
    status: Option<ExitStatus>,
}

/// This program's answers to a script.
pub fn answers(script: &[u8]) -> Vec<Answer> {
    let mut replay = Replay::new();
    let mut rest = script;
    let mut bytes = Vec::new();
    let mut answers = Vec::new();
    let mut line = 0;
    // Reading from memory gives no error.
    while let Ok(true) = next_line(&mut rest, &mut bytes) {
        line += 1;
        for text in replay.line(&bytes) {
            answers.push(Answer { line, text });
        }
    }
    answers
}

/// The first difference of a program from these answers to the script.
pub fn difference(
    program: &Path,
    script: &[u8],
    answers: &[Answer],
) -> io::Result<Option<Difference>> {
    let outcome = run_program(program, script)?;
    let at = |line: usize, second: String, other: String| Difference {
        line,
        call: line_of(script, line),
        second,
        other,
    };
    let mut theirs = outcome.output.split_inclusive(|byte| *byte == b'\n');
    for answer in answers {
        let ours = format!("{}\n", answer.text);
        let other = theirs.next().unwrap_or(b"");
        if other != ours.as_bytes() {
            return Ok(Some(at(
                answer.line,
                answer.text.clone(),
                shown(other, true),
            )));
        }
    }
    let last = answers.last().map_or(0, |answer| answer.line);
    if let Some(other) = theirs.next() {
        return Ok(Some(at(last, shown(b"", true), shown(other, true))));
    }
    Ok(match outcome.status {
        Some(status) if status.success() => None,
        Some(status) => Some(at(last, "an end with success".into(), status.to_string())),
        None => Some(at(last, "an end".into(), "no end in time".into())),
    })
}

/// A line of the script, counted from 1, as it can be shown.
fn line_of(script: &[u8], line: usize) -> String {
    let mut lines = script.split(|byte| *byte == b'\n');
    let line = lines.nth(line.saturating_sub(1));
    shown(line.unwrap_or(b""), false)
}

/// An answer's or a script's line as one line of text; a long one is cut, and
/// an answer without its line end (which `ended` asks for) is marked.
fn shown(bytes: &[u8], ended: bool) -> String {
    if bytes.is_empty() {
        return "(nothing)".to_string();
    }
    let text = bytes.strip_suffix(b"\n").unwrap_or(bytes);
    let kept = &text[..text.len().min(400)];
    let cut = if kept.len() < text.len() { " ..." } else { "" };
    let lacking = ended && text.len() == bytes.len();
    let mark = if lacking { " (without its end)" } else { "" };
    format!("{}{cut}{mark}", kept.escape_ascii())
}

/// Runs a program with the script on its standard input. The script is written
/// and the answers are read by threads, so that neither waits for the other.
fn run_program(program: &Path, script: &[u8]) -> io::Result<Outcome> {
    let mut child = Command::new(program)
        .stdin(Stdio::piped())
        .stdout(Stdio::piped())
        .stderr(Stdio::null())
        .spawn()?;
    let (input, output) = (child.stdin.take(), child.stdout.take());
    let script = script.to_vec();
    // A program that ends early doesn't read all: the fault shows elsewhere.
    std::thread::spawn(move || input.map(|mut input| input.write_all(&script)));
    let (sender, receiver) = channel();
    std::thread::spawn(move || {
        let mut bytes = Vec::new();
        if let Some(mut output) = output {
            let _ = output.read_to_end(&mut bytes);
        }
        let _ = sender.send(bytes);
    });
    match receiver.recv_timeout(LONGEST_RUN) {
        Ok(output) => finished(child, output),
        Err(RecvTimeoutError::Timeout) => ended(child),
        Err(error) => Err(io::Error::other(error)),
    }
}

fn finished(mut child: Child, output: Vec<u8>) -> io::Result<Outcome> {
    let status = Some(child.wait()?);
    Ok(Outcome { output, status })
}

fn ended(mut child: Child) -> io::Result<Outcome> {
    child.kill()?;
    child.wait()?;
    Ok(Outcome {
        output: vec![],
        status: None,
    })
}
