//! The finder as a program: two lists on standard input, evidence or a sentence on standard output.

#![forbid(unsafe_code)]

use std::env;
use std::ffi::OsString;
use std::fs::File;
use std::io::{self, Read, Write};
use std::os::fd::AsFd;
use std::process::ExitCode;
use std::time::{Duration, Instant};

use cec_finder::{answer, Answer, Options};
use cec_reference::{write_frame, Frame, Limits, Refusal};

const USAGE: &str = "\
usage: finder [--seconds N] [--clauses N] [--bytes N] [--progress] < LISTS
Searches for a proof that the two gate lists on standard input agree on every pattern.
  --seconds N   ends the search after so many seconds; without it, effort alone ends it
  --clauses N   clauses that the proof should have at most (4096); goes beyond only where it must
  --bytes N     bytes that lists and proof should have at most (65536); likewise
  --progress    shows on standard error how many nets are settled
Exit status: 0 both lists and the proof are printed; 1 a sentence is printed: 'differs', 'no proof
found', or the report frame of lists that are refused; 2 bad usage, or a stream that failed.
";

/// A report frame has 18 digits and its LF.
const REPORT_BYTES: usize = 19;

/// No proof: a pattern, nothing, or a refusal.
const NO_PROOF: u8 = 1;
/// Nothing that was printed can be relied on.
const FAILED: u8 = 2;

/// What the command line asks for.
#[derive(Default)]
struct Request {
    options: Options,
    shows_progress: bool,
}

fn main() -> ExitCode {
    let arguments: Vec<OsString> = env::args_os().skip(1).collect();
    run(&arguments).unwrap_or_else(|fault| {
        // Where standard error takes nothing either, the status alone says it.
        let _ = writeln!(io::stderr(), "finder: {fault}");
        FAILED.into()
    })
}

fn run(arguments: &[OsString]) -> Result<ExitCode, String> {
    if let [help] = arguments {
        if help == "--help" {
            return print(USAGE.as_bytes()).map(|()| ExitCode::SUCCESS);
        }
    }
    let request = requested(arguments).ok_or("bad usage; see finder --help")?;
    let most = Limits::USUAL.bytes;
    let text = read(most)?;
    let mut progress = Progress::default();
    let mut watch = |settled, nets| {
        if request.shows_progress {
            progress.show(settled, nets);
        }
    };
    let found = if text.len() > most {
        Err(Refusal { number: 1, line: 0 })
    } else {
        answer(&text, &request.options, &mut watch)
    };
    progress.wipe();
    let (printed, status) = in_print(text, found);
    print(&printed)?;
    Ok(status)
}

/// The options of the command line, if it has nothing else.
fn requested(arguments: &[OsString]) -> Option<Request> {
    let mut request = Request::default();
    let mut words = arguments.iter().map(|word| word.to_str());
    while let Some(word) = words.next() {
        let mut value = || words.next()?;
        match word? {
            "--progress" => request.shows_progress = true,
            "--clauses" => request.options.clauses = value()?.parse().ok()?,
            "--bytes" => request.options.bytes = value()?.parse().ok()?,
            "--seconds" => {
                let seconds: f64 = value()?.parse().ok()?;
                Duration::try_from_secs_f64(seconds).ok()?;
                request.options.seconds = Some(seconds);
            }
            _ => return None,
        }
    }
    Some(request)
}

/// What is printed for an answer, and the status.
fn in_print(mut text: Vec<u8>, found: Result<Answer, Refusal>) -> (Vec<u8>, ExitCode) {
    let sentence = match found {
        Ok(Answer::Proof { lines, .. }) => {
            text.extend(lines.as_bytes());
            return (text, ExitCode::SUCCESS);
        }
        Ok(Answer::Differs {
            pattern,
            words: [a, b],
        }) => format!("differs: pattern {pattern:016X} gives {a:016X} and {b:016X}\n").into(),
        Ok(Answer::Nothing { why }) => format!("no proof found: {why}\n").into(),
        Err(refusal) => report(refusal),
    };
    (sentence, NO_PROOF.into())
}

/// The report frame that `cec_prove` prints for lists that it refuses.
fn report(Refusal { number, line }: Refusal) -> Vec<u8> {
    let frame = Frame::Report {
        refusal: number,
        line,
        steps: 0,
        clauses: 0,
    };
    let mut printed = vec![0; REPORT_BYTES];
    write_frame(&frame, &mut printed).expect("a text that was read has few lines");
    printed
}

fn print(text: &[u8]) -> Result<(), String> {
    let written = plain(io::stdout()).and_then(|mut output| output.write_all(text));
    written.map_err(|error| format!("standard output was not written to its end: {error}"))
}

/// A standard stream as a plain file: `Stdin` and `Stdout` keep to themselves that a stream was not
/// opened to be read or written.
fn plain(stream: impl AsFd) -> io::Result<File> {
    stream.as_fd().try_clone_to_owned().map(File::from)
}

/// Standard input to its end, or one byte more than the limit, which tells that it is too long.
fn read(limit: usize) -> Result<Vec<u8>, String> {
    let mut text = Vec::new();
    let input = plain(io::stdin()).map(|input| input.take(limit as u64 + 1));
    let read = input.and_then(|mut input| input.read_to_end(&mut text));
    read.map_err(|error| format!("standard input was not read to its end: {error}"))?;
    Ok(text)
}

/// A line on standard error that moves.
#[derive(Default)]
struct Progress {
    last: Option<Instant>,
}

impl Progress {
    /// How often the line moves: more often is not seen, and would cost time.
    const PAUSE: Duration = Duration::from_millis(100);

    fn show(&mut self, settled: usize, nets: usize) {
        if self.last.is_none_or(|last| last.elapsed() >= Self::PAUSE) {
            self.last = Some(Instant::now());
            eprint!("\r\x1b[Kcec: searching: {settled} of {nets} nets settled");
        }
    }

    fn wipe(&self) {
        if self.last.is_some() {
            eprint!("\r\x1b[K");
        }
    }
}
