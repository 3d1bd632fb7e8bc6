//! Reads a file of frames line by line with the archive, prints each frame in words, writes it back
//! with the archive and compares. It tests frames only: whether the lines make a list is not asked.

use std::env;
use std::ffi::OsString;
use std::fmt;
use std::fs;
use std::io::{self, BufWriter, Read, Write};
use std::process::ExitCode;

const USAGE: &str = "usage: frames [FILE]
Reads FILE, or standard input, prints each line's frame, writes it back and compares.";

/// Why the program ended with status 1.
enum Fault {
    Input(io::Error),
    Output(io::Error),
    Arguments,
    Refused { number: u64, line: usize },
    Changed { line: usize, written: Vec<u8> },
}

impl fmt::Display for Fault {
    fn fmt(&self, out: &mut fmt::Formatter<'_>) -> fmt::Result {
        match self {
            Self::Input(error) => write!(out, "the input cannot be read: {error}"),
            Self::Output(error) => write!(out, "the output cannot be written: {error}"),
            Self::Arguments => write!(out, "{USAGE}"),
            Self::Refused { number, line } => {
                write!(out, "refusal {number} at line {line}: {}", meaning(*number))
            }
            Self::Changed { line, written } => {
                let written = written.escape_ascii();
                write!(out, "line {line} was written back as \"{written}\"")
            }
        }
    }
}

/// The paper's words for the refusals that a lone line can meet.
fn meaning(number: u64) -> &'static str {
    match number {
        2 => "a byte other than 0-9, A-F and LF, or the text ends within the line",
        3 => "kind outside the table, or length wrong for it",
        16 => "buffer shorter than the line",
        _ => "not a refusal of this call",
    }
}

/// A kind's name, and what stands before each of its fields.
fn words(kind: u64) -> (&'static str, &'static [&'static str]) {
    match kind {
        0x01 => ("header", &["inputs ", "gates ", "outputs "]),
        0x02 => ("AND gate", &["", ""]),
        0x03 => ("XOR gate", &["", ""]),
        0x04 => ("output", &[""]),
        0x11 => ("resolve", &["clause ", "clause ", "variable "]),
        0x12 => ("extend by AND", &["", ""]),
        0x13 => ("extend by XOR", &["", ""]),
        0x21 => ("report", &["refusal ", "line ", "steps ", "clauses "]),
        _ => ("kind outside the table", &[]),
    }
}

/// A frame in words, for example `AND gate 2, 4`.
fn in_words(kind: u64, fields: [u64; 4]) -> String {
    let (name, labels) = words(kind);
    let fields = labels.iter().zip(fields);
    let fields: Vec<String> = fields
        .map(|(label, value)| format!("{label}{value}"))
        .collect();
    format!("{name} {}", fields.join(", "))
}

/// Reads one line, writes it back into as many bytes, and gives its frame in words.
fn read_and_write_back(line: usize, bytes: &[u8]) -> Result<String, Fault> {
    let [number, _, kind, fields @ ..] = cec_archive::read_frame(bytes);
    if number != 0 {
        return Err(Fault::Refused { number, line });
    }
    let mut written = vec![0; bytes.len()];
    let [number, _, length] = cec_archive::write_frame(kind as u8, fields, &mut written);
    if number != 0 {
        return Err(Fault::Refused { number, line });
    }
    if written != bytes || length != bytes.len() as u64 {
        return Err(Fault::Changed { line, written });
    }
    Ok(in_words(kind, fields))
}

fn show(text: &[u8], out: &mut impl Write) -> Result<(), Fault> {
    let mut lines = 0;
    for bytes in text.split_inclusive(|&byte| byte == b'\n') {
        lines += 1;
        let frame = read_and_write_back(lines, bytes)?;
        writeln!(out, "{lines}: {frame}").map_err(Fault::Output)?;
    }
    writeln!(out, "{lines} lines read and written back unchanged").map_err(Fault::Output)
}

fn input(arguments: &[OsString]) -> Result<Vec<u8>, Fault> {
    match arguments {
        [] => {
            let mut text = Vec::new();
            let read = io::stdin().lock().read_to_end(&mut text);
            read.map(|_| text).map_err(Fault::Input)
        }
        [file] if file != "--help" => fs::read(file).map_err(Fault::Input),
        _ => Err(Fault::Arguments),
    }
}

fn run() -> Result<(), Fault> {
    let arguments: Vec<OsString> = env::args_os().skip(1).collect();
    let text = input(&arguments)?;
    let mut out = BufWriter::new(io::stdout().lock());
    let shown = show(&text, &mut out);
    // The frames before a fault are printed too.
    out.flush().map_err(Fault::Output)?;
    shown
}

fn main() -> ExitCode {
    match run() {
        Ok(()) => ExitCode::SUCCESS,
        Err(fault) => {
            eprintln!("{fault}");
            ExitCode::FAILURE
        }
    }
}
