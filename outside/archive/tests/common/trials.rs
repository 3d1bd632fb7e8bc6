//! Programs that print one line, on trial: every byte of a run is held against the line that is
//! due, and so is the exit status. Each failure prints the seed, the case and its bytes.

use std::path::PathBuf;

use super::hex;
use super::programs::{self, Call, Ended};
use super::random::seed;
use super::tally::{outcomes, Tally};
use super::texts;

/// A program, and what is due from it.
pub struct Trial {
    pub call: Call<'static>,
    /// The line for a stream: a report frame after a refusal.
    pub due: fn(&[u8]) -> String,
    /// The exit status with a refusal number, or with 0.
    pub status: fn(u64) -> i32,
    /// The most bytes of a stream. A longer one is 1.
    pub bytes: usize,
    /// How the paths of the test's own files begin.
    pub files: &'static str,
}

/// The proved programs' exit status says nothing.
pub fn nothing(_number: u64) -> i32 {
    0
}

/// The exit status of a program that says the verdict by it.
pub fn verdict(number: u64) -> i32 {
    i32::from(number != 0)
}

/// The refusal number of a printed line, 0 if it reports none.
pub fn refusal(line: &str) -> u64 {
    let number = line.strip_prefix("21").map(|report| &report[..2]);
    number.map_or(0, |digits| {
        u64::from_str_radix(digits, 16).expect("a report has digits")
    })
}

impl Trial {
    /// Runs the program and compares. Gives the refusal number.
    pub fn compare(&self, case: u64, about: &str, stream: &[u8]) -> u64 {
        self.compare_run(case, about, stream, programs::run(self.call, stream))
    }

    fn compare_run(&self, case: u64, about: &str, stream: &[u8], ended: Ended) -> u64 {
        let line = (self.due)(stream);
        let number = refusal(&line);
        let [printed, errors] =
            [ended.printed, ended.errors].map(|bytes| String::from_utf8_lossy(&bytes).into_owned());
        let (seed, bytes, stream) = (seed(), stream.len(), hex(stream));
        assert_eq!(
            (ended.status, printed, errors),
            (Some((self.status)(number)), line, String::new()),
            "seed {seed:#X}, case {case} ({about}), {bytes} bytes {stream}"
        );
        number
    }

    /// Compares on a stream by hand, for which this line is due.
    #[track_caller]
    pub fn prints(&self, stream: &str, line: &str) {
        self.compare(0, "by hand", stream.as_bytes());
        let due = (self.due)(stream.as_bytes());
        assert_eq!(due, format!("{line}\n"), "{} bytes", stream.len());
    }

    /// Streams with so many bytes more than the limit, or less. A stream is read to its last byte,
    /// and one that is too long is 1 whatever it says. The lists and the line are whole.
    pub fn long_streams(&self, excesses: &[isize], lists: &str, line: &str) -> Tally {
        let mut tally = Tally::default();
        for (case, &excess) in (0..).zip(excesses) {
            let length = self.bytes.checked_add_signed(excess).expect("it is long");
            for (about, stream) in texts::of_length(length, lists, line) {
                assert_eq!(stream.len(), length);
                let number = self.compare(case, about, &stream);
                assert_eq!(number == 1, excess > 0, "{about}, {length} bytes");
                tally.count(number.to_string());
            }
        }
        tally
    }

    /// Each stream in pieces of its length, and as a file. These refusal numbers are met.
    pub fn pieces_and_files(&self, streams: &[(Vec<u8>, usize)], numbers: &[u64]) {
        let mut tally = Tally::default();
        for (case, (stream, length)) in (0..).zip(streams) {
            let pieces = programs::run_in_pieces(self.call, stream, *length);
            let number = self.compare_run(case, "in pieces", stream, pieces);
            let from_file = programs::run_on_file(self.call, &self.file(case), stream);
            self.compare_run(case, "a file", stream, from_file);
            tally.count(number.to_string());
        }
        tally.finish("pieces and files", streams.len() as u64, &outcomes(numbers));
    }

    /// One of the test's own files.
    pub fn file(&self, case: u64) -> PathBuf {
        format!("{}-{case}", self.files).into()
    }

    /// There is a message and no line if standard input cannot be read to its end, for a proved
    /// program.
    pub fn is_unread(&self, stream: &[u8]) {
        for input in programs::unreadable(&self.file(99), stream) {
            programs::is_unread(self.call, input);
        }
    }
}
