//! One pair measured: the engine, the finder as a process of its own, and ABC beside it. The
//! archive judges what the finder prints.

use std::env;
use std::fs::{self, File};
use std::path::PathBuf;
use std::process::{self, Command, Stdio};
use std::time::Instant;

use cec_reference::read_lists;

use crate::abc;
use crate::common::sizes::{Sizes, EIGHT, MOST_CLAUSES};

/// The limits of the checking program.
const BYTES: usize = 65_536;
const CLAUSES: u64 = 4_096;

/// What the finder may take, in seconds.
const SECONDS: &str = "20";

/// What was measured on a pair.
pub struct Measured {
    pub about: String,
    /// Whether the engine has a proof.
    pub engine: bool,
    /// Of the process, its start included.
    pub seconds: f64,
    /// The finder's proof, if the archive accepted it; else what was said.
    pub proof: Result<Proof, String>,
    /// ABC's time, start included; none without ABC, or where it gave up.
    pub abc: Option<f64>,
}

/// Accepted evidence.
pub struct Proof {
    pub lines: u64,
    pub clauses: u64,
    pub bytes: usize,
}

impl Proof {
    /// Whether the checking program has room for it.
    pub fn is_within(&self) -> bool {
        self.bytes <= BYTES && self.clauses <= CLAUSES
    }
}

/// The programs, and a folder of its own for their files, which goes with it.
pub struct Measuring {
    finder: PathBuf,
    folder: PathBuf,
    abc: bool,
}

impl Measuring {
    pub fn start() -> Result<Self, String> {
        let own = env::current_exe().map_err(|error| format!("this program's file: {error}"))?;
        let finder = own.with_file_name("finder");
        if !finder.is_file() {
            return Err("the program finder does not lie beside this one: build both".into());
        }
        let folder = env::temp_dir().join(format!("reach-{}", process::id()));
        fs::create_dir(&folder).map_err(|error| format!("{}: {error}", folder.display()))?;
        let abc = abc::is_there();
        Ok(Self {
            finder,
            folder,
            abc,
        })
    }

    pub fn has_abc(&self) -> bool {
        self.abc
    }

    pub fn measure(&self, about: &str, text: &[u8]) -> Result<Measured, String> {
        let fault = |refusal| format!("{about}: {refusal:?}");
        let (left, right) = read_lists(text).map_err(fault)?;
        let (seconds, printed) = self.find(text)?;
        let abc = match self.abc {
            true => abc::cec(&self.folder, [&left, &right])?,
            false => None,
        };
        Ok(Measured {
            about: about.into(),
            engine: engine_proves(text),
            seconds,
            proof: judged(text, &printed),
            abc,
        })
    }

    /// The finder's seconds, and what it printed.
    fn find(&self, text: &[u8]) -> Result<(f64, Vec<u8>), String> {
        let pair = self.folder.join("pair.txt");
        let fault = |error| format!("{}: {error}", pair.display());
        fs::write(&pair, text).map_err(fault)?;
        let input = File::open(&pair).map_err(fault)?;
        let start = Instant::now();
        let run = Command::new(&self.finder)
            .args(["--seconds", SECONDS])
            .stdin(input)
            .stderr(Stdio::inherit())
            .output();
        let seconds = start.elapsed().as_secs_f64();
        let run = run.map_err(|error| format!("{}: {error}", self.finder.display()))?;
        Ok((seconds, run.stdout))
    }
}

impl Drop for Measuring {
    fn drop(&mut self) {
        // A folder that stays behind harms nobody.
        let _ = fs::remove_dir_all(&self.folder);
    }
}

/// Accepted evidence for this pair, or what was printed or told instead.
fn judged(text: &[u8], printed: &[u8]) -> Result<Proof, String> {
    if !printed.starts_with(text) {
        return Err(String::from_utf8_lossy(printed).trim_end().into());
    }
    let reply = cec_archive::check(printed, &mut vec![0; EIGHT * MOST_CLAUSES]);
    match reply {
        [0, 0, lines, clauses] => Ok(Proof {
            lines,
            clauses,
            bytes: printed.len(),
        }),
        [number, line, ..] => Err(format!("the checker refuses: {number} at line {line}")),
    }
}

fn engine_proves(text: &[u8]) -> bool {
    let needed = Sizes::of(text).expect("the lists are read").needed();
    let (mut proof, mut work) = (vec![0; needed.proof], vec![0; needed.work]);
    let [refusal, ..] = cec_archive::prove(text, &mut proof, &mut work);
    refusal == 0
}
