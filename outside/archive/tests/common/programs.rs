//! Runs of the built programs, and standard input and output of several sorts for them. They lie
//! where this checkout's build leaves them, or in the folder that CEC_BIN_DIR names, which is then
//! printed. A relative folder counts from this crate's manifest.

use std::env;
use std::fs::{self, File, OpenOptions};
use std::io::{stderr, ErrorKind, Read, Write};
use std::os::fd::OwnedFd;
use std::os::unix::net::UnixStream;
use std::path::{Path, PathBuf};
use std::process::{Child, Command, Stdio};
use std::sync::{mpsc, OnceLock};
use std::thread;
use std::time::Duration;

const DEFAULT_DIR: &str = "../../target/bin";

/// How long a run may take. One that takes longer hangs.
const LIMIT: Duration = Duration::from_secs(20);

/// Between two pieces of standard input.
const PAUSE: Duration = Duration::from_micros(200);

/// What a run left: its exit status, standard output and standard error.
#[derive(Debug, PartialEq, Eq)]
pub struct Ended {
    pub status: Option<i32>,
    pub printed: Vec<u8>,
    pub errors: Vec<u8>,
}

/// A program and its arguments.
#[derive(Clone, Copy)]
pub struct Call<'words> {
    pub program: &'words str,
    pub arguments: &'words [&'words str],
}

/// Without arguments.
impl<'words> From<&'words str> for Call<'words> {
    fn from(program: &'words str) -> Self {
        let arguments = &[];
        Self { program, arguments }
    }
}

/// The programs' folder.
fn dir() -> &'static Path {
    static DIR: OnceLock<PathBuf> = OnceLock::new();
    DIR.get_or_init(|| {
        let named = env::var_os("CEC_BIN_DIR").filter(|dir| !dir.is_empty());
        let dir = Path::new(env!("CARGO_MANIFEST_DIR"));
        let dir = dir.join(named.as_deref().unwrap_or(DEFAULT_DIR.as_ref()));
        if named.is_some() {
            // Not by `eprintln`, which a test that passes keeps to itself.
            let said = format!(
                "the programs are taken from {}, as CEC_BIN_DIR says\n",
                dir.display()
            );
            stderr().write_all(said.as_bytes()).expect("it is said");
        }
        dir
    })
}

/// A program's file. A program that cargo builds is named by its whole path, and lies there.
fn file(program: &str) -> PathBuf {
    let file = dir().join(program);
    assert!(
        file.is_file(),
        "{} is missing: build it first by `tools/build {program}` in the repository's folder, or name \
         its folder in CEC_BIN_DIR",
        file.display()
    );
    file
}

fn start(call: Call, input: Stdio, output: Stdio) -> Child {
    let mut command = Command::new(file(call.program));
    spawn(command.args(call.arguments), input, output)
}

fn spawn(command: &mut Command, input: Stdio, output: Stdio) -> Child {
    let command = command.stdin(input).stdout(output).stderr(Stdio::piped());
    command.spawn().expect("the program starts")
}

/// Runs a program on this standard input, which it need not read to the end.
pub fn run<'words>(call: impl Into<Call<'words>>, text: &[u8]) -> Ended {
    run_in_pieces(call, text, text.len().max(1))
}

/// The same with the input written in pieces of this length, so that it is read in pieces too.
pub fn run_in_pieces<'words>(call: impl Into<Call<'words>>, text: &[u8], length: usize) -> Ended {
    let child = start(call.into(), Stdio::piped(), Stdio::piped());
    finish_on(child, text, length)
}

/// Runs a program on this standard input with this standard output.
pub fn run_to<'words>(call: impl Into<Call<'words>>, text: &[u8], output: Stdio) -> Ended {
    let child = start(call.into(), Stdio::piped(), output);
    finish_on(child, text, text.len().max(1))
}

/// Gives the program its standard input in pieces of this length.
fn finish_on(mut child: Child, text: &[u8], length: usize) -> Ended {
    let mut input = child.stdin.take().expect("standard input is a pipe");
    let text = text.to_vec();
    finish(child, move || {
        for piece in text.chunks(length) {
            match input.write_all(piece) {
                Err(error) if error.kind() == ErrorKind::BrokenPipe => return,
                written => written.expect("the pipe is written"),
            }
            if piece.len() < text.len() {
                thread::sleep(PAUSE);
            }
        }
    })
}

/// Runs a program whose standard input is this.
pub fn run_on<'words>(call: impl Into<Call<'words>>, input: Stdio) -> Ended {
    finish(start(call.into(), input, Stdio::piped()), || ())
}

/// Waits until the program has ended; meanwhile `feed` gives it its input. What it wrote elsewhere
/// than to a pipe is not in the answer.
fn finish(mut child: Child, feed: impl FnOnce() + Send + 'static) -> Ended {
    let printed = child.stdout.take();
    let errors = child.stderr.take();
    let (sender, receiver) = mpsc::channel();
    let talk = thread::spawn(move || {
        feed();
        let outputs = [printed.map_or(vec![], read), errors.map_or(vec![], read)];
        sender.send(outputs).expect("the test still waits");
    });
    let Ok([printed, errors]) = receiver.recv_timeout(LIMIT) else {
        child.kill().expect("the program is stopped");
        talk.join().expect("its pipes were served");
        panic!("the program did not end within {LIMIT:?}");
    };
    let status = child.wait().expect("the program ends");
    Ended {
        status: status.code(),
        printed,
        errors,
    }
}

fn read(mut output: impl Read) -> Vec<u8> {
    let mut bytes = Vec::new();
    output.read_to_end(&mut bytes).expect("the pipe is read");
    bytes
}

/// What the program printed. It ended normally and said nothing else.
#[track_caller]
pub fn printed(ended: Ended) -> String {
    let text = |bytes| String::from_utf8(bytes).expect("the output is text");
    assert_eq!((ended.status, text(ended.errors)), (Some(0), String::new()));
    text(ended.printed)
}

/// Nothing is printed on standard input that cannot be read to its end, but a message is.
#[track_caller]
pub fn is_unread<'words>(call: impl Into<Call<'words>>, input: Stdio) {
    let call = call.into();
    only_complains(call.program, run_on(call, input));
}

/// The program printed nothing but a message that begins with its name.
#[track_caller]
pub fn only_complains(program: &str, ended: Ended) {
    let printed = String::from_utf8_lossy(&ended.printed);
    assert_eq!(printed, "");
    let name = format!("{program}: ");
    assert!(ended.errors.starts_with(name.as_bytes()), "{ended:?}");
    assert!(ended.errors.ends_with(b"\n"), "{ended:?}");
    assert_eq!(ended.status, Some(0));
}

/// Standard output that takes nothing, as on a full disk: a message says so.
#[track_caller]
pub fn is_unwritten<'words>(call: impl Into<Call<'words>>, text: &[u8]) {
    let call = call.into();
    only_complains_of_output(call.program, run_to(call, text, full()));
}

/// The program said that not all of its output was written, and nothing else.
#[track_caller]
pub fn only_complains_of_output(program: &str, ended: Ended) {
    let message = format!("{program}: standard output was not written to its end\n");
    assert_eq!(String::from_utf8_lossy(&ended.errors), message);
    assert_eq!(ended.status, Some(0));
}

/// Runs a program whose standard output is this file, which may grow to so many blocks of 512 bytes.
pub fn run_cut_off(program: &str, text: &[u8], output: &Path, blocks: usize) -> Ended {
    // The signal at the limit (25, XFSZ) is ignored, so that the write fails as on a full disk.
    let limit = format!("trap '' 25; ulimit -f {blocks}; exec \"$0\"");
    let output = File::create(output).expect("the file is made").into();
    let mut command = Command::new("sh");
    let command = command.arg("-c").arg(limit).arg(file(program));
    finish_on(spawn(command, Stdio::piped(), output), text, text.len())
}

/// Runs a program on this file with these bytes.
pub fn run_on_file<'words>(call: impl Into<Call<'words>>, file: &Path, bytes: &[u8]) -> Ended {
    fs::write(file, bytes).expect("the file is written");
    let file = File::open(file).expect("the file is there");
    run_on(call, file.into())
}

/// Each sort of standard input that cannot be read to its end. One has these bytes before it breaks
/// off, and one has them in this file, which is only open to write.
pub fn unreadable(file: &Path, bytes: &[u8]) -> [Stdio; 3] {
    [folder(), only_written(file, bytes), broken_off(bytes)]
}

/// Standard input that is a folder.
pub fn folder() -> Stdio {
    let folder = File::open(env!("CARGO_MANIFEST_DIR"));
    folder.expect("the folder is there").into()
}

/// Standard input that is this file with these bytes, but only open to write.
pub fn only_written(file: &Path, bytes: &[u8]) -> Stdio {
    fs::write(file, bytes).expect("the file is written");
    let only_written = OpenOptions::new().append(true).open(file);
    only_written.expect("the file is there").into()
}

/// Standard input on which these bytes come, and then a reset and no end.
pub fn broken_off(bytes: &[u8]) -> Stdio {
    let (mut writer, mut reader) = UnixStream::pair().expect("there are sockets");
    writer.write_all(bytes).expect("it is written");
    // The writer's end is closed with a byte unread, which the reader is told as a reset.
    reader.write_all(b"0").expect("it is written");
    drop(writer);
    OwnedFd::from(reader).into()
}

/// Standard output that takes nothing, as on a full disk.
pub fn full() -> Stdio {
    let full = OpenOptions::new().write(true).open("/dev/full");
    full.expect("the system has it").into()
}

/// Standard output that is only open to be read.
pub fn only_read() -> Stdio {
    File::open("/dev/null").expect("the system has it").into()
}

/// Standard output that nobody reads any more.
pub fn unread_output() -> Stdio {
    let (writer, reader) = UnixStream::pair().expect("there are sockets");
    drop(reader);
    OwnedFd::from(writer).into()
}
