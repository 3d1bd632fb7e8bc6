//! ABC's `cec` on two lists, which are written as BLIF for it: inputs and outputs by name, a cover
//! for each gate.

use std::fmt::Write;
use std::fs;
use std::path::Path;
use std::process::{Command, Stdio};
use std::time::Instant;

use cec_reference::{Literal, Netlist, Operation};

pub const PROGRAM: &str = "berkeley-abc";

/// What ABC may take, in seconds; about as much as the finder.
const SECONDS: u32 = 20;

/// Whether it can be run here.
pub fn is_there() -> bool {
    let run = Command::new(PROGRAM)
        .args(["-q", "quit"])
        .stdin(Stdio::null())
        .output();
    run.is_ok()
}

/// The seconds that `cec` took, start included; none unless it says that the lists agree.
pub fn cec(folder: &Path, lists: [&Netlist; 2]) -> Result<Option<f64>, String> {
    let names = ["left.blif", "right.blif"];
    for (name, list) in names.iter().zip(lists) {
        let file = folder.join(name);
        fs::write(&file, blif(list)).map_err(|error| format!("{}: {error}", file.display()))?;
    }
    let start = Instant::now();
    let run = Command::new(PROGRAM)
        .arg("-q")
        .arg(format!("cec -T {SECONDS} {}", names.join(" ")))
        .current_dir(folder)
        .stdin(Stdio::null())
        .output();
    let seconds = start.elapsed().as_secs_f64();
    let said = run.map_err(|error| format!("{PROGRAM}: {error}"))?.stdout;
    let agree = String::from_utf8_lossy(&said).contains("Networks are equivalent");
    Ok(agree.then_some(seconds))
}

/// The list as BLIF: net k is nk, input k is net k, output k is ok.
fn blif(list: &Netlist) -> String {
    let all = |letter: char, count: usize| {
        (1..=count).fold(String::new(), |names, k| names + &format!(" {letter}{k}"))
    };
    let inputs = all('n', list.inputs());
    let outputs = all('o', list.outputs().len());
    let mut text = format!(".model list\n.inputs{inputs}\n.outputs{outputs}\n.names n0\n");
    for (net, gate) in (1 + list.inputs()..).zip(list.gates()) {
        let [x, y] = gate.operands;
        let cover = cover(gate.operation, [x, y]);
        let (x, y) = (x.net(), y.net());
        writeln!(text, ".names n{x} n{y} n{net}\n{cover}").expect("a string takes all");
    }
    for (k, output) in (1..).zip(list.outputs()) {
        let shown = u8::from(!output.is_complemented());
        let net = output.net();
        writeln!(text, ".names n{net} o{k}\n{shown} 1").expect("a string takes all");
    }
    text + ".end\n"
}

/// On which values of its nets a gate is true.
fn cover(operation: Operation, operands: [Literal; 2]) -> String {
    let [x, y] = operands.map(|literal| u8::from(!literal.is_complemented()));
    match operation {
        Operation::And => format!("{x}{y} 1"),
        Operation::Xor => format!("{x}{} 1\n{}{y} 1", 1 - y, 1 - x),
    }
}
