//! Texts of gate lists: whole ones, and ones damaged in their numbers, in their lines and in their
//! bytes.

use super::calls::{kinds, line};
use super::lists::{List, Shape};
use super::random::Random;
use super::texts;

/// What stands right behind the text in memory. A reader that looks past the end would take it.
const BEHIND: [&[u8]; 5] = [
    b"\n",
    b"0100000001\n040000\n",
    b"0200000000\n040000\n",
    b"040000\n040000\n",
    b"0\n",
];

/// The text with bytes behind it, which are not lent.
pub fn with_bytes_behind(case: u64, text: &[u8]) -> Vec<u8> {
    let behind = BEHIND[case as usize % BEHIND.len()];
    [text, behind].concat()
}

/// Two lists of two inputs a and b and one output, each given by its gates and its output.
pub fn over_two_inputs(left: &[&str], right: &[&str]) -> String {
    let list = |lines: &[&str]| format!("0102{:04X}01\n{}\n", lines.len() - 1, lines.join("\n"));
    list(left) + &list(right)
}

/// Two lists with the longest proofs: gates of this kind that are all alike, but over operands that
/// are linked.
pub fn linked(kind: &str) -> String {
    // Nets 3 and 4 are a and b again, and each gate but those reads them.
    let linked = "0300020000\n0300040000\n";
    let gates = format!("{kind}00060008\n").repeat(1_022);
    let outputs: String = (961..1_025)
        .map(|net| format!("04{:04X}\n", 2 * net))
        .collect();
    format!("0102040040\n{linked}{gates}{outputs}").repeat(2)
}

/// A text of so many lists, each with the inputs and outputs of the first; in one case of sixteen
/// another number of lists. Two thirds of the texts are damaged, in up to three ways.
pub fn any(random: &mut Random, lists: usize) -> (String, Vec<u8>) {
    let count = if random.one_in(16) {
        random.below(4)
    } else {
        lists
    };
    let shape = Shape::random(random);
    let mut lists = Vec::new();
    for _ in 0..count {
        let shape = if lists.is_empty() {
            shape
        } else {
            shape.beside(random)
        };
        lists.push(List::random(random, shape));
    }
    damaged(random, lists)
}

/// The lists' text. In one case of three a number is moved, in one of three the lines are damaged,
/// often that line, and in one of three the bytes.
fn damaged(random: &mut Random, mut lists: Vec<List>) -> (String, Vec<u8>) {
    let mut names = vec![format!("{} lists", lists.len())];
    let mut moved = None;
    if random.one_in(3) && !lists.is_empty() {
        let which = random.below(lists.len());
        let before: usize = lists[..which].iter().map(|list| list.lines().len()).sum();
        let other = lists[lists.len() - 1 - which].clone();
        let (name, place) = lists[which].move_number(random, &other);
        names.push(name.into());
        moved = Some(before + place);
    }
    let mut lines: Vec<Vec<u8>> = lists.iter().flat_map(List::lines).collect();
    if random.one_in(3) {
        names.push(damage_lines(random, &mut lines, moved));
    }
    let mut text = lines.concat();
    if random.one_in(3) {
        names.push(texts::damage(random, &mut text).into());
    }
    (names.join(", "), text)
}

/// Damages the lines in one way and says how.
fn damage_lines(random: &mut Random, lines: &mut Vec<Vec<u8>>, moved: Option<usize>) -> String {
    if lines.is_empty() {
        return behind_the_end(random, lines);
    }
    let last = lines.len() - 1;
    let any = random.below(lines.len());
    let at = random.pick(&[0, last, any, any]);
    let at = match moved {
        Some(moved) if random.one_in(2) => moved,
        _ => at,
    };
    let way = match random.below(12) {
        0 => {
            lines.remove(at);
            "dropped"
        }
        1 => {
            lines.insert(at, lines[at].clone());
            "doubled"
        }
        2 => {
            lines.swap(at, any);
            "in another's place"
        }
        3 => {
            lines[at] = lines[any].clone();
            "made equal to another"
        }
        4 => {
            let kind = random.pick(&kinds());
            lines[at] = line(random, kind);
            "made a line of any kind"
        }
        5 => {
            lines.truncate(at);
            "the first of those left out"
        }
        6 => {
            for line in lines.iter_mut() {
                line.insert(line.len() - 1, b'\r');
            }
            "and all others ended by CR LF"
        }
        7 => return behind_the_end(random, lines),
        _ => texts::damage(random, &mut lines[at]),
    };
    format!("line {}: {way}", at + 1)
}

/// A line behind the last, whole or damaged.
fn behind_the_end(random: &mut Random, lines: &mut Vec<Vec<u8>>) -> String {
    let kind = random.pick(&kinds());
    let mut behind = line(random, kind);
    if random.one_in(2) {
        texts::damage(random, &mut behind);
    }
    if random.one_in(4) {
        behind = b"\n".to_vec();
    }
    lines.push(behind);
    "a line behind the end".into()
}
