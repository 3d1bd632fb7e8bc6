//! Texts for the reader of a lone line: whole lines, and whole lines damaged in many ways.

use super::calls::{kinds, line};
use super::random::Random;

const DIGITS: &[u8] = b"0123456789ABCDEF";

/// A way to damage a text, under the name that failure messages print.
type Damage = (&'static str, fn(&mut Random, &mut Vec<u8>));

const DAMAGES: [Damage; 17] = [
    ("whole", |_, _| {}),
    ("one bit flipped", |random, text| flip_bit(random, text)),
    ("another byte", |random, text| other_byte(random, text)),
    ("a byte next to the digits", |random, text| {
        byte_beside_digits(random, text)
    }),
    ("cut short", cut_short),
    ("bytes appended", append_bytes),
    ("digits appended", append_digits),
    ("small letters", |_, text| text.make_ascii_lowercase()),
    ("CR before LF", carriage_return),
    ("a digit left out", leave_out),
    ("a digit put in", |random, text| {
        insert(random, text, DIGITS)
    }),
    ("an LF put in", |random, text| insert(random, text, b"\n")),
    ("another kind", |random, text| other_kind(random, text)),
    ("a second line", second_line),
    ("an empty line behind", |_, text| text.push(b'\n')),
    ("random bytes", random_bytes),
    ("no bytes", |_, text| text.clear()),
];

/// A whole line of a random kind, damaged in up to three ways one after the other.
pub fn damaged(random: &mut Random) -> (String, Vec<u8>) {
    let kind = random.pick(&kinds());
    let mut text = line(random, kind);
    let mut names = Vec::new();
    for _ in 0..random.pick(&[1, 1, 2, 3]) {
        names.push(damage(random, &mut text));
    }
    (names.join(", "), text)
}

/// Damages a line or a text in one of the ways, and gives the way's name.
pub fn damage(random: &mut Random, text: &mut Vec<u8>) -> &'static str {
    let (name, damage) = random.pick(&DAMAGES);
    damage(random, text);
    name
}

/// The most bytes of a long text.
pub const LONGEST: usize = 100_000;

/// A text of up to 100,000 bytes: many digits with or without an LF, alone or behind a whole line,
/// sometimes with one other byte among them.
pub fn long(random: &mut Random) -> Vec<u8> {
    let kind = random.pick(&kinds());
    let mut text = line(random, kind);
    if random.one_in(2) {
        text.pop();
    }
    let length = 1_000 + random.below(LONGEST - 1_000);
    while text.len() < length - 1 {
        text.push(random.pick(DIGITS));
    }
    if random.one_in(3) {
        let place = text.len() - 1 - random.below(20);
        text[place] = random.pick(b"Ga \r\0\xFF");
    }
    if random.one_in(2) {
        text.push(b'\n');
    }
    text
}

/// One digit after the other up to the length, and then this.
pub fn digits(length: usize, end: &str) -> Vec<u8> {
    let digits = DIGITS.iter().cycle();
    let digits = digits.take(length - end.len()).copied();
    digits.chain(end.bytes()).collect()
}

/// A stream of this length of each sort that a limit could cut wrongly. Two begin with these lines
/// of lists; behind them stands this line again and again, or one of digits.
pub fn of_length(length: usize, lists: &str, line: &str) -> [(&'static str, Vec<u8>); 8] {
    let behind = length - lists.len();
    let mut lines = format!("{lists}{}", line.repeat(1 + behind / line.len()));
    lines.truncate(length);
    let digits_behind = [lists.as_bytes(), &digits(behind, "\n")].concat();
    [
        ("a line of digits", digits(length, "\n")),
        ("no LF", digits(length, "0")),
        ("a bad byte at the end", digits(length, "G\n")),
        ("an empty line at the end", digits(length, "\n\n")),
        ("no digits", vec![0xFF; length]),
        ("empty lines", vec![b'\n'; length]),
        ("a line again and again", lines.into_bytes()),
        ("lists and a line of digits", digits_behind),
    ]
}

/// A line of this kind with so many digits too many, each digit and the LF in its place.
pub fn overlong(random: &mut Random, kind: u8, excess: usize) -> Vec<u8> {
    let mut text = line(random, kind);
    text.pop();
    text.extend((0..excess).map(|_| random.pick(DIGITS)));
    text.push(b'\n');
    text
}

/// One of the text's bytes, if it has any.
fn any_byte<'text>(random: &mut Random, text: &'text mut [u8]) -> Option<&'text mut u8> {
    let place = random.below(text.len().max(1));
    text.get_mut(place)
}

fn flip_bit(random: &mut Random, text: &mut [u8]) {
    if let Some(byte) = any_byte(random, text) {
        *byte ^= 1 << random.below(8);
    }
}

fn other_byte(random: &mut Random, text: &mut [u8]) {
    if let Some(byte) = any_byte(random, text) {
        *byte = random.byte();
    }
}

/// The bytes just outside the two runs of digits, where a wrong bound would show.
fn byte_beside_digits(random: &mut Random, text: &mut [u8]) {
    if let Some(byte) = any_byte(random, text) {
        *byte = random.pick(b"/:@G`agf \t\r\0");
    }
}

fn cut_short(random: &mut Random, text: &mut Vec<u8>) {
    text.truncate(random.below(text.len() + 1));
}

fn append_bytes(random: &mut Random, text: &mut Vec<u8>) {
    for _ in 0..1 + random.below(24) {
        text.push(random.byte());
    }
}

/// Digits behind the text, with an LF half of the time.
fn append_digits(random: &mut Random, text: &mut Vec<u8>) {
    for _ in 0..1 + random.below(24) {
        text.push(random.pick(DIGITS));
    }
    if random.one_in(2) {
        text.push(b'\n');
    }
}

fn carriage_return(_: &mut Random, text: &mut Vec<u8>) {
    if let Some(place) = text.iter().position(|&byte| byte == b'\n') {
        text.insert(place, b'\r');
    }
}

fn leave_out(random: &mut Random, text: &mut Vec<u8>) {
    if !text.is_empty() {
        text.remove(random.below(text.len()));
    }
}

fn insert(random: &mut Random, text: &mut Vec<u8>, bytes: &[u8]) {
    let place = random.below(text.len() + 1);
    text.insert(place, random.pick(bytes));
}

/// Another kind over the same fields: any byte, or a kind of the table whose length may differ.
fn other_kind(random: &mut Random, text: &mut [u8]) {
    let kind = if random.one_in(2) {
        random.byte()
    } else {
        random.pick(&kinds())
    };
    if text.len() >= 2 {
        text[..2].copy_from_slice(format!("{kind:02X}").as_bytes());
    }
}

fn second_line(random: &mut Random, text: &mut Vec<u8>) {
    let kind = random.pick(&kinds());
    text.extend(line(random, kind));
}

fn random_bytes(random: &mut Random, text: &mut Vec<u8>) {
    text.clear();
    append_bytes(random, text);
}
