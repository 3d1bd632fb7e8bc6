//! Changes of a text: in its bytes, in its lines, in the fields of a line, and by another text.

use std::ops::Range;

use super::fields;
use crate::common::calls::{kinds, line};
use crate::common::random::Random;
use crate::common::texts;

/// A way to change a text; another is at hand.
type Mutation = fn(&mut Random, &mut Vec<u8>, &[u8]);

/// Those that stand here more than once come more often.
const MUTATIONS: [Mutation; 20] = [
    |random, text, _| fields::change(random, text),
    |random, text, _| fields::change(random, text),
    |random, text, _| fields::change(random, text),
    |random, text, _| fields::change(random, text),
    |random, text, _| fields::change(random, text),
    |random, text, _| fields::change(random, text),
    |random, text, _| fields::change(random, text),
    |random, text, _| fields::change(random, text),
    |random, text, _| change_digit(random, text),
    |random, text, _| change_digit(random, text),
    |random, text, _| change_kind(random, text),
    |random, text, _| delete_line(random, text),
    |random, text, _| double_line(random, text),
    |random, text, _| exchange_lines(random, text),
    |random, text, _| insert_line(random, text),
    |random, text, _| cut(random, text),
    |random, text, _| damage_line(random, text),
    |random, text, _| damage_line(random, text),
    |random, text, _| insert_byte(random, text),
    splice,
];

/// Changes a text in up to five ways, one after the other; a quarter of the texts stay as they are.
pub fn mutate(random: &mut Random, text: &mut Vec<u8>, other: &[u8]) {
    for _ in 0..random.pick(&[0, 0, 1, 1, 1, 1, 2, 5]) {
        let mutation = random.pick(&MUTATIONS);
        mutation(random, text, other);
    }
}

/// The place of a random line with its LF, often the last; of nothing in an empty text.
pub fn any_line(random: &mut Random, text: &[u8]) -> Range<usize> {
    let any = random.below(text.len().max(1));
    let last = text.len().saturating_sub(1);
    let at = random.pick(&[any, any, any, last]);
    let is_end = |&byte: &u8| byte == b'\n';
    let start = text.iter().take(at).rposition(is_end);
    let length = text.iter().skip(at).position(is_end);
    let end = length.map_or(text.len(), |length| at + length + 1);
    start.map_or(0, |before| before + 1)..end
}

fn change_digit(random: &mut Random, text: &mut [u8]) {
    let at = random.below(text.len().max(1));
    if let Some(byte) = text.get_mut(at).filter(|byte| **byte != b'\n') {
        *byte = random.pick(b"0123456789ABCDEF");
    }
}

/// Another kind of the table over the same fields.
fn change_kind(random: &mut Random, text: &mut [u8]) {
    let line = any_line(random, text);
    let kind = format!("{:02X}", random.pick(&kinds()));
    if let Some(digits) = text[line].first_chunk_mut::<2>() {
        digits.copy_from_slice(kind.as_bytes());
    }
}

fn delete_line(random: &mut Random, text: &mut Vec<u8>) {
    let line = any_line(random, text);
    text.drain(line);
}

/// A line again, behind itself or elsewhere.
fn double_line(random: &mut Random, text: &mut Vec<u8>) {
    let line = any_line(random, text);
    let again = text[line.clone()].to_vec();
    let elsewhere = any_line(random, text).start;
    let place = random.pick(&[line.end, elsewhere]);
    text.splice(place..place, again);
}

fn exchange_lines(random: &mut Random, text: &mut Vec<u8>) {
    let [one, other] = [(); 2].map(|()| any_line(random, text));
    let (first, second) = if one.start <= other.start {
        (one, other)
    } else {
        (other, one)
    };
    if first.end <= second.start {
        let between = &text[first.end..second.start];
        let exchanged = [&text[second.clone()], between, &text[first.clone()]].concat();
        text.splice(first.start..second.end, exchanged);
    }
}

/// A line of any kind of the table before another.
fn insert_line(random: &mut Random, text: &mut Vec<u8>) {
    let kind = random.pick(&kinds());
    let inserted = line(random, kind);
    let place = any_line(random, text).start;
    text.splice(place..place, inserted);
}

/// Cut short at a line or within it.
fn cut(random: &mut Random, text: &mut Vec<u8>) {
    let within = random.below(text.len() + 1);
    let line = any_line(random, text);
    text.truncate(random.pick(&[within, line.start, line.end]));
}

/// One of the tests' damages, to a line.
fn damage_line(random: &mut Random, text: &mut Vec<u8>) {
    let place = any_line(random, text);
    let mut line = text[place.clone()].to_vec();
    texts::damage(random, &mut line);
    text.splice(place, line);
}

fn insert_byte(random: &mut Random, text: &mut Vec<u8>) {
    let place = random.below(text.len() + 1);
    let any = random.byte();
    let byte = random.pick(&[b'\r', b'\n', b'\n', b'a', b'f', b'G', 0, 0xFF, b'0', any]);
    text.insert(place, byte);
}

/// The head of one text and the tail of another, mostly whole lines.
fn splice(random: &mut Random, text: &mut Vec<u8>, other: &[u8]) {
    let line = any_line(random, text);
    let within = random.below(text.len() + 1);
    let head = random.pick(&[line.start, line.end, line.end, within]);
    let tail = any_line(random, other).start;
    text.truncate(head);
    text.extend(&other[tail..]);
}
