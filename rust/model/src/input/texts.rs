//! Random alphabets and texts of every kind: expressions, damaged ones, classes with faults, and the limits of depth, letters and
//! length.
use super::writer::{expression, set, CLASSES};
use super::Random;

/// Bytes that mean something in texts, and a few that do not.
const SIGNS: &[u8] = b"()[]{}|*+?.\\^$-,:=0129ab ";

/// 1 to `most` bytes in any order, often signs; in 70 of 100 lists some of them come again, unless there is one place only.
pub fn alphabet(r: &mut Random, most: usize) -> Vec<u8> {
    if most == 1 || r.chance(30) {
        let k = r.edge(1, most);
        return distinct(r, k);
    }
    let k = r.edge(2, most);
    let least = if r.chance(20) { 1 } else { 2.min(k - 1) };
    let number = r.edge(least, k - 1);
    let mut bytes = distinct(r, number);
    repeat(r, &mut bytes, k);
    bytes
}

/// This many distinct bytes.
fn distinct(r: &mut Random, number: usize) -> Vec<u8> {
    let mut bytes: Vec<u8> = match r.chance(40) && number <= SIGNS.len() {
        true => SIGNS.to_vec(),
        false => (32..=126).collect(),
    };
    for n in 0..number {
        let m = r.from(n, bytes.len() - 1);
        bytes.swap(n, m);
    }
    bytes.truncate(number);
    bytes
}

/// Repeats bytes of a list, side by side or apart, until it has this length.
fn repeat(r: &mut Random, bytes: &mut Vec<u8>, length: usize) {
    while bytes.len() < length {
        let n = r.below(bytes.len());
        let place = match r.chance(20) {
            true => n,
            false => r.below(bytes.len() + 1),
        };
        bytes.insert(place, bytes[n]);
    }
}

/// A list that is no alphabet: refusal 1.
pub fn bad_alphabet(r: &mut Random) -> Vec<u8> {
    let mut bytes = alphabet(r, 95);
    let n = r.below(bytes.len());
    match r.below(4) {
        0 => bytes.clear(),
        1 => {
            let length = r.edge(96, 200);
            repeat(r, &mut bytes, length);
        }
        2 => bytes[n] = *r.pick(&[0, 9, 10, 31, 127, 128, 255]),
        _ => bytes = (32..=r.from(127, 200) as u8).collect(),
    }
    bytes
}

/// A text of any kind: mostly an expression, at times damaged, brackets of classes, and the limits of depth, letters and length.
pub fn text(r: &mut Random, alphabet: &[u8], size: usize) -> Vec<u8> {
    match r.below(100) {
        0..=54 => expression(r, alphabet, size).0,
        55..=71 => {
            let mut text = expression(r, alphabet, size).0;
            for _ in 0..r.from(1, 3) {
                damage(r, &mut text);
            }
            text
        }
        72..=79 => signs(r, 12),
        80..=88 => classes(r, alphabet),
        89..=92 => deep(r, alphabet),
        93..=96 => many_letters(r, alphabet),
        _ => long(r, alphabet),
    }
}

/// Spoils one thing of a text; it may still be an expression.
pub fn damage(r: &mut Random, text: &mut Vec<u8>) {
    let (n, m) = (r.below(text.len() + 1), r.below(text.len() + 1));
    let sign = *r.pick(SIGNS);
    match r.below(8) {
        0 if n < text.len() => drop(text.remove(n)),
        1 | 2 => text.insert(n, sign),
        3 if n < text.len() => text[n] = sign,
        4 if n.max(m) < text.len() => text.swap(n, m),
        5 => text.truncate(n),
        6 => text.extend_from_within(n.min(m)..n.max(m)),
        _ if r.chance(30) => text.insert(n, r.bits() as u8),
        _ => {}
    }
}

/// At most this many signs in any order.
fn signs(r: &mut Random, most: usize) -> Vec<u8> {
    (0..r.from(0, most)).map(|_| *r.pick(SIGNS)).collect()
}

/// A bracket of classes, characters and `-` in any order, so that a class may be at either end of a range; at times unclosed, or
/// with signs before or after it.
fn classes(r: &mut Random, alphabet: &[u8]) -> Vec<u8> {
    let before = *r.pick(&[0, 0, 0, 0, 0, 2]);
    let mut text = signs(r, before);
    text.push(b'[');
    for _ in 0..r.from(1, 3) {
        match r.below(8) {
            0 => text.push(*r.pick(b"^]-[")),
            1 => text.push(b'-'),
            2..=3 => text.push(*r.pick(alphabet)),
            _ => text.extend(class(r).bytes()),
        }
    }
    if r.chance(90) {
        text.push(b']');
    }
    let after = *r.pick(&[0, 0, 2]);
    text.extend(signs(r, after));
    text
}

/// A class; at times its name is another one, or its end is missing.
fn class(r: &mut Random) -> String {
    let mut name = r.pick(&CLASSES).0.to_string();
    let n = r.below(name.len() + 1);
    match r.below(12) {
        0 => name.truncate(n),
        1 => drop(name.drain(..n)),
        2 => name.insert(n, char::from(*r.pick(SIGNS))),
        3 => name.insert_str(n, r.pick::<&str>(&["[:", ":]", "[.", "[=", "]"])),
        4 => name.make_ascii_uppercase(),
        5 => name.push('s'),
        _ => {}
    }
    let end = match r.below(12) {
        0 => *r.pick(&["", ":", "]", ".]", "=]"]),
        _ => ":]",
    };
    format!("[:{name}{end}")
}

/// Groups around 16 deep.
fn deep(r: &mut Random, alphabet: &[u8]) -> Vec<u8> {
    let (open, close) = (r.from(15, 18), r.from(15, 18));
    let inside = expression(r, alphabet, 1).0;
    let after = expression(r, alphabet, 2).0;
    [vec![b'('; open], inside, vec![b')'; close], after].concat()
}

/// Around 127 letters, by one count or by two.
pub fn many_letters(r: &mut Random, alphabet: &[u8]) -> Vec<u8> {
    let (set, labels) = set(r, alphabet);
    let most = 127 / labels;
    let count = (most + r.below(3)).max(1);
    let inner = r.from(1, 4);
    let outer = most.div_ceil(inner) + r.below(2);
    let repeated = match r.below(4) {
        0 => format!("{set}{{{count}}}"),
        1 => format!("{set}{{{count},}}"),
        2 => format!("{set}{{{},{count}}}", r.from(0, count)),
        _ => format!("({set}{{{inner}}}){{{outer}}}"),
    };
    repeated.into_bytes()
}

/// A bracket around 255 bytes long, at times by a class's name; at times a text without any byte.
fn long(r: &mut Random, alphabet: &[u8]) -> Vec<u8> {
    let length = match r.below(4) {
        0 => return Vec::new(),
        1 => 1000,
        _ => r.from(250, 258),
    };
    let (open, close) = *r.pick(&[("", "]"), ("", "]"), ("[:", ":]]")]);
    let mut text = vec![b'[', *r.pick(alphabet)];
    text.extend(open.bytes());
    text.resize(length - close.len(), b'a');
    text.extend(close.bytes());
    text
}
