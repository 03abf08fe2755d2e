//! Random expressions of every construct, written together with the tree that they should give.
use super::Random;
use crate::alphabet::labels_of;
use crate::expression::{either, joined, Tree};
use std::collections::BTreeSet;
use std::rc::Rc;

/// A class of characters: its name, and which bytes from 32 to 126 it has.
type Class = (&'static str, fn(&u8) -> bool);

/// The twelve classes by the functions of the standard library, and not by those that the model parses with.
pub const CLASSES: [Class; 12] = [
    ("alnum", u8::is_ascii_alphanumeric),
    ("alpha", u8::is_ascii_alphabetic),
    ("blank", |c| *c == b' '),
    ("cntrl", u8::is_ascii_control),
    ("digit", u8::is_ascii_digit),
    ("graph", u8::is_ascii_graphic),
    ("lower", u8::is_ascii_lowercase),
    ("print", |_| true),
    ("punct", u8::is_ascii_punctuation),
    ("space", u8::is_ascii_whitespace),
    ("upper", u8::is_ascii_uppercase),
    ("xdigit", u8::is_ascii_hexdigit),
];

/// An expression of every construct, and its tree.
pub fn expression(r: &mut Random, alphabet: &[u8], size: usize) -> (Vec<u8>, Rc<Tree>) {
    let mut writer = Writer::new(r, alphabet);
    let tree = writer.either(size);
    (writer.text, tree)
}

/// One character or set, and the number of its labels.
pub fn set(r: &mut Random, alphabet: &[u8]) -> (String, usize) {
    let mut writer = Writer::new(r, alphabet);
    let tree = match writer.r.chance(50) {
        true => writer.character(),
        false => writer.set(),
    };
    let text = String::from_utf8(writer.text).expect("bytes from 32 to 126");
    match &*tree {
        Tree::Set(characters) => (text, labels_of(alphabet, characters).len()),
        other => panic!("{other:?} is no set"),
    }
}

/// An ordinary character, escaped where it must be.
pub fn ordinary(c: u8) -> Vec<u8> {
    match b"^.[$()|*+?{\\".contains(&c) {
        true => vec![b'\\', c],
        false => vec![c],
    }
}

/// Writes a text, and says of each part which tree it should give.
struct Writer<'a> {
    r: &'a mut Random,
    alphabet: &'a [u8],
    text: Vec<u8>,
    open: usize,
}

impl<'a> Writer<'a> {
    fn new(r: &'a mut Random, alphabet: &'a [u8]) -> Writer<'a> {
        Writer {
            r,
            alphabet,
            text: Vec::new(),
            open: 0,
        }
    }

    fn either(&mut self, size: usize) -> Rc<Tree> {
        let mut branches = vec![self.branch(size)];
        while branches.len() < 4 && self.r.chance(25) {
            self.text.push(b'|');
            branches.push(self.branch(size));
        }
        either(branches)
    }

    fn branch(&mut self, size: usize) -> Rc<Tree> {
        let parts = self.r.from(1, size.max(1));
        joined((0..parts).map(|_| self.piece(size / 2)).collect())
    }

    fn piece(&mut self, size: usize) -> Rc<Tree> {
        let whole = match self.r.below(10) {
            0..=2 if size > 0 && self.open < 16 => self.group(size),
            3..=5 => self.set(),
            _ => self.character(),
        };
        match self.r.chance(35) {
            true => self.repetition(whole),
            false => whole,
        }
    }

    fn group(&mut self, size: usize) -> Rc<Tree> {
        self.open += 1;
        self.text.push(b'(');
        let content = self.either(size);
        self.text.push(b')');
        self.open -= 1;
        content
    }

    fn character(&mut self) -> Rc<Tree> {
        let c = *self.r.pick(self.alphabet);
        self.text.extend(ordinary(c));
        Rc::new(Tree::Set(vec![c]))
    }

    /// `.`, or a bracket with at least one character of the alphabet.
    fn set(&mut self) -> Rc<Tree> {
        let all: BTreeSet<u8> = self.alphabet.iter().copied().collect();
        if self.r.chance(20) {
            self.text.push(b'.');
            return Rc::new(Tree::Set(all.into_iter().collect()));
        }
        loop {
            let complement = self.r.chance(25);
            let (items, members) = self.items(complement);
            let has = |c: &&u8| members.contains(c) != complement;
            let characters: Vec<u8> = all.iter().filter(has).copied().collect();
            if !characters.is_empty() {
                self.text.push(b'[');
                self.text.extend(complement.then_some(b'^'));
                self.text.extend(items);
                self.text.push(b']');
                return Rc::new(Tree::Set(characters));
            }
        }
    }

    /// The items of a bracket and the bytes they mean. `]` is only first, `-` only first, last, or at a range's upper end, `^`
    /// not first unless the bracket is a complement; `.`, `=` and `:` are not after `[`.
    fn items(&mut self, complement: bool) -> (Vec<u8>, Vec<u8>) {
        let (mut inside, mut members) = (Vec::new(), Vec::new());
        for _ in 0..self.r.from(1, 3) {
            if self.r.chance(20) {
                let (name, has) = self.r.pick(&CLASSES);
                inside.extend(format!("[:{name}:]").bytes());
                members.extend((32..=126).filter(has));
                continue;
            }
            let first = inside.is_empty();
            let c = match self.r.below(8) {
                0 if first => *self.r.pick(b"]-"),
                1..=5 => *self.r.pick(self.alphabet),
                _ => self.r.from(32, 126) as u8,
            };
            let misplaced = match inside.last() {
                None => c == b'^' && !complement,
                Some(b'[') => b"]-.=:".contains(&c),
                Some(_) => b"]-".contains(&c),
            };
            if misplaced {
                continue;
            }
            let d = self.r.from(c.into(), (usize::from(c) + 20).min(126)) as u8;
            inside.push(c);
            if self.r.chance(35) && d != b']' {
                inside.extend([b'-', d]);
                members.extend(c..=d);
            } else {
                members.push(c);
            }
        }
        if inside.is_empty() || self.r.chance(15) {
            inside.push(b'-');
            members.push(b'-');
        }
        (inside, members)
    }

    /// A repetition of what was just written, at times with the modifier.
    fn repetition(&mut self, part: Rc<Tree>) -> Rc<Tree> {
        let (n, m) = (self.count(), self.count());
        let (least, most) = (n.min(m), n.max(m).max(1));
        let (sign, least, most) = match self.r.below(7) {
            0 => ("*".to_string(), 0, None),
            1 => ("+".to_string(), 1, None),
            2 => ("?".to_string(), 0, Some(1)),
            3 => (format!("{{{}}}", self.digits(most)), most, Some(most)),
            4 => (format!("{{{},}}", self.digits(least)), least, None),
            _ => {
                let counts = (self.digits(least), self.digits(most));
                (format!("{{{},{}}}", counts.0, counts.1), least, Some(most))
            }
        };
        self.text.extend(sign.bytes());
        if self.r.chance(25) {
            self.text.push(b'?');
        }
        Rc::new(Tree::Repeat(part, least, most))
    }

    fn count(&mut self) -> usize {
        match self.r.below(30) {
            0 => *self.r.pick(&[7, 20, 60, 127, 255]),
            _ => self.r.from(0, 3),
        }
    }

    /// A number in 1 to 3 digits, at times with leading zeros.
    fn digits(&mut self, number: usize) -> String {
        let least = if self.r.chance(80) {
            1
        } else {
            self.r.from(1, 3)
        };
        format!("{number:0least$}")
    }
}
