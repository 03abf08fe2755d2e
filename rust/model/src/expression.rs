//! From the text of an expression to its tree or its refusal: first the signs one by one, then every fault with its place, where
//! the leftmost counts, then the tree by a stack of open groups.
use super::alphabet::{is_alphabet, is_character, labelled};
use super::bracket::{braces, bracket};
use std::rc::Rc;

/// A set of characters of the alphabet, ascending; parts joined; branches; or a part repeated, with the least and the most number
/// of times.
#[derive(Debug, PartialEq, Eq, PartialOrd, Ord)]
pub enum Tree {
    Set(Vec<u8>),
    Join(Vec<Rc<Tree>>),
    Either(Vec<Rc<Tree>>),
    Repeat(Rc<Tree>, usize, Option<usize>),
}

/// Parts joined; one part alone is itself.
pub fn joined(mut parts: Vec<Rc<Tree>>) -> Rc<Tree> {
    match parts.len() {
        1 => parts.remove(0),
        _ => Rc::new(Tree::Join(parts)),
    }
}

/// An alternation of branches; one branch alone is itself.
pub fn either(mut branches: Vec<Rc<Tree>>) -> Rc<Tree> {
    match branches.len() {
        1 => branches.remove(0),
        _ => Rc::new(Tree::Either(branches)),
    }
}

enum Sign {
    Open,
    Close,
    Bar,
    Set(Vec<u8>),
    Times(usize, Option<usize>),
}

/// A sign's place, and the sign with its length or a fault of its own.
type Token = (usize, Result<(Sign, usize), u32>);

/// The tree of a text, or the first of refusals 1 to 8 and 19 that applies. The leftmost fault is taken, at one place that of the
/// lowest number; 19 is the only fault at its place, since a bracket has one fault at most.
pub fn parse(alphabet: &[u8], text: &[u8]) -> Result<Rc<Tree>, u32> {
    if !is_alphabet(alphabet) {
        return Err(1);
    }
    if !(1..=255).contains(&text.len()) {
        return Err(2);
    }
    if !text.iter().all(|&b| is_character(b)) {
        return Err(3);
    }
    let tokens = tokens(alphabet, text);
    match faults(text, &tokens).into_iter().min() {
        Some((_, refusal)) => Err(refusal),
        None => Ok(tree(text, tokens)),
    }
}

/// The signs up to the text's end, or up to the first with a fault of its own.
fn tokens(alphabet: &[u8], text: &[u8]) -> Vec<Token> {
    let mut list = Vec::new();
    let mut at = 0;
    while at < text.len() {
        let sign = sign(alphabet, &text[at..]);
        let length = sign.as_ref().map_or(text.len(), |s| s.1);
        list.push((at, sign));
        at += length;
    }
    list
}

/// The sign that the text begins with, and its length.
fn sign(alphabet: &[u8], text: &[u8]) -> Result<(Sign, usize), u32> {
    let ordinary = |c: u8, length| {
        let alone = labelled(alphabet, |other| other == c)?;
        Ok((Sign::Set(alone), length))
    };
    match text[0] {
        b'(' => Ok((Sign::Open, 1)),
        b')' => Ok((Sign::Close, 1)),
        b'|' => Ok((Sign::Bar, 1)),
        b'*' => Ok((Sign::Times(0, None), 1)),
        b'+' => Ok((Sign::Times(1, None), 1)),
        b'?' => Ok((Sign::Times(0, Some(1)), 1)),
        b'{' => braces(text).map(|(least, most, length)| (Sign::Times(least, most), length)),
        b'[' => bracket(alphabet, text).map(|(characters, length)| (Sign::Set(characters), length)),
        b'.' => labelled(alphabet, |_| true).map(|all| (Sign::Set(all), 1)),
        b'^' | b'$' => Err(4),
        b'\\' => match text.get(1) {
            Some(&c) if b"^.[$()|*+?{\\".contains(&c) => ordinary(c, 2),
            _ => Err(4),
        },
        c => ordinary(c, 1),
    }
}

/// What is before a sign.
#[derive(Clone, Copy, PartialEq)]
enum Before {
    Nothing,
    Whole,
    Repetition,
    Modifier,
}

/// All faults, each with its place: those of single signs and those of their order.
fn faults(text: &[u8], tokens: &[Token]) -> Vec<(usize, u32)> {
    let mut found = Vec::new();
    let mut before = Before::Nothing;
    let mut open = 0;
    for (at, sign) in tokens {
        if let Err(refusal) = sign {
            found.push((*at, *refusal));
        }
        let byte = text[*at];
        let empty = before == Before::Nothing;
        before = match byte {
            b'*' | b'+' | b'?' | b'{' => match before {
                Before::Whole => Before::Repetition,
                Before::Repetition if byte == b'?' => Before::Modifier,
                _ => {
                    found.push((*at, 4));
                    Before::Modifier
                }
            },
            b'(' | b'|' => Before::Nothing,
            _ => Before::Whole,
        };
        match byte {
            b'(' if open == 16 => found.push((*at, 5)),
            b'(' => open += 1,
            b'|' | b')' if empty => found.push((*at, 4)),
            b')' if open == 0 => found.push((*at, 4)),
            b')' => open -= 1,
            _ => {}
        }
    }
    if before == Before::Nothing || open > 0 {
        found.push((text.len(), 4));
    }
    found
}

/// An open group: its branches so far, and the parts of the last one.
type Group = (Vec<Rc<Tree>>, Vec<Rc<Tree>>);

/// The tree of signs without a fault.
fn tree(text: &[u8], tokens: Vec<Token>) -> Rc<Tree> {
    let mut groups = vec![Group::default()];
    let mut repeated = false;
    for (at, sign) in tokens {
        let (branches, parts) = groups.last_mut().unwrap();
        let modifier = repeated && text[at] == b'?';
        repeated = false;
        match sign.unwrap().0 {
            Sign::Open => groups.push(Group::default()),
            Sign::Bar => branches.push(joined(std::mem::take(parts))),
            Sign::Set(characters) => parts.push(Rc::new(Tree::Set(characters))),
            Sign::Times(least, most) if !modifier => {
                let part = parts.pop().unwrap();
                parts.push(Rc::new(Tree::Repeat(part, least, most)));
                repeated = true;
            }
            Sign::Times(..) => {}
            Sign::Close => {
                let content = close(&mut groups);
                groups.last_mut().unwrap().1.push(content);
            }
        }
    }
    close(&mut groups)
}

/// Takes the last group off and gives its content.
fn close(groups: &mut Vec<Group>) -> Rc<Tree> {
    let (mut branches, parts) = groups.pop().unwrap();
    branches.push(joined(parts));
    either(branches)
}
