//! Opening an expression into letters, and its form: first and last letters, and the arcs of joining and repeating.
use super::alphabet::labels_of;
use super::expression::{parse, Tree};
use super::form::{Form, Letter};
use std::collections::BTreeSet;
use std::rc::Rc;

/// The tree and the form of a text, or the first of refusals 1 to 9 and 19 that applies.
pub fn compile(alphabet: &[u8], text: &[u8]) -> Result<(Rc<Tree>, Form), u32> {
    let tree = parse(alphabet, text)?;
    if letters(alphabet, &tree) > 127 {
        return Err(9);
    }
    let mut form = Form::new(alphabet);
    let part = number(&open(alphabet, &tree), &mut form);
    form.empty = part.empty;
    for i in part.first {
        form.letters[usize::from(i) - 1].first = true;
    }
    for i in part.last {
        form.letters[usize::from(i) - 1].last = true;
    }
    Ok((tree, form))
}

/// The same with form memory of this length: the first of refusals 1 to 10 and 19.
pub fn compile_within(
    alphabet: &[u8],
    text: &[u8],
    memory: usize,
) -> Result<(Rc<Tree>, Form), u32> {
    let (tree, form) = compile(alphabet, text)?;
    if form.words().len() > memory {
        return Err(10);
    }
    Ok((tree, form))
}

/// How many letters an expression opens into. Nested counts multiply beyond any integer: the largest is used for all of those.
fn letters(alphabet: &[u8], tree: &Tree) -> usize {
    match tree {
        Tree::Set(characters) => labels_of(alphabet, characters).len(),
        Tree::Join(parts) | Tree::Either(parts) => parts.iter().fold(0, |sum: usize, part| {
            sum.saturating_add(letters(alphabet, part))
        }),
        Tree::Repeat(part, least, most) => {
            letters(alphabet, part).saturating_mul(most.unwrap_or(*least).max(1))
        }
    }
}

/// An expression without sets and counts.
enum Opened {
    Letter(u8),
    Join(Vec<Opened>),
    Either(Vec<Opened>),
    Optional(Box<Opened>),
    Star(Box<Opened>),
    Plus(Box<Opened>),
}

/// A set becomes the alternation of all labels of its characters.
fn open(alphabet: &[u8], tree: &Tree) -> Opened {
    match tree {
        Tree::Set(characters) => {
            let labels = labels_of(alphabet, characters);
            Opened::Either(labels.into_iter().map(Opened::Letter).collect())
        }
        Tree::Join(parts) => Opened::Join(parts.iter().map(|part| open(alphabet, part)).collect()),
        Tree::Either(branches) => {
            Opened::Either(branches.iter().map(|b| open(alphabet, b)).collect())
        }
        Tree::Repeat(part, 0, None) => Opened::Star(Box::new(open(alphabet, part))),
        Tree::Repeat(part, least, None) => {
            let mut parts = copies(alphabet, part, least - 1);
            parts.push(Opened::Plus(Box::new(open(alphabet, part))));
            Opened::Join(parts)
        }
        Tree::Repeat(part, least, Some(most)) => {
            let mut parts = copies(alphabet, part, *least);
            parts.extend((*least..*most).fold(None, |inner, _| {
                let nested = copies(alphabet, part, 1).into_iter().chain(inner).collect();
                Some(Opened::Optional(Box::new(Opened::Join(nested))))
            }));
            Opened::Join(parts)
        }
    }
}

fn copies(alphabet: &[u8], part: &Tree, n: usize) -> Vec<Opened> {
    (0..n).map(|_| open(alphabet, part)).collect()
}

/// Of a part: is the empty word one of its words, and which letters may be first or last?
struct Part {
    empty: bool,
    first: BTreeSet<u8>,
    last: BTreeSet<u8>,
}

/// Numbers the letters from left to right into the form, with the arcs among them.
fn number(opened: &Opened, form: &mut Form) -> Part {
    match opened {
        Opened::Letter(label) => {
            form.letters.push(Letter {
                label: *label,
                first: false,
                last: false,
            });
            let alone = BTreeSet::from([form.letters.len() as u8]);
            Part {
                empty: false,
                first: alone.clone(),
                last: alone,
            }
        }
        Opened::Join(parts) => number_joined(parts, form),
        Opened::Either(branches) => number_either(branches, form),
        Opened::Optional(part) => Part {
            empty: true,
            ..number(part, form)
        },
        Opened::Star(part) => Part {
            empty: true,
            ..number_repeated(part, form)
        },
        Opened::Plus(part) => number_repeated(part, form),
    }
}

/// An arc from each last letter of what is joined so far to each first of the next part.
fn number_joined(parts: &[Opened], form: &mut Form) -> Part {
    let mut whole = Part {
        empty: true,
        first: BTreeSet::new(),
        last: BTreeSet::new(),
    };
    for part in parts {
        let next = number(part, form);
        form.add_arcs(&whole.last, &next.first);
        if whole.empty {
            whole.first.extend(next.first);
        }
        if !next.empty {
            whole.last.clear();
        }
        whole.last.extend(next.last);
        whole.empty &= next.empty;
    }
    whole
}

fn number_either(branches: &[Opened], form: &mut Form) -> Part {
    let mut whole = Part {
        empty: false,
        first: BTreeSet::new(),
        last: BTreeSet::new(),
    };
    for branch in branches {
        let next = number(branch, form);
        whole.empty |= next.empty;
        whole.first.extend(next.first);
        whole.last.extend(next.last);
    }
    whole
}

/// An arc from each last letter of the repeated part to each first.
fn number_repeated(part: &Opened, form: &mut Form) -> Part {
    let part = number(part, form);
    form.add_arcs(&part.last, &part.first);
    part
}
