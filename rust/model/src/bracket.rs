//! Brackets and braces, each at the beginning of a text.
use super::alphabet::labelled;
use super::class::class;
use std::ops::RangeInclusive;

/// The characters of a bracket and its length; 7 where it is none, 19 where a class has no known name, 8 where no character has a
/// label.
pub fn bracket(alphabet: &[u8], text: &[u8]) -> Result<(Vec<u8>, usize), u32> {
    let complement = text.get(1) == Some(&b'^');
    let start = if complement { 2 } else { 1 };
    let (signs, end) = signs(text, start).ok_or(7u32)?;
    let (ranges, names) = items(&signs).ok_or(7u32)?;
    let reserved = |pair: &[u8]| matches!(pair, b"[." | b"[=");
    if text[start..end].windows(2).any(reserved) {
        return Err(7);
    }
    let classes: Option<Vec<_>> = names.into_iter().map(class).collect();
    let classes = classes.ok_or(19u32)?;
    let inside =
        |c: u8| ranges.iter().any(|range| range.contains(&c)) || classes.iter().any(|has| has(c));
    let characters = labelled(alphabet, |c| inside(c) != complement)?;
    Ok((characters, end + 1))
}

/// A sign inside a bracket: a class, by its name, or one byte.
enum Sign<'a> {
    Class(&'a [u8]),
    Byte(u8),
}

/// The signs of a bracket from the left, and the place of the `]` that closes it: the first that is a sign of its own, but not
/// the first sign. A class goes from `[:` to the nearest `:]` after that. None if the bracket or a class is not closed.
fn signs(text: &[u8], start: usize) -> Option<(Vec<Sign<'_>>, usize)> {
    let mut signs = Vec::new();
    let mut at = start;
    loop {
        match &text[at..] {
            [] => return None,
            [b']', ..] if !signs.is_empty() => return Some((signs, at)),
            [b'[', b':', rest @ ..] => {
                let length = rest.windows(2).position(|pair| pair == b":]")?;
                signs.push(Sign::Class(&rest[..length]));
                at += length + 4;
            }
            [c, ..] => {
                signs.push(Sign::Byte(*c));
                at += 1;
            }
        }
    }
}

/// The ranges of bytes and the names of classes that are a bracket's items.
type Items<'a> = (Vec<RangeInclusive<u8>>, Vec<&'a [u8]>);

/// The items that the signs of a bracket are; none if a range descends or has a class at an end, or a `-` is neither first nor
/// last nor in a range.
fn items<'a>(signs: &[Sign<'a>]) -> Option<Items<'a>> {
    let (mut ranges, mut names) = (Vec::new(), Vec::new());
    let mut rest = signs;
    loop {
        rest = match rest {
            [] => return Some((ranges, names)),
            [Sign::Byte(b'-'), _, ..] if rest.len() < signs.len() => return None,
            [Sign::Byte(c), Sign::Byte(b'-'), Sign::Byte(d), after @ ..] if c <= d => {
                ranges.push(*c..=*d);
                after
            }
            [Sign::Byte(_), Sign::Byte(b'-'), _, ..] => return None,
            [Sign::Byte(c), after @ ..] => {
                ranges.push(*c..=*c);
                after
            }
            [Sign::Class(name), after @ ..] => {
                names.push(*name);
                after
            }
        };
    }
}

/// The least and the most of braces, and their length; 6 where they are ill-formed or out of range.
pub fn braces(text: &[u8]) -> Result<(usize, Option<usize>, usize), u32> {
    let end = text.iter().position(|&b| b == b'}').ok_or(6u32)?;
    let mut fields = text[1..end].split(|&b| b == b',');
    let least = count(fields.next().unwrap_or(&[]))?;
    let most = match fields.next() {
        None => Some(least),
        Some([]) => None,
        Some(digits) => Some(count(digits)?),
    };
    let out_of_range = most.is_some_and(|m| m == 0 || m < least);
    if out_of_range || fields.next().is_some() {
        return Err(6);
    }
    Ok((least, most, end + 1))
}

/// 1 to 3 digits, at most 255.
fn count(digits: &[u8]) -> Result<usize, u32> {
    if !(1..=3).contains(&digits.len()) || !digits.iter().all(u8::is_ascii_digit) {
        return Err(6);
    }
    let number = digits
        .iter()
        .fold(0, |n, digit| 10 * n + usize::from(digit - b'0'));
    if number > 255 {
        return Err(6);
    }
    Ok(number)
}
