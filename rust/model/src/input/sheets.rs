//! Random sheets, and damage to their bytes.
use super::texts::{bad_alphabet, damage, many_letters};
use super::writer::expression;
use super::Random;
use crate::call::Call;
use crate::matrix::BARRED;
use crate::sheet::Sheet;

impl Sheet {
    /// Small lines of any text, medium lines, and long lines of few and of many letters.
    pub fn random(r: &mut Random) -> Sheet {
        let call = match r.below(20) {
            0..=11 => Call::small(r),
            12..=15 => Call::proper(r, 12, 24, |r, alphabet| expression(r, alphabet, 5).0),
            16..=17 => Call::proper(r, 5, 255, |r, alphabet| expression(r, alphabet, 8).0),
            _ => Call::proper(r, 20, 255, many_letters),
        };
        Sheet {
            alphabet: call.alphabet,
            text: call.text,
            columns: call
                .line
                .costs
                .chunks(call.line.width)
                .map(Vec::from)
                .collect(),
        }
    }

    /// Spoils one thing.
    pub fn spoil(&mut self, r: &mut Random) {
        let columns = self.columns.len();
        let any = r.below(columns.max(1));
        match r.below(8) {
            0 => self.alphabet = bad_alphabet(r),
            1 => damage(r, &mut self.text),
            2 => self.columns.truncate(any),
            3 => self.columns.iter_mut().for_each(|column| column.push(0)),
            4 => self
                .columns
                .iter_mut()
                .for_each(|column| column.truncate(column.len().max(2) - 1)),
            5 if columns > 0 => self.columns[any].push(0),
            6 if columns > 0 => {
                let more = self.columns.iter().cycle().take(r.from(256, 258));
                self.columns = more.cloned().collect();
            }
            _ if columns > 0 => {
                let seven = *r.pick(&[1_000_001, 9_999_999]);
                let more = *r.pick(&[10_000_000, BARRED - 1]);
                self.columns[any][0] = if r.chance(67) { seven } else { more };
            }
            _ => {}
        }
    }
}

/// Bytes that mean something in sheets, and some that do not.
const SIGNS: &[u8] = b"\n\n\n  001259-+\t\rab.\0";

/// Spoils one thing of a sheet's bytes; they may still be a sheet.
pub fn edit(r: &mut Random, bytes: &mut Vec<u8>) {
    let (n, m) = (r.below(bytes.len() + 1), r.below(bytes.len() + 1));
    let byte = if r.chance(80) {
        *r.pick(SIGNS)
    } else {
        r.bits() as u8
    };
    match r.below(9) {
        0 if n < bytes.len() => drop(bytes.remove(n)),
        1 if n < bytes.len() => bytes[n] = byte,
        2 | 3 => bytes.insert(n, byte),
        4 if n.max(m) < bytes.len() => bytes.swap(n, m),
        5 => bytes.truncate(n),
        6 => drop(bytes.drain(n.min(m)..n.max(m))),
        7 => spell(bytes, n),
        _ => drop(bytes.pop()),
    }
}

/// Writes the first `-` from this place on as the number of a barred label.
fn spell(bytes: &mut Vec<u8>, from: usize) {
    let found = bytes[from..].iter().position(|&b| b == b'-');
    if let Some(n) = found {
        bytes.splice(from + n..=from + n, BARRED.to_string().into_bytes());
    }
}
