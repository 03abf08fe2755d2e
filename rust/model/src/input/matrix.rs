//! Random matrices, with enough memory or spoilt.
use super::Random;
use crate::matrix::{need, Line, BARRED};

impl Line {
    /// A random matrix for K and L, with enough memory; no label is barred.
    pub fn unbarred(r: &mut Random, k: usize, letters: usize, columns: usize) -> Line {
        let spare = |r: &mut Random| if r.chance(50) { 0 } else { r.from(1, 9) };
        Line {
            costs: costs(r, columns * (k + 1)),
            width: k + 1,
            columns,
            path: columns + spare(r),
            word: columns + spare(r),
            work: need(columns, letters) + spare(r),
        }
    }

    /// The same, with barred labels in a third of the matrices.
    pub fn random(r: &mut Random, k: usize, letters: usize, columns: usize) -> Line {
        let mut line = Line::unbarred(r, k, letters, columns);
        if r.chance(33) {
            line.bar(r);
        }
        line
    }

    /// Bars labels in one of several styles: scattered ones, columns throughout, a label throughout, all but one path, everything.
    /// Where there is no column there is nothing to bar.
    pub fn bar(&mut self, r: &mut Random) {
        let (width, columns) = (self.width, self.columns);
        let often = *r.pick(&[2, 10, 30, 60]);
        match r.below(14) {
            _ if columns == 0 => {}
            0..=6 => self.bar_where(|_, _| r.chance(often)),
            7 => {
                let whole = [r.below(columns), r.below(columns)];
                self.bar_where(|t, _| whole.contains(&t));
            }
            8..=10 => {
                let label = r.below(width);
                self.bar_where(|_, x| x == label);
            }
            11..=12 => {
                let path = path(r, width, columns);
                self.bar_where(|t, x| x != path[t]);
            }
            _ => self.bar_where(|_, _| true),
        }
    }

    /// Bars the labels of which this holds, by column and label.
    pub fn bar_where(&mut self, mut barred: impl FnMut(usize, usize) -> bool) {
        for (n, cost) in self.costs.iter_mut().enumerate() {
            if barred(n / self.width, n % self.width) {
                *cost = BARRED;
            }
        }
    }

    /// Spoils one thing: refusals 12 to 15.
    pub fn spoil(&mut self, r: &mut Random) {
        match r.below(7) {
            0 => self.width = *r.pick(&[0, self.width ^ 1, self.width ^ 2, 1 << 63, usize::MAX]),
            1 => self.columns = *r.pick(&[self.columns ^ 1, 256, 1 << 32, 1 << 63, usize::MAX]),
            2 => drop(self.costs.pop()),
            3 => self.costs.push(0),
            4 => {
                if !self.costs.is_empty() {
                    let n = r.below(self.costs.len());
                    self.costs[n] = *r.pick(&[1_000_001, 1_000_000_000, BARRED - 1]);
                }
            }
            5 if r.chance(50) => self.path = self.path.saturating_sub(r.from(1, 12)),
            5 => self.word = self.word.saturating_sub(r.from(1, 12)),
            _ => self.work = self.work.saturating_sub(*r.pick(&[1, 9, 10, 60, 1000])),
        }
    }
}

/// Costs of one of several styles: all equal, nearly all equal, small, wide, with the largest that passes, all close to it.
fn costs(r: &mut Random, number: usize) -> Vec<u32> {
    const WIDE: (usize, usize) = (0, 1_000_000);
    const CLOSE: (usize, usize) = (999_997, 1_000_000);
    let (low, high) = *r.pick(&[(0, 0), (0, 1), (0, 3), (0, 20), (0, 1_000), WIDE, CLOSE]);
    let one = *r.pick(&[low, high]);
    let mut cost = || match r.chance(90) {
        true => r.from(low, high) as u32,
        false => one as u32,
    };
    (0..number).map(|_| cost()).collect()
}

/// A path; equal neighbours are frequent.
fn path(r: &mut Random, width: usize, columns: usize) -> Vec<usize> {
    let mut label = 0;
    let mut next = || {
        if r.chance(60) {
            label = r.below(width);
        }
        label
    };
    (0..columns).map(|_| next()).collect()
}

/// The most columns for which all lists of labels 0 to K can be tried: at most 9,261 lists.
pub fn few_columns(k: usize) -> usize {
    match k {
        1 => 10,
        2 => 7,
        3 => 6,
        4 => 5,
        5..=7 => 4,
        8..=20 => 3,
        _ => 2,
    }
}
