//! What Decode, Compare and Read are given besides forms or a text, and refusals 12 to 15.

/// The cost of a barred label.
pub const BARRED: u32 = 4_294_967_295;

/// The cost if a path may use the label; none if the label is barred.
pub fn usable(cost: u32) -> Option<u32> {
    (cost != BARRED).then_some(cost)
}

/// A matrix, and how much memory is lent.
#[derive(Clone, Debug)]
pub struct Line {
    pub costs: Vec<u32>,
    pub width: usize,
    pub columns: usize,
    pub path: usize,
    pub word: usize,
    pub work: usize,
}

/// Work memory needed: (T + 1) × (2L + 1) words.
pub fn need(columns: usize, letters: usize) -> usize {
    (columns + 1) * (2 * letters + 1)
}

impl Line {
    /// Refusal 12 for this K.
    pub fn misfits(&self, k: usize) -> bool {
        let width = k + 1;
        self.columns > 255 || self.width != width || self.costs.len() != self.columns * width
    }

    /// Refusal 13.
    pub fn too_dear(&self) -> bool {
        self.costs.iter().any(|&c| c > 1_000_000 && c != BARRED)
    }

    /// The work words needed for K and L, or the first of refusals 12 to 15 that applies.
    pub fn check(&self, k: usize, letters: usize) -> Result<usize, u32> {
        if self.misfits(k) {
            return Err(12);
        }
        if self.too_dear() {
            return Err(13);
        }
        if self.path < self.columns || self.word < self.columns {
            return Err(14);
        }
        let need = need(self.columns, letters);
        if self.work < need {
            return Err(15);
        }
        Ok(need)
    }
}
