//! A call of Compare, and what it should answer.
use crate::form::Form;
use crate::matrix::{need, Line};
use crate::search::Best;

/// A call of Compare; of the line's memory only the work memory is lent.
#[derive(Clone, Debug)]
pub struct Call {
    pub first: Vec<u32>,
    pub second: Vec<u32>,
    pub line: Line,
}

/// What both forms of a call decode to that no refusal before 16 turns away: the price of each, none if it has no reading; and the
/// work words needed.
pub struct Decoded {
    pub prices: [Option<u32>; 2],
    pub need: usize,
}

impl Decoded {
    /// The first price less the second; 16 if either form has no reading.
    pub fn difference(&self) -> Result<i32, u32> {
        match self.prices {
            [Some(first), Some(second)] => Ok(first as i32 - second as i32),
            _ => Err(16),
        }
    }
}

impl Call {
    /// The same call with the forms exchanged.
    pub fn exchanged(&self) -> Call {
        Call {
            first: self.second.clone(),
            second: self.first.clone(),
            line: self.line.clone(),
        }
    }

    /// Those of the two lists that are valid forms.
    fn forms(&self) -> Vec<Form> {
        let lists = [&self.first, &self.second];
        lists.iter().filter_map(|list| Form::read(list)).collect()
    }

    /// The work words needed for these forms: as many as for the one that needs more.
    fn need(&self, forms: &[Form]) -> usize {
        let needs = forms
            .iter()
            .map(|form| need(self.line.columns, form.letters.len()));
        needs.max().unwrap_or(0)
    }

    /// All of refusals 11, 12, 13 and 15 that apply, ascending. A list that is no valid form fits every matrix and needs no work
    /// memory; more than 255 columns need none either.
    pub fn faults(&self) -> Vec<u32> {
        let (forms, line) = (self.forms(), &self.line);
        let rules = [
            (11, forms.len() < 2),
            (12, forms.iter().any(|form| line.misfits(form.k.into()))),
            (13, line.too_dear()),
            (15, line.columns <= 255 && line.work < self.need(&forms)),
        ];
        let apply = rules.iter().filter(|(_, applies)| *applies);
        apply.map(|(refusal, _)| *refusal).collect()
    }

    /// What the forms decode to, or the first refusal before 16 that applies; `search` finds the best path of a form.
    pub fn decoded(&self, search: impl Fn(&Form) -> Option<Best>) -> Result<Decoded, u32> {
        if let Some(&refusal) = self.faults().first() {
            return Err(refusal);
        }
        let forms = self.forms();
        let price = |form: &Form| search(form).map(|best| best.price);
        Ok(Decoded {
            prices: [price(&forms[0]), price(&forms[1])],
            need: self.need(&forms),
        })
    }
}
