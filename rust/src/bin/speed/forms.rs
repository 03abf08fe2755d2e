//! The forms: four that expressions compile to, and one with random arcs.
use crate::generator::Random;
use kavurehy::FORM_WORDS;

/// 40 characters.
const ALPHABET: &[u8] = b"ABCDEFGHIJKLMNOPQRSTUVWXYZ0123456789 .+-";
pub const CHARACTERS: usize = ALPHABET.len();
pub const LETTERS: usize = 60;

/// Expressions of sixty letters. The star has an arc from each letter to each.
const TEXTS: [(&str, &str); 4] = [
    (
        "angle",
        r"F(L|R) [-+]?[0-9]{1,2}\.[0-9]{2}( (OK|NA|NOTE|VOID))?",
    ),
    ("six", "[0-9]{6}"),
    ("loop", r"([0-9]{2}\.[0-9]{2} [A-R])*"),
    ("star", "(.|[A-T])*"),
];

pub struct Form {
    pub name: &'static str,
    /// The expression, if it is compiled from one.
    pub text: Option<&'static str>,
    pub words: Vec<u32>,
}

impl Form {
    pub fn all() -> Vec<Form> {
        let mut memory = vec![0; FORM_WORDS];
        let compiled = TEXTS.map(|(name, text)| {
            let length = compile(text, &mut memory);
            Form {
                name,
                text: Some(text),
                words: memory[..length].to_vec(),
            }
        });
        let random = Form {
            name: "random",
            text: None,
            words: random_arcs(&mut Random(400), LETTERS, CHARACTERS, 400),
        };
        compiled.into_iter().chain([random]).collect()
    }

    pub fn named(name: &str) -> Option<Form> {
        Form::all().into_iter().find(|form| form.name == name)
    }

    pub fn arcs(&self) -> usize {
        self.words.len() - 1 - letters(&self.words)
    }
}

/// L of a form.
pub fn letters(form: &[u32]) -> usize {
    (form[0] & 0xff) as usize
}

/// Compiles a text over the alphabet and returns the form's length.
pub fn compile(text: &str, form: &mut [u32]) -> usize {
    let length = kavurehy::compile(ALPHABET, text.as_bytes(), form);
    length.expect("a text that compiles")
}

/// A form with random labels, a few of its letters first or last, and about this many arcs.
pub fn random_arcs(
    random: &mut Random,
    letters: usize,
    characters: usize,
    arcs: usize,
) -> Vec<u32> {
    let mut form = vec![1 << 28 | (characters as u32) << 16 | letters as u32];
    let few = letters.div_ceil(10);
    for i in 1..=letters {
        let first = i <= few || random.below(10) == 0;
        let last = i > letters - few || random.below(10) == 0;
        let label = 1 + random.below(characters) as u32;
        form.push(2 << 28 | u32::from(last) << 9 | u32::from(first) << 8 | label);
    }
    let pairs = letters * letters;
    for pair in 0..pairs {
        if random.below(pairs) < arcs {
            let (i, j) = (pair / letters + 1, pair % letters + 1);
            form.push(3 << 28 | (i as u32) << 8 | j as u32);
        }
    }
    form
}
