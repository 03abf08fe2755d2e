//! The proved calls of `libkavurehy.a` as safe functions: slices in, a [`Result`] with a [`Refusal`] out.
//!
//! Every call takes any input. An invalid one is turned away with a [`Refusal`]. All lent memory is then as it was, except the
//! needed work words after [`Refusal::NoReading`], and except [`read`]'s form memory, which after [`Refusal::Matrix`] to
//! [`Refusal::NoReading`] is as [`compile`] leaves it. On success the memory after what was written is as it was too.
//!
//! ```
//! use kavurehy::{read, work_words, Matrix, FORM_WORDS};
//!
//! // Three columns, each with the costs of blank, a and b.
//! let matrix = Matrix { costs: &[5, 1, 9, 5, 1, 9, 5, 1, 9], width: 3, columns: 3 };
//! let mut form = vec![0; FORM_WORDS];
//! let (mut path, mut word) = ([0; 3], [0; 3]);
//! let mut work = vec![0; work_words(3, 2)];
//!
//! let reading = read(b"ab", b"aa", matrix, &mut form, &mut path, &mut word, &mut work).unwrap();
//! assert_eq!(reading.price, 7);
//! assert_eq!(path, [1, 0, 1]);
//! assert_eq!(word[..reading.length], *b"aa");
//! ```
#![deny(unsafe_op_in_unsafe_fn)]

pub mod raw;

mod refusal;

pub use refusal::Refusal;

/// The cost of a barred label: no path uses it.
pub const BARRED: u32 = u32::MAX;

/// A matrix of costs: `columns` columns, one after another, each with `width` costs in label order, the blank first. A cost is at
/// most 1,000,000, or [`BARRED`].
#[derive(Clone, Copy, Debug)]
pub struct Matrix<'a> {
    pub costs: &'a [u32],
    pub width: usize,
    pub columns: usize,
}

/// What [`decode`] reports: the price of the path and the length of its word.
#[derive(Clone, Copy, Debug, PartialEq, Eq)]
pub struct Reading {
    pub price: u32,
    pub length: usize,
}

/// What [`read`] reports: the price of the path, the length of its word and that of the form.
#[derive(Clone, Copy, Debug, PartialEq, Eq)]
pub struct TextReading {
    pub price: u32,
    pub length: usize,
    pub form: usize,
}

impl TextReading {
    fn of([price, length, form]: [u32; 3]) -> TextReading {
        TextReading {
            price,
            length: length as usize,
            form: form as usize,
        }
    }
}

/// The length of the longest form: the head, 127 letters and an arc from each to each.
pub const FORM_WORDS: usize = 1 + 127 + 127 * 127;

/// The most bytes that a word list may have.
pub const LIST_BYTES: usize = 4096;

/// How many work words [`decode`] and [`read`] need for this number of columns and of letters; [`compare`] needs them for the
/// letters of the form that has more.
pub const fn work_words(columns: usize, letters: usize) -> usize {
    (columns + 1) * (2 * letters + 1)
}

/// Writes the form of an expression over an alphabet and returns its length. A character that the alphabet lists more than once
/// has a label for each of its places, and in the expression it means all of them.
///
/// ```
/// use kavurehy::{compile, judge, Refusal};
///
/// let mut form = [0; 5];
/// assert_eq!(compile(b"ab", b"ab*", &mut form), Ok(5));
/// assert_eq!(form, [0x10020002, 0x20000301, 0x20000202, 0x30000102, 0x30000202]);
/// assert_eq!(judge(&form, &[1, 2, 2]), Ok(true));
/// assert_eq!(compile(b"ab", b"a**", &mut form), Err(Refusal::MisplacedSign));
///
/// // A class in a bracket means those of its characters that are in the alphabet: here the labels 2 and 4.
/// assert_eq!(compile(b"a1b2", b"[[:digit:]]", &mut form), Ok(3));
/// assert_eq!(judge(&form[..3], &[4]), Ok(true));
/// assert_eq!(judge(&form[..3], &[3]), Ok(false));
/// assert_eq!(compile(b"a1b2", b"[[:digits:]]", &mut form), Err(Refusal::ClassName));
///
/// // Two shapes of 7: the labels 1 and 3.
/// assert_eq!(compile(b"7a7", b"[^a]", &mut form), Ok(3));
/// assert_eq!(judge(&form[..3], &[1]), Ok(true));
/// assert_eq!(judge(&form[..3], &[3]), Ok(true));
/// ```
///
/// Refusals, the first that applies: 1 to 3; of 4 to 8 ([`Refusal::MisplacedSign`] to [`Refusal::Foreign`]) and 19
/// ([`Refusal::ClassName`]) the leftmost in the text, 19 at its bracket after 7 and before 8; then 9 and 10.
pub fn compile(alphabet: &[u8], text: &[u8], form: &mut [u32]) -> Result<usize, Refusal> {
    let mut counts = [0];
    // SAFETY: each pointer comes with its list's length; `form` and `counts` are lent to nobody else.
    let number = unsafe {
        raw::kavurehy_compile(
            alphabet.as_ptr(),
            alphabet.len(),
            text.as_ptr(),
            text.len(),
            form.as_mut_ptr(),
            form.len(),
            &mut counts,
        )
    };
    Refusal::check(number)?;
    Ok(counts[0] as usize)
}

/// Writes the form of a list of words over an alphabet and returns its length. Each word is closed by one newline. The form accepts
/// a list of labels exactly if their characters are one of the words. Words that begin alike share the letters of what they begin
/// with.
///
/// ```
/// use kavurehy::{compile_list, decode, work_words, Matrix, FORM_WORDS};
///
/// // Two levels and a collar: 14 letters, of which the levels share six.
/// let (alphabet, list) = (b"acelorv 12", b"level 1\nlevel 2\ncollar\n");
/// let mut form = [0; FORM_WORDS];
/// let length = compile_list(alphabet, list, &mut form).unwrap();
/// let letters = (form[0] & 0xff) as usize;
/// assert_eq!((length, letters), (27, 14));
///
/// // Seven columns, in each of which one label costs nothing. The fourth was taken for a c.
/// let mut costs = [9; 7 * 11];
/// for (column, c) in b"levcl 2".iter().enumerate() {
///     costs[column * 11 + 1 + alphabet.iter().position(|a| a == c).unwrap()] = 0;
/// }
/// let matrix = Matrix { costs: &costs, width: 11, columns: 7 };
/// let (mut path, mut word) = ([0; 7], [0; 7]);
/// let mut work = vec![0; work_words(7, letters)];
/// let reading = decode(&form[..length], matrix, &mut path, &mut word, &mut work).unwrap();
/// assert_eq!((reading.price, reading.length), (9, 7));
/// assert_eq!(word.map(|x| alphabet[x as usize - 1]), *b"level 2");
/// ```
///
/// ```
/// use kavurehy::{compile_list, judge, Refusal};
///
/// // Two shapes of 7, the labels 1 and 3: a letter for each, and what follows is shared by them.
/// let mut form = [0; 6];
/// assert_eq!(compile_list(b"7a7", b"7a\n7\n", &mut form), Ok(6));
/// assert_eq!(form, [0x10030003, 0x20000301, 0x20000303, 0x20000202, 0x30000103, 0x30000203]);
/// assert_eq!(judge(&form, &[3, 2]), Ok(true));
/// assert_eq!(compile_list(b"7a7", b"7\na\n7\n", &mut form), Err(Refusal::WordList));
/// ```
///
/// Refusals, the first that applies: [`Refusal::Alphabet`]; [`Refusal::TextLength`] for a list without bytes or with more than
/// [`LIST_BYTES`]; [`Refusal::TextByte`], from which newlines are exempt; [`Refusal::WordList`] for an empty or repeated line or
/// no final newline; [`Refusal::Foreign`]; [`Refusal::Letters`]; [`Refusal::FormMemory`].
pub fn compile_list(alphabet: &[u8], list: &[u8], form: &mut [u32]) -> Result<usize, Refusal> {
    let mut counts = [0];
    // SAFETY: as in `compile`.
    let number = unsafe {
        raw::kavurehy_compile_list(
            alphabet.as_ptr(),
            alphabet.len(),
            list.as_ptr(),
            list.len(),
            form.as_mut_ptr(),
            form.len(),
            &mut counts,
        )
    };
    Refusal::check(number)?;
    Ok(counts[0] as usize)
}

/// Does the form accept the word of labels 1 to K?
///
/// Refusals: [`Refusal::BadForm`], [`Refusal::Label`].
pub fn judge(form: &[u32], word: &[u8]) -> Result<bool, Refusal> {
    let mut accepted = [0];
    // SAFETY: each pointer comes with its list's length, and `accepted` belongs to this call alone.
    let number = unsafe {
        raw::kavurehy_judge(
            form.as_ptr(),
            form.len(),
            word.as_ptr(),
            word.len(),
            &mut accepted,
        )
    };
    Refusal::check(number)?;
    Ok(accepted[0] == 1)
}

/// Writes the word that a path of labels 0 to `k` collapses to and returns its length.
///
/// Refusals: [`Refusal::OutputMemory`] if `word` is shorter than `path`, [`Refusal::Label`].
pub fn collapse(k: usize, path: &[u8], word: &mut [u8]) -> Result<usize, Refusal> {
    let mut counts = [0];
    // SAFETY: each pointer comes with its list's length; `word` and `counts` are lent to nobody else.
    let number = unsafe {
        raw::kavurehy_collapse(
            k,
            path.as_ptr(),
            path.len(),
            word.as_mut_ptr(),
            word.len(),
            &mut counts,
        )
    };
    Refusal::check(number)?;
    Ok(counts[0] as usize)
}

/// Writes the shortest path that collapses to a word of labels 1 to `k` and returns its length.
///
/// Refusals: [`Refusal::OutputMemory`] if `path` is shorter than that, [`Refusal::Label`].
pub fn spread(k: usize, word: &[u8], path: &mut [u8]) -> Result<usize, Refusal> {
    let mut counts = [0];
    // SAFETY: as in `collapse`.
    let number = unsafe {
        raw::kavurehy_spread(
            k,
            word.as_ptr(),
            word.len(),
            path.as_mut_ptr(),
            path.len(),
            &mut counts,
        )
    };
    Refusal::check(number)?;
    Ok(counts[0] as usize)
}

/// Writes the cheapest path of one label for each column, none of them barred, whose collapse the form accepts, among equally
/// cheap ones the first by labels, and its collapse, the word. The work words that are needed ([`work_words`]) may hold anything
/// afterwards.
///
/// ```
/// use kavurehy::{decode, work_words, Matrix, Refusal, BARRED};
///
/// // The letter a, then any number of b, over the alphabet ab.
/// let form = [0x10020002, 0x20000301, 0x20000202, 0x30000102, 0x30000202];
/// // Two columns, each with the costs of blank, a and b.
/// let matrix = Matrix { costs: &[5, 1, 9, 5, 9, 2], width: 3, columns: 2 };
/// let (mut path, mut word) = ([0; 2], [0; 2]);
/// let mut work = vec![0; work_words(2, 2)];
///
/// let reading = decode(&form, matrix, &mut path, &mut word, &mut work).unwrap();
/// assert_eq!(reading.price, 3);
/// assert_eq!(path, [1, 2]);
/// assert_eq!(word[..reading.length], [1, 2]);
///
/// // With b barred in the second column the cheapest path is another one.
/// let matrix = Matrix { costs: &[5, 1, 9, 5, 9, BARRED], ..matrix };
/// let reading = decode(&form, matrix, &mut path, &mut word, &mut work).unwrap();
/// assert_eq!(reading.price, 6);
/// assert_eq!(path, [1, 0]);
///
/// // With a barred in both there is no reading, although there are columns enough.
/// let matrix = Matrix { costs: &[5, BARRED, 9, 5, BARRED, 2], ..matrix };
/// let reading = decode(&form, matrix, &mut path, &mut word, &mut work);
/// assert_eq!(reading, Err(Refusal::NoReading));
/// ```
///
/// Refusals: [`Refusal::BadForm`], [`Refusal::Matrix`], [`Refusal::Cost`], [`Refusal::OutputMemory`], [`Refusal::Work`],
/// [`Refusal::NoReading`], the first that applies.
pub fn decode(
    form: &[u32],
    matrix: Matrix<'_>,
    path: &mut [u8],
    word: &mut [u8],
    work: &mut [u32],
) -> Result<Reading, Refusal> {
    let mut counts = [0; 2];
    // SAFETY: each pointer comes with its list's length; the lent lists and `counts` are lent to nobody else.
    let number = unsafe {
        raw::kavurehy_decode(
            form.as_ptr(),
            form.len(),
            matrix.costs.as_ptr(),
            matrix.costs.len(),
            matrix.width,
            matrix.columns,
            path.as_mut_ptr(),
            path.len(),
            word.as_mut_ptr(),
            word.len(),
            work.as_mut_ptr(),
            work.len(),
            &mut counts,
        )
    };
    Refusal::check(number)?;
    let [price, length] = counts;
    Ok(Reading {
        price,
        length: length as usize,
    })
}

/// The price that [`decode`] reports with the first form less that with the second: negative if the first is cheaper. If the forms
/// are exchanged, it changes its sign, and a refusal is the same. The work words that are needed, [`work_words`] for the form with
/// more letters, may hold anything afterwards.
///
/// ```
/// use kavurehy::{compare, compile, work_words, Matrix, Refusal, BARRED};
///
/// // Face left and face right, two letters each.
/// let (mut left, mut right) = ([0; 4], [0; 4]);
/// assert_eq!(compile(b"FLR", b"FL", &mut left), Ok(4));
/// assert_eq!(compile(b"FLR", b"FR", &mut right), Ok(4));
/// // Two columns, each with the costs of blank, F, L and R.
/// let matrix = Matrix { costs: &[9, 1, 8, 8, 9, 8, 2, 5], width: 4, columns: 2 };
/// let mut work = vec![0; work_words(2, 2)];
///
/// // FL costs 3 and FR 6.
/// assert_eq!(compare(&left, &right, matrix, &mut work), Ok(-3));
/// assert_eq!(compare(&right, &left, matrix, &mut work), Ok(3));
///
/// // With R barred in both columns there is no reading with FR, and so no difference.
/// let matrix = Matrix { costs: &[9, 1, 8, BARRED, 9, 8, 2, BARRED], ..matrix };
/// assert_eq!(compare(&left, &right, matrix, &mut work), Err(Refusal::NoReading));
/// assert_eq!(compare(&right, &left, matrix, &mut work), Err(Refusal::NoReading));
/// ```
///
/// Refusals, the first that applies: [`Refusal::BadForm`] of either form; [`Refusal::Matrix`], also if the forms differ in K;
/// [`Refusal::Cost`]; [`Refusal::Work`]; [`Refusal::NoReading`] if either form has none.
pub fn compare(
    first: &[u32],
    second: &[u32],
    matrix: Matrix<'_>,
    work: &mut [u32],
) -> Result<i32, Refusal> {
    let mut difference = [0];
    // SAFETY: each pointer comes with its list's length; `work` and `difference` are lent to nobody else.
    let number = unsafe {
        raw::kavurehy_compare(
            first.as_ptr(),
            first.len(),
            second.as_ptr(),
            second.len(),
            matrix.costs.as_ptr(),
            matrix.costs.len(),
            matrix.width,
            matrix.columns,
            work.as_mut_ptr(),
            work.len(),
            &mut difference,
        )
    };
    Refusal::check(number)?;
    Ok(difference[0])
}

/// Writes the form of an expression over an alphabet, the cheapest path of one label for each column, none of them barred, whose
/// collapse is a word of the expression, among equally cheap ones the first by labels, and that word as characters. The crate's
/// example calls it.
///
/// Where the alphabet lists a character more than once, a list of labels is a word if the characters of its labels spell one.
/// Collapse compares labels, so two labels of one character side by side are that character twice, without a blank.
///
/// ```
/// use kavurehy::{read, work_words, Matrix};
///
/// // A crossed and a plain 7: two columns, each with the costs of blank and of both shapes.
/// let matrix = Matrix { costs: &[0, 1, 5, 0, 5, 1], width: 3, columns: 2 };
/// let (mut form, mut path, mut word) = ([0; 9], [0; 2], [0; 2]);
/// let mut work = vec![0; work_words(2, 4)];
///
/// let reading = read(b"77", b"77", matrix, &mut form, &mut path, &mut word, &mut work).unwrap();
/// assert_eq!(reading.price, 2);
/// assert_eq!(path, [1, 2]);
/// assert_eq!(word, *b"77");
/// ```
///
/// A form of L letters needs [`work_words`] for L; those may hold anything afterwards. L is in bits 0 to 7 of the form's first
/// word, which is in the form memory after [`Refusal::Work`] too.
///
/// Refusals: those of [`compile`], then [`Refusal::Matrix`], [`Refusal::Cost`], [`Refusal::OutputMemory`],
/// [`Refusal::Work`], [`Refusal::NoReading`], the first that applies.
pub fn read(
    alphabet: &[u8],
    text: &[u8],
    matrix: Matrix<'_>,
    form: &mut [u32],
    path: &mut [u8],
    word: &mut [u8],
    work: &mut [u32],
) -> Result<TextReading, Refusal> {
    let mut counts = [0; 3];
    // SAFETY: as in `decode`.
    let number = unsafe {
        raw::kavurehy_read(
            alphabet.as_ptr(),
            alphabet.len(),
            text.as_ptr(),
            text.len(),
            matrix.costs.as_ptr(),
            matrix.costs.len(),
            matrix.width,
            matrix.columns,
            form.as_mut_ptr(),
            form.len(),
            path.as_mut_ptr(),
            path.len(),
            word.as_mut_ptr(),
            word.len(),
            work.as_mut_ptr(),
            work.len(),
            &mut counts,
        )
    };
    Refusal::check(number).map(|()| TextReading::of(counts))
}

/// Writes one cost for each confidence c: [`BARRED`] for 0, else the largest whole n with 2ⁿ × c⁸ ≤ 2⁶⁴.
///
/// ```
/// use kavurehy::BARRED;
///
/// let mut costs = [9; 4];
/// assert_eq!(kavurehy::costs(&[255, 128, 1, 0], &mut costs), Ok(()));
/// assert_eq!(costs, [0, 8, 64, BARRED]);
/// ```
///
/// Refusal: [`Refusal::OutputMemory`] if `costs` is shorter than `confidences`.
pub fn costs(confidences: &[u8], costs: &mut [u32]) -> Result<(), Refusal> {
    // SAFETY: each pointer comes with its list's length; `costs` is lent to nobody else.
    let number = unsafe {
        raw::kavurehy_costs(
            confidences.as_ptr(),
            confidences.len(),
            costs.as_mut_ptr(),
            costs.len(),
        )
    };
    Refusal::check(number)
}
