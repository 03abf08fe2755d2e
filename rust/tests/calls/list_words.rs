//! What the forms of word lists accept: Judge against the lines alone, Decode against a search over all lists of labels, and
//! both against the expression that is a choice of the words.
use crate::compile::{any_labels, compiled};
use crate::decode;
use crate::lists::{repeats, shares};
use crate::matrix::matrix;
use crate::LEAST;
use kavurehy::{compile, compile_list, judge, Refusal};
use model::collapse;
use model::input::lists::{closed, list, shuffle, words};
use model::input::matrix::few_columns;
use model::input::texts::alphabet;
use model::input::writer::ordinary;
use model::input::{random, Random};
use model::matrix::{Line, BARRED};
use model::search::{exhaustive, tied, Best};
use model::tally::Tally;
use model::wordlist::{self, Listed};
use std::fmt::Debug;
use std::io::Write;

/// Lists whose words are judged, and words for each of them.
const LISTS: usize = 20_000;
const WORDS: usize = 20;

/// Lines that are read.
const LINES: usize = 100_000;

/// A listed word by any of its labels, or one near it: a beginning, one label changed, one more, the empty word.
fn near<W: AsRef<[u8]>>(r: &mut Random, alphabet: &[u8], words: &[W]) -> Vec<u8> {
    let listed = r.pick(words).as_ref();
    let mut word = any_labels(r, alphabet, listed);
    let (n, x) = (r.below(word.len()), r.from(1, alphabet.len()) as u8);
    match r.below(20) {
        0..=3 => word.truncate(n),
        4..=7 => word[n] = x,
        8..=10 => word.push(x),
        11 => word.clear(),
        _ => {}
    }
    word
}

/// Judge of a list's form accepts a list of labels exactly if its characters are a line, and so does the model's form.
#[test]
fn words_of_lists() {
    let mut r = random("words_of_lists");
    let (mut lists, mut yes, mut no, mut empty) = (0, 0, 0, 0);
    while lists < LISTS {
        let most = *r.pick(&[2, 4, 4, 10, 30, 95]);
        let alphabet = alphabet(&mut r, most);
        let list = list(&mut r, &alphabet);
        let Ok(by_model) = wordlist::compile(&alphabet, &list) else {
            continue;
        };
        let form = compiled(compile_list, &alphabet, &list).unwrap();
        let listed = Listed::new(&alphabet, &list);
        let words = wordlist::words(&alphabet, &list).unwrap();
        lists += 1;
        for _ in 0..WORDS {
            let word = near(&mut r, &alphabet, &words);
            let accepted = listed.has(&word);
            assert_eq!(judge(&form, &word), Ok(accepted), "{word:?} {form:x?}");
            assert_eq!(by_model.accepts(&word), accepted, "{word:?} {form:x?}");
            yes += usize::from(accepted);
            no += usize::from(!accepted);
            empty += usize::from(word.is_empty());
        }
    }
    let seen = [yes, no, empty];
    let said = "words of lists accepted, not accepted, empty";
    let _ = writeln!(std::io::stderr(), "{said}: {seen:?}");
    assert!(seen.iter().all(|&n| n >= LISTS), "{seen:?}");
}

/// What was seen on the lines, and how often.
#[derive(Debug, Default)]
struct Seen {
    lines: usize,
    /// Lines with a reading.
    read: usize,
    /// Those whose list has shared beginnings and a character with several labels.
    both: usize,
    /// Those whose cheapest labels, column by column, give no listed word.
    corrected: usize,
    /// Those with several best lists.
    tied: usize,
    /// Those with a barred label.
    barred: usize,
    /// Lines without a reading.
    unread: usize,
}

impl Seen {
    fn add(&mut self, alphabet: &[u8], list: &[u8], line: &Line, answer: &Result<Best, u32>) {
        self.lines += 1;
        let Ok(best) = answer else {
            self.unread += 1;
            return;
        };
        let (k, listed) = (alphabet.len() as u8, Listed::new(alphabet, list));
        let words = wordlist::words(alphabet, list).unwrap();
        let cheapest = |column: &[u32]| (0..=k).min_by_key(|&x| column[usize::from(x)]).unwrap();
        let labels: Vec<u8> = line.costs.chunks(line.width).map(cheapest).collect();
        self.read += 1;
        self.both += usize::from(shares(&words) && repeats(alphabet, &words));
        self.corrected += usize::from(!listed.has(&collapse(&labels)));
        self.tied += usize::from(tied(k, &line.costs, best, |word| listed.has(word)));
        self.barred += usize::from(line.costs.contains(&BARRED));
    }

    /// Each must have been seen often enough.
    fn demand(&self) {
        let _ = writeln!(std::io::stderr(), "lines read by lists: {self:?}");
        assert!(2 * self.both > self.read, "{self:?}");
        let others = [self.corrected, self.tied, self.barred, self.unread];
        assert!(others.iter().all(|&n| n >= self.lines / 20), "{self:?}");
    }
}

/// A list of short words over a small alphabet, and a matrix small enough to try all lists of labels.
fn small(r: &mut Random) -> (Vec<u8>, Vec<u8>, Line) {
    let most = *r.pick(&[1, 2, 2, 3, 3, 4, 4, 8]);
    let alphabet = alphabet(r, most);
    let most = few_columns(alphabet.len());
    loop {
        let list = closed(&words(r, &alphabet, 8, most.min(4)));
        if let Ok(form) = wordlist::compile(&alphabet, &list) {
            let columns = r.edge(0, most);
            let line = Line::random(r, alphabet.len(), form.letters.len(), columns);
            return (alphabet, list, line);
        }
    }
}

/// Decode by a list's form finds the best of all lists of labels whose characters are a line of the list.
#[test]
fn lines_by_lists() {
    let mut r = random("lines_by_lists");
    let (mut tally, mut seen) = (Tally::default(), Seen::default());
    for _ in 0..LINES {
        let (alphabet, list, line) = small(&mut r);
        let listed = Listed::new(&alphabet, &list);
        let call = decode::Call {
            form: compiled(compile_list, &alphabet, &list).unwrap(),
            line: line.clone(),
        };
        let answer = call.hold(&mut tally, |form| {
            exhaustive(form.k, &line.costs, line.columns, |word| listed.has(word))
        });
        seen.add(&alphabet, &list, &line, &answer);
    }
    tally.demand("decode by lists", LEAST, &[0, 16]);
    seen.demand();
}

/// The expression that is a choice of these words.
pub fn choice(words: &[Vec<u8>]) -> Vec<u8> {
    let branch = |word: &Vec<u8>| word.iter().flat_map(|&c| ordinary(c)).collect();
    let branches: Vec<Vec<u8>> = words.iter().map(branch).collect();
    branches.join(&b'|')
}

/// What Decode says of a line: price, path and word, or the refusal.
fn reading(form: &[u32], line: &Line) -> Result<(u32, Vec<u8>, Vec<u8>), Refusal> {
    let (mut path, mut word) = (vec![0; line.columns], vec![0; line.columns]);
    let mut work = vec![0; line.work];
    let reading = kavurehy::decode(form, matrix(line), &mut path, &mut word, &mut work)?;
    word.truncate(reading.length);
    Ok((reading.price, path, word))
}

/// The forms of a list, of the same list in another order, and of the choice of its words; none if that does not compile.
fn forms(r: &mut Random, alphabet: &[u8], words: &mut [Vec<u8>]) -> Option<[Vec<u32>; 3]> {
    let by_choice = match compiled(compile, alphabet, &choice(words)) {
        Err(Refusal::TextLength | Refusal::Letters) => return None,
        form => form.unwrap(),
    };
    let by_list = compiled(compile_list, alphabet, &closed(words)).unwrap();
    shuffle(r, words);
    let in_other_order = compiled(compile_list, alphabet, &closed(words)).unwrap();
    Some([by_list, in_other_order, by_choice])
}

/// What is said of each of three forms, which must be the same.
fn agreed<T: PartialEq + Debug>(forms: &[Vec<u32>; 3], says: impl Fn(&[u32]) -> T) -> T {
    let [first, second, third] = forms.each_ref().map(|form| says(form));
    assert_eq!(first, second, "{forms:x?}");
    assert_eq!(first, third, "{forms:x?}");
    first
}

/// A list has the same words in any order, and the same as the choice of its words; lines are read alike.
#[test]
fn lists_and_choices() {
    let mut r = random("lists_and_choices");
    let (mut fewer, mut yes, mut no, mut read, mut unread) = (0, 0, 0, 0, 0);
    while read + unread < LISTS {
        let most = *r.pick(&[2, 4, 12, 30]);
        let alphabet = alphabet(&mut r, most);
        let mut words = words(&mut r, &alphabet, 8, 8);
        let Some(forms) = forms(&mut r, &alphabet, &mut words) else {
            continue;
        };
        for _ in 0..WORDS {
            let word = near(&mut r, &alphabet, &words);
            let accepted = agreed(&forms, |form| judge(form, &word)).unwrap();
            yes += usize::from(accepted);
            no += usize::from(!accepted);
        }
        let [by_list, _, by_choice] = forms.each_ref().map(|form| (form[0] & 0xff) as usize);
        let columns = r.from(0, 24);
        let line = Line::random(&mut r, alphabet.len(), by_choice, columns);
        match agreed(&forms, |form| reading(form, &line)) {
            Ok(_) => read += 1,
            Err(Refusal::NoReading) => unread += 1,
            Err(refusal) => panic!("{refusal}: {line:?}"),
        }
        fewer += usize::from(by_list < by_choice);
    }
    let seen = [fewer, yes, no, read, unread];
    let said = "lists with fewer letters than choices; words accepted, not; lines read, not";
    let _ = writeln!(std::io::stderr(), "{said}: {seen:?}");
    assert!(seen.iter().all(|&n| n >= LISTS / 10), "{seen:?}");
}
