//! Refusals 1 to 10, text by text, with the numbers written by hand: the model and Compile must both answer with them. And what
//! brackets hold; those with classes, and 19, are in `classes`.
use crate::compile::hold;
use kavurehy::FORM_WORDS;
use model::alphabet::characters_of;
use model::opening::compile;

/// This text over this alphabet must be answered with this number.
pub fn answers(alphabet: &[u8], number: u32, text: &str) {
    let text = text.as_bytes();
    let by_model = compile(alphabet, text).err().unwrap_or(0);
    assert_eq!(by_model, number, "model: {}", text.escape_ascii());
    assert_eq!(hold(alphabet, text, FORM_WORDS), number);
}

/// Texts over this alphabet, with spaces between.
pub fn answer_over(alphabet: &[u8], number: u32, texts: &str) {
    for text in texts.split(' ') {
        answers(alphabet, number, text);
    }
}

/// Texts over the alphabet `ab`, with spaces between.
pub fn answer(number: u32, texts: &str) {
    answer_over(b"ab", number, texts);
}

/// The labels of the letters that a text opens into.
pub fn labels(alphabet: &[u8], text: &str) -> Vec<u8> {
    let mut form = vec![0; FORM_WORDS];
    let text = text.as_bytes();
    kavurehy::compile(alphabet, text, &mut form).unwrap();
    assert_eq!(hold(alphabet, text, FORM_WORDS), 0);
    let letters = form[1..].iter().take_while(|word| *word >> 28 == 2);
    letters.map(|word| *word as u8).collect()
}

/// Their characters.
pub fn letters(alphabet: &[u8], text: &str) -> String {
    let labels = labels(alphabet, text);
    String::from_utf8(characters_of(alphabet, &labels)).unwrap()
}

#[test]
fn lines_of_the_document() {
    answer(0, "a{127} a*?");
    answer(4, "a**");
    answer(6, "a{0} a{2,1}");
    answer(7, "[b-a]");
    answer(8, "c");
    answer(9, "a{128}");
    let mut form = [0; 5];
    assert_eq!(kavurehy::compile(b"ab", b"ab*", &mut form), Ok(5));
    assert_eq!(
        form,
        [0x10020002, 0x20000301, 0x20000202, 0x30000102, 0x30000202]
    );
}

#[test]
fn alphabets_and_bytes() {
    let many = b"ba b".repeat(24);
    let alphabets: [&[u8]; 7] = [b"", b"aa\x7f", b"a\x1f", b"\x7f", &many, &[0x80], &[32; 96]];
    for alphabet in alphabets {
        for text in ["a", "", "*", "\n"] {
            answers(alphabet, 1, text);
        }
    }
    let all: Vec<u8> = (32..=126).collect();
    for text in [".", "~ !", "}]", "[^a]", "[ -~]"] {
        answers(&all, 0, text);
    }
    answers(b"ab", 0, &format!("[{}]", "a".repeat(253)));
    answers(b"ab", 2, &format!("[{}]", "a".repeat(254)));
    answers(b"ab", 2, "");
    answer(3, "a\n \u{7f} *\t ((\u{1f} a{0}\0");
    assert_eq!(hold(b"ab", b"ab*", 4), 10);
    assert_eq!(hold(b"ab", b"a{128}", 0), 9);
}

#[test]
fn misplaced_signs() {
    answer(0, "a?? a{2}? a+?b (a) ((a|b)+)* a|b|a");
    answer(4, "* +a ? (*a) a|* a*** a??? a*+");
    answer(4, "a{1}{1} a*{1} a*?{1} a??* {1} a|{1}");
    answer(4, "{ a*{ ({x} () a() (|a) (a|) |a");
    answer(4, "a| a||b ) a) (a)) (a ( a|(b");
    answer(4, "^ a^ $ a$ ^a$ \\ a\\ \\a \\] \\} \\- (a\\");
}

#[test]
fn escaped_signs() {
    let signs = b"^.[$()|*+?{\\";
    for sign in signs.iter().map(|&sign| char::from(sign)) {
        assert_eq!(letters(signs, &format!("\\{sign}")), sign.to_string());
        answers(b"ab", 8, &format!("\\{sign}"));
    }
    assert_eq!(letters(b"]}-", "]}-"), "]}-");
}

#[test]
fn depth() {
    let nested = |open, close| format!("{}a{}", "(".repeat(open), ")".repeat(close));
    answer(0, &nested(16, 16));
    answer(0, &(nested(16, 16) + &nested(16, 16)));
    answer(4, &nested(16, 15));
    answer(4, &format!("*{}", nested(17, 17)));
    answer(5, &nested(17, 17));
    answer(5, &nested(17, 0));
}

#[test]
fn counts() {
    answer(0, "a{1} a{001} a{0,} a{000,1} a{0,127}");
    answer(0, "a{1,1} a{127,} (a*){63} (a{0,9}){14}");
    answer(6, "a{ a{1 a{1, a{1,2 a{} a{,} a{,2}");
    answer(6, "a{0} a{00} a{0,0} a{3,2} a{0001} a{1,0002}");
    answer(6, "a{256} a{256,} a{1,256} a{999} a{1,2,3}");
    answer(6, "a{b} a{-1} a{1,b} a{1(b}");
    answers(b"a ", 6, "a{ 1}");
    answers(b"a ", 6, "a{1, 2}");
    answer(9, "a{255} a{128,} a{1,128} (a{16}){8} [ab]{64}");
    answer(9, "((a{255}){255}){255} (a?){128} ((b|a)*){64,}");
}

/// Forms by hand: labels, first and last letters, arcs.
#[test]
fn openings() {
    let opens = |text: &str, expected: &[u32]| {
        answers(b"ab", 0, text);
        let mut form = vec![0; expected.len()];
        let length = kavurehy::compile(b"ab", text.as_bytes(), &mut form);
        assert_eq!(length, Ok(expected.len()), "{text}");
        assert_eq!(form, expected, "{text}");
    };
    let three = [0x10020003, 0x20000301, 0x20000201, 0x20000201];
    opens("a{1,3}", &[&three[..], &[0x30000102, 0x30000203]].concat());
    let two = [0x10020102, 0x20000301, 0x20000201, 0x30000102];
    opens("a{0,2}", &two);
    let plus = [0x10020002, 0x20000101, 0x20000201, 0x30000102, 0x30000202];
    opens("a{2,}", &plus);
    let stars = [0x10020102, 0x20000301, 0x20000301];
    let arcs = [0x30000101, 0x30000102, 0x30000202];
    opens("(a*){2}", &[&stars[..], &arcs].concat());
    let nested = [0x10020002, 0x20000301, 0x20000302];
    let arcs = [0x30000101, 0x30000102, 0x30000201, 0x30000202];
    opens("([ba]{1,}?)+", &[&nested[..], &arcs].concat());
    let choice = [0x10020003, 0x20000101, 0x20000102, 0x20000301];
    opens(
        "(a|b)?a",
        &[&choice[..], &[0x30000103, 0x30000203]].concat(),
    );
}

#[test]
fn leftmost_first() {
    answer(4, "*c a**c (|c) ^[b-a] a|)c *[ +{0}");
    answer(6, "a{0}c a{2,1}* a{0}( a{[b-a] a{0}{0}");
    answer(7, "[b-a]c [b-a]** [ a[b [c [c-a] [[.c.]]");
    answer(
        8,
        "c* c** (c c{0} [c]{0} [^ab] \\( ] } c[ (c{128} a{255}c -",
    );
}

/// Characters that mean something in brackets, and what brackets of them hold.
const CHARACTERS: &[u8] = b".-+]^[\\ab:";
const SETS: [(&str, &str); 27] = [
    ("[ab]", "ab"),
    ("[]a]", "]a"),
    ("[^]a]", ".-+^[\\b:"),
    ("[a-]", "-a"),
    ("[-a]", "-a"),
    ("[^-a]", ".+]^[\\b:"),
    ("[--]", "-"),
    ("[---]", "-"),
    ("[--b]", ".-]^[\\ab:"),
    ("[+--]", "-+"),
    ("[a-b-]", "-ab"),
    ("[]-a]", "]^a"),
    ("[A-[]", "["),
    ("[[-a]", "]^[\\a"),
    ("[\\]", "\\"),
    ("[\\a]", "\\a"),
    ("[a^]", "^a"),
    ("[^^]", ".-+][\\ab:"),
    ("[[]", "["),
    ("[.]", "."),
    ("[=:a]", "a:"),
    ("[:a:]", "a:"),
    ("[a[]", "[a"),
    ("[a-a]", "a"),
    ("[ -~]", ".-+]^[\\ab:"),
    ("[a]]", "a]"),
    ("[.-:]", ".:"),
];

#[test]
fn brackets() {
    for (text, expected) in SETS {
        assert_eq!(letters(CHARACTERS, text), expected, "{text}");
    }
    let no_brackets = "[ [^ [] [^] [a []a [a- [a-b [\\ [b-a] [a--] [a-b-b] [ab-a] [a-b--] \
        [^b-a] [a-b-:] []--a] [[.] [[=] [[:] [a[.] [A-[.] [^[:] [[=a=]] [[.-.]] [a[:]";
    answer_over(CHARACTERS, 7, no_brackets);
    answer_over(CHARACTERS, 8, "[c] [c-z] [=] [0-9]");
    answers(CHARACTERS, 8, "[^ -~]");
    answers(CHARACTERS, 19, "[[:a:]]");
}

/// A range goes by byte value, not by label.
#[test]
fn order_of_ranges() {
    assert_eq!(letters(b"cba", "[a-c]"), "cba");
    assert_eq!(letters(b"bca", "[a-b]"), "ba");
    answers(b"cba", 7, "[c-a]");
}
