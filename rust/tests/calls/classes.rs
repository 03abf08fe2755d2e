//! Classes of characters in brackets, with what they hold and their refusals written by hand: the model and Compile must both answer so.
use crate::compile::hold;
use crate::texts::{answer, answer_over, answers, letters};

/// The classes, and the members of each among the bytes 32 to 126.
const CLASSES: [(&str, &str); 12] = [
    (
        "alnum",
        "0123456789ABCDEFGHIJKLMNOPQRSTUVWXYZabcdefghijklmnopqrstuvwxyz",
    ),
    (
        "alpha",
        "ABCDEFGHIJKLMNOPQRSTUVWXYZabcdefghijklmnopqrstuvwxyz",
    ),
    ("blank", " "),
    ("cntrl", ""),
    ("digit", "0123456789"),
    (
        "graph",
        "!\"#$%&'()*+,-./0123456789:;<=>?@ABCDEFGHIJKLMNOPQRSTUVWXYZ[\\]^_`abcdefghijklmnopqrstuvwxyz{|}~",
    ),
    ("lower", "abcdefghijklmnopqrstuvwxyz"),
    (
        "print",
        " !\"#$%&'()*+,-./0123456789:;<=>?@ABCDEFGHIJKLMNOPQRSTUVWXYZ[\\]^_`abcdefghijklmnopqrstuvwxyz{|}~",
    ),
    ("punct", "!\"#$%&'()*+,-./:;<=>?@[\\]^_`{|}~"),
    ("space", " "),
    ("upper", "ABCDEFGHIJKLMNOPQRSTUVWXYZ"),
    ("xdigit", "0123456789ABCDEFabcdef"),
];

/// Each class and its complement over all 95 bytes; 8 if there is no member.
#[test]
fn members_of_classes() {
    let all: Vec<u8> = (32..=126).collect();
    let has = |text: &str, members: &str| match members {
        "" => answers(&all, 8, text),
        _ => assert_eq!(letters(&all, text), members, "{text}"),
    };
    for (name, members) in CLASSES {
        let others: String = (' '..='~').filter(|c| !members.contains(*c)).collect();
        has(&format!("[[:{name}:]]"), members);
        has(&format!("[^[:{name}:]]"), &others);
    }
}

/// Characters that mean something beside classes, and what brackets with classes hold; some have an ordinary `]` after them.
const BESIDE_CLASSES: &[u8] = b"+-.:=A[]\\`ab}";
const SETS_WITH_CLASSES: [(&str, &str); 28] = [
    ("[[:alpha:]]", "Aab"),
    ("[[:lower:]]", "ab"),
    ("[[:xdigit:]]", "Aab"),
    ("[[:punct:]]", "+-.:=[]\\`}"),
    ("[[:graph:]]", "+-.:=A[]\\`ab}"),
    ("[^[:alpha:]]", "+-.:=[]\\`}"),
    ("[^[:punct:]b]", "Aa"),
    ("[^[:cntrl:]]", "+-.:=A[]\\`ab}"),
    ("[[:cntrl:][:digit:]a]", "a"),
    ("[[:upper:][:lower:]]", "Aab"),
    ("[[:upper:][:upper:]A]", "A"),
    ("[-[:alpha:]+]", "+-Aab"),
    ("[-[:upper:]]", "-A"),
    ("[[:upper:]-]", "-A"),
    ("[^-[:alpha:]-]", "+.:=[]\\`}"),
    ("[a-b[:upper:]]", "Aab"),
    ("[[:upper:]a-b]", "Aab"),
    ("[A-[[:lower:]]", "A[ab"),
    ("[]-a[:upper:]]", "A]`a"),
    ("[][:alpha:]]", "A]ab"),
    ("[^][:alnum:]]", "+-.:=[\\`}"),
    ("[[[:upper:]]", "A["),
    ("[[:upper:][]", "A["),
    ("[[:upper:]]]", "A]"),
    ("[[:alpha:]:]]", ":Aab]"),
    ("[[:alpha:]=.]", ".=Aab"),
    ("[:alpha:]", ":a"),
    ("[:alpha:[:upper:]]", ":Aa"),
];

#[test]
fn classes() {
    for (text, expected) in SETS_WITH_CLASSES {
        assert_eq!(letters(BESIDE_CLASSES, text), expected, "{text}");
    }
    assert_eq!(letters(b"b1aB", "[[:alpha:]]"), "baB");
    assert_eq!(letters(b"b1aB", "[[:digit:]b]"), "b1");
    assert_eq!(letters(b" b", "[[:blank:]]"), " ");
    assert_eq!(letters(b"~ ", "[[:print:]][[:space:]]"), "~  ");
    answer(0, "[[:alpha:]]{63} [[:alpha:]]*? ([^[:digit:]]|a)+");
    answer(
        8,
        "[[:digit:]] [[:upper:][:cntrl:]] [^[:lower:]] a[[:punct:]]",
    );
    answer(9, "[[:alpha:]]{64}");
    let foreign = "[[:digit:]] [[:digit:]c] [[:cntrl:]] [[:space:][:blank:]] [^[:print:]] [^[:alnum:][:punct:]]";
    answer_over(BESIDE_CLASSES, 8, foreign);
}

/// A class that is not closed or is at a range's end, a misplaced `-`, and `[.` or `[=` in or beside a name; also where a name is
/// unknown.
#[test]
fn classes_in_no_bracket() {
    let unclosed =
        "[[: [[:] [[:]] [[:: [[:a [[:alpha] [[:alpha: [[:alpha:] [[:alpha:a]] [[:alpha]:] [^[:alpha:] \
        [][:alpha:] [[:alpha:][:] [[:alpha:][:alpha] [[:x:][:] [[:x:] [[:alpha:a]b] [a[:";
    let hyphens = "[a-[:alpha:]] [a-[:x:]] [a-[:]] [--[:digit:]] [^--[:digit:]] [+-[:digit:]-] \
        [[:alpha:]-a] [[:x:]-a] [[:alpha:]--] [[:alpha:]--a] [[:alpha:]-[:digit:]] [-[:alpha:]-a] [a[:alpha:]-b]";
    let others = "[[:x:]b-a] [b-a[:x:]] [[:a[.:]] [[:[.:]] [[:[=:]] [[:x:][=a] [[:alpha:][.] [[.[:alpha:]] [[:alpha[=:]]";
    for texts in [unclosed, hyphens, others] {
        answer_over(BESIDE_CLASSES, 7, texts);
    }
}

#[test]
fn unknown_classes() {
    let names = "[[:a:]] [[::]] [[:::]] [[:x:]] [[:alph:]] [[:alphas:]] [[:lpha:]] [[:ALPHA:]] [^[:Alpha:]] [[:^alpha:]]";
    let signs = "[[:a]b:]] [[:]:]] [[:a[:]] [[:[:alpha:]] [[:a:a:]] [[:b-a:]] [[:-:]] [[:alpha.:]] [[:a[b:]]";
    let beside = "[a[:alpha:][:x:]] [[:x:]c] [c[:x:]] [^c[:x:]] [-[:x:]] [[:x:]-] [][:x:]] [[[:x:]] [[:x:]]] [[:x:]a-b]";
    let far = "[[:x]|[[:alpha:]] ([[:x])|a[[:alpha:]] [[:x]**[b-a][[:alpha:]]";
    for texts in [names, signs, beside, far] {
        answer_over(BESIDE_CLASSES, 19, texts);
    }
    answers(BESIDE_CLASSES, 19, "[[:alpha :]]");
    answers(BESIDE_CLASSES, 19, "[[: alpha:]]");
    answers(b"ab", 19, &format!("[[:{}:]]", "a".repeat(249)));
    answers(b"ab", 2, &format!("[[:{}:]]", "a".repeat(250)));
}

/// 19 among 4 to 8 by its place; before 9 and 10, after 1 to 3.
#[test]
fn place_of_unknown_classes() {
    answer(4, "*[[:x:]] )[[:x:]] a|*[[:x:]] ^[[:x:]]");
    answer(6, "a{0}[[:x:]] a{[[:x:]]");
    answer(7, "[b-a][[:x:]] [[:a:]b-a][[:x:]]");
    answer(8, "c[[:x:]] [c][[:x:]] [[:digit:]][[:x:]]");
    answer(
        19,
        "[[:x:]]c [[:x:]][[:digit:]] [[:x:]][b-a] [[:x:]]** [[:x:]]{0} [[:x:]]{ a[[:x:]])",
    );
    answer(19, "([[:x:]] [[:x:]]| [[:x:]]() [[:x:]]{128} a{128}[[:x:]]");
    answer(19, &format!("{}[[:x:]]", "(".repeat(16)));
    answer(5, &format!("{}[[:x:]]", "(".repeat(17)));
    answer(3, "[[:x:]]\n");
    answers(b"a\x7f", 1, "[[:x:]]");
    assert_eq!(hold(b"ab", b"[[:x:]]", 0), 19);
}
