//! The twelve classes of characters as POSIX.1-2024 has them for the POSIX locale (Base Definitions, 7.3.1): some by their
//! characters, some by other classes.

/// Which bytes a class has, by its name; none if no class has that name.
pub fn class(name: &[u8]) -> Option<fn(u8) -> bool> {
    Some(match name {
        b"upper" => upper,
        b"lower" => lower,
        b"alpha" => alpha,
        b"digit" => digit,
        b"alnum" => alnum,
        b"space" => space,
        b"cntrl" => cntrl,
        b"punct" => punct,
        b"graph" => graph,
        b"print" => print,
        b"xdigit" => xdigit,
        b"blank" => blank,
        _ => return None,
    })
}

fn upper(c: u8) -> bool {
    c.is_ascii_uppercase()
}

fn lower(c: u8) -> bool {
    c.is_ascii_lowercase()
}

/// Upper and lower.
fn alpha(c: u8) -> bool {
    upper(c) || lower(c)
}

fn digit(c: u8) -> bool {
    c.is_ascii_digit()
}

/// Alpha and digit.
fn alnum(c: u8) -> bool {
    alpha(c) || digit(c)
}

/// Space, form-feed, newline, carriage-return, tab and vertical-tab.
fn space(c: u8) -> bool {
    b" \x0c\n\r\t\x0b".contains(&c)
}

fn cntrl(c: u8) -> bool {
    c.is_ascii_control()
}

/// The ASCII characters that are neither the space nor in alpha, digit or cntrl.
fn punct(c: u8) -> bool {
    c.is_ascii() && c != b' ' && !alnum(c) && !cntrl(c)
}

/// Alpha, digit and punct.
fn graph(c: u8) -> bool {
    alnum(c) || punct(c)
}

/// Graph and the space.
fn print(c: u8) -> bool {
    graph(c) || c == b' '
}

/// The digits, A to F and a to f.
fn xdigit(c: u8) -> bool {
    digit(c) || (b'a'..=b'f').contains(&c.to_ascii_lowercase())
}

/// Space and tab.
fn blank(c: u8) -> bool {
    b" \t".contains(&c)
}
