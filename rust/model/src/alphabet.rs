//! Labels and characters: label x has the character at place x of the alphabet, and a character may be at several places.

/// A byte that a character may be.
pub fn is_character(byte: u8) -> bool {
    (32..=126).contains(&byte)
}

/// 1 to 95 characters; anything else is refusal 1.
pub fn is_alphabet(bytes: &[u8]) -> bool {
    (1..=95).contains(&bytes.len()) && bytes.iter().all(|&b| is_character(b))
}

/// The labels of these characters, ascending.
pub fn labels_of(alphabet: &[u8], characters: &[u8]) -> Vec<u8> {
    let places = (1..).zip(alphabet);
    let found = places.filter(|(_, c)| characters.contains(c));
    found.map(|(x, _)| x).collect()
}

/// The characters of a word of labels.
pub fn characters_of(alphabet: &[u8], word: &[u8]) -> Vec<u8> {
    let character = |&x: &u8| alphabet[usize::from(x) - 1];
    word.iter().map(character).collect()
}

/// The characters inside that have a label, ascending; 8 if there is none.
pub fn labelled(alphabet: &[u8], inside: impl Fn(u8) -> bool) -> Result<Vec<u8>, u32> {
    let has = |c: &u8| inside(*c) && alphabet.contains(c);
    let characters: Vec<u8> = (32..=126).filter(has).collect();
    if characters.is_empty() {
        return Err(8);
    }
    Ok(characters)
}
