//! What the tests of cases share: files of the repository, bytes that a person can read, and texts compared.

pub const ROOT: &str = concat!(env!("CARGO_MANIFEST_DIR"), "/../");

pub fn file(name: &str) -> String {
    std::fs::read_to_string(ROOT.to_string() + name).expect(name)
}

/// Two hexadecimal digits.
fn byte(word: &str) -> Option<u8> {
    let digit = |glyph: char| glyph.is_ascii_digit() || ('A'..='F').contains(&glyph);
    let sound = word.len() == 2 && word.chars().all(digit);
    u8::from_str_radix(word, 16).ok().filter(|_| sound)
}

/// The bytes that a text names, each after a blank: HH, or HH*N for N times that byte.
pub fn bytes(text: &str) -> Option<Vec<u8>> {
    if !text.is_empty() && !text.starts_with(' ') {
        return None;
    }
    let mut bytes = Vec::new();
    for word in text.split_ascii_whitespace() {
        let (digits, times) = word.split_once('*').unwrap_or((word, "1"));
        bytes.resize(bytes.len() + times.parse::<usize>().ok()?, byte(digits)?);
    }
    Some(bytes)
}

/// Compares line by line, so that a failure shows the first line that differs.
pub fn same(answers: &str, expected: &str) {
    for (number, (answer, expected)) in answers.lines().zip(expected.lines()).enumerate() {
        assert_eq!(answer, expected, "line {}", number + 1);
    }
    assert_eq!(answers, expected);
}
