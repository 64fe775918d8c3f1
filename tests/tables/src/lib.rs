//! Tables: what each line of a table comes to, beside what another program computed of it.
//!
//! A table is a folder with `stdin`, the lines, and `stdout`, what must come of them. No expected value was printed by what is tested.
#![cfg(test)]

mod catalogues;
mod connects;
mod device;
mod relations;
mod scripts;

/// The octets of hex digits; `-` for none.
fn octets(digits: &str) -> Vec<u8> {
    if digits == "-" {
        return Vec::new();
    }
    let digit = |place| u8::from_str_radix(&digits[place..place + 2], 16).expect("two hex digits");
    (0..digits.len()).step_by(2).map(digit).collect()
}

/// Octets in hex.
fn hex(octets: &[u8]) -> String {
    octets.iter().map(|octet| format!("{octet:02x}")).collect()
}

/// The text is the expected one. Names the first line that differs.
fn is_same(text: &str, expected: &str) {
    for (number, (line, wanted)) in text.lines().zip(expected.lines()).enumerate() {
        assert_eq!(line, wanted, "line {} of the output", number + 1);
    }
    assert_eq!(text.len(), expected.len(), "the length of the output");
}
