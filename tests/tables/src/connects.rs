//! What becomes of a Connect. The first line has the blocks of one in hex, and so has each further line of one word. A line
//! `FROM TO HEX` is the last such Connect with other octets (`-` for none) in place of those from FROM up to TO. Three words
//! must come of each: the result without a relation, with a relation of the ARUUID that the last line of one word asks for, and
//! with another relation. Each word is `ok`, or a PNIOStatus in hex.
//!
//! The lines set each field of each block to 0, 1, its greatest value and past what is accepted; they leave out each block, put
//! it twice and elsewhere, and cut it at each length. `stdout` is computed by `ci/connect_table.py` from the rules alone,
//! by offsets; it shares no line with the crates.

use crate::{hex, is_same, octets};
use connects::{ConnectRequest, refuse};
use records::{CallFault, Operation};
use uuid::Uuid;

/// The Connect of an edit of another one.
fn edited(line: &str, base: &[u8]) -> Vec<u8> {
    let words: Vec<&str> = line.split(' ').collect();
    let [from, to, digits] = words[..] else {
        panic!("{line}: an edit has three words")
    };
    let place = |digits: &str| digits.parse::<usize>().expect("a place");
    [&base[..place(from)], &octets(digits), &base[place(to)..]].concat()
}

/// The ARUUID that a Connect asks for, as far as its octets go.
fn uuid_of(blocks: &[u8]) -> Uuid {
    let octets = blocks.get(8..24).and_then(|octets| octets.try_into().ok());
    octets.map_or(Uuid::nil(), Uuid::from_bytes)
}

/// The status of a Connect that is refused.
fn status(fault: CallFault) -> String {
    let status = fault.number(Operation::Connect);
    hex(&[status.code, status.decode, status.code1, status.code2])
}

/// The three words of a Connect, while a relation of this ARUUID may exist.
fn row(request: &mut ConnectRequest, blocks: &[u8], standing: &Uuid) -> String {
    let alone = match request.read(1, blocks) {
        Ok(()) => "ok".to_string(),
        Err(fault) => status(fault),
    };
    let same = status(refuse(standing, blocks));
    let other = status(refuse(&Uuid::nil(), blocks));
    format!("{alone} {same} {other}\n")
}

#[test]
fn each_connect_has_its_status() {
    let mut request = ConnectRequest::new();
    let mut base = Vec::new();
    let mut text = String::new();
    for line in include_str!("../connects/stdin").lines() {
        let blocks = if line.contains(' ') {
            edited(line, &base)
        } else {
            base = octets(line);
            base.clone()
        };
        text += &row(&mut request, &blocks, &uuid_of(&base));
    }
    is_same(&text, include_str!("../connects/stdout"));
}
