// What a plain program does with the same script: decodes the hex of each line and writes it back in hex.
use std::io::{self, BufWriter, Read, Write};

fn value(digit: u8) -> Option<u8> {
    match digit {
        b'0'..=b'9' => Some(digit - b'0'),
        b'a'..=b'f' => Some(digit - b'a' + 10),
        b'A'..=b'F' => Some(digit - b'A' + 10),
        _ => None,
    }
}

fn main() -> io::Result<()> {
    let mut input = Vec::new();
    io::stdin().read_to_end(&mut input)?;
    let mut output = BufWriter::new(io::stdout().lock());
    let mut bytes = Vec::new();
    let mut text = Vec::new();
    for line in input.split(|byte| *byte == b'\n') {
        let Some(hex) = line.strip_prefix(b"frame ") else {
            continue;
        };
        bytes.clear();
        for pair in hex.chunks_exact(2) {
            if let (Some(high), Some(low)) = (value(pair[0]), value(pair[1])) {
                bytes.push(high * 16 + low);
            }
        }
        text.clear();
        text.extend_from_slice(b"out ");
        for byte in &bytes {
            text.push(b"0123456789abcdef"[usize::from(byte >> 4)]);
            text.push(b"0123456789abcdef"[usize::from(byte & 15)]);
        }
        text.push(b'\n');
        output.write_all(&text)?;
    }
    output.flush()
}
