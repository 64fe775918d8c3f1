//! What the program prints of the lines of `stdin` is `stdout`, which another program computed.

use std::fs::{File, read_to_string};
use std::path::Path;
use std::process::Command;

#[test]
fn the_table_is_printed() {
    let folder = Path::new(env!("CARGO_MANIFEST_DIR"));
    let lines = File::open(folder.join("stdin")).expect("the lines");
    let ran = Command::new(env!("CARGO_BIN_EXE_table_world")).stdin(lines).output().expect("the program runs");
    assert!(ran.status.success(), "{}", ran.status);
    let printed = String::from_utf8(ran.stdout).expect("text");
    let wanted = read_to_string(folder.join("stdout")).expect("what is wanted");
    for (number, (line, expected)) in printed.lines().zip(wanted.lines()).enumerate() {
        assert_eq!(line, expected, "line {} of the output", number + 1);
    }
    assert_eq!(printed.len(), wanted.len(), "the length of the output");
}
