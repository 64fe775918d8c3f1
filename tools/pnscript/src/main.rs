//! The program `pnscript`, as it was proved: `pnscript run` plays a script, `pnscript plan` makes the plan of a catalogue.
#![forbid(unsafe_code)]
// Nothing calls a law.
#![allow(dead_code, unused_imports)]

include!(concat!(env!("OUT_DIR"), "/modules/modules.rs"));

fn main() -> std::process::ExitCode {
    pnscript::main()
}
