//! Makes the Rust of this package from the proved sources in crates/: contracts, proofs and specifications are left out.
//! tools/release/modules does it, in Python.

use std::env;
use std::path::PathBuf;
use std::process::{Command, Stdio};

/// Says why the build fails.
fn fail(why: &str) -> ! {
    println!("cargo::error={why}");
    std::process::exit(1)
}

fn main() {
    let package = PathBuf::from(env::var_os("CARGO_MANIFEST_DIR").unwrap());
    let made = PathBuf::from(env::var_os("OUT_DIR").unwrap()).join("modules");
    let is_program = env::var("CARGO_PKG_NAME").is_ok_and(|name| name == "pnscript");
    let top = package
        .ancestors()
        .find(|folder| folder.join("crates.txt").is_file());
    let Some(top) = top else {
        fail("no crates.txt above this package: it is built inside its repository");
    };
    let sources = top
        .join("crates")
        .read_dir()
        .into_iter()
        .flatten()
        .flatten();
    let sources = sources.map(|folder| folder.path().join("src"));
    for part in [top.join("crates.txt"), top.join("tools/release")]
        .into_iter()
        .chain(sources)
    {
        println!("cargo::rerun-if-changed={}", part.display());
    }
    println!("cargo::rerun-if-env-changed=PYTHON");
    let python = env::var("PYTHON").unwrap_or_else(|_| "python3".into());
    let mut command = Command::new(&python);
    command
        .arg("-B")
        .arg(top.join("tools/release/modules"))
        .arg(&made)
        .stdin(Stdio::null());
    if is_program {
        command.arg("--program");
    }
    match command.output() {
        Ok(ran) if ran.status.success() => (),
        Ok(ran) => {
            for line in String::from_utf8_lossy(&ran.stderr).lines() {
                println!("cargo::error={line}");
            }
            fail(&format!(
                "{python} did not make the Rust of this package from the proved sources; it takes Python 3.8 or later"
            ));
        }
        Err(_) => fail(&format!(
            "this package is made from the proved sources by Python 3, and there is no {python}: install it \
             (Debian: apt-get install python3), or name one in the environment variable PYTHON"
        )),
    }
}
