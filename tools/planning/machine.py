"""What a machine needs to build the program with cargo: how it is set up, what cargo lacks if it failed for that, and how cargo is run.

The launcher, `tests/run`, host/Makefile and the gate use this file. README shows the same lines. As a program it prints them: its words are the
name of who asks, and what is lacking.
"""

import os
import re
import shutil
import subprocess
import sys

# Cargo's crates, by the names of Debian's packages without their `librust-` and `-dev`. (Debian 13 has two of thiserror.)
CRATES = ("arrayvec", "byteorder", "clap", "hex", "itoa", "memchr", "serde-json", "thiserror-1", "uuid")
OLDEST = "1.88"
# Where Debian's packages put them.
DEBIAN_CRATES = "/usr/share/cargo/registry"
# Debian's packages of cargo: their names and the file that says which Debian this is.
RELEASE = "/etc/os-release"

# What sets a fresh machine up, in one line each.
DEBIAN = f"apt-get update && apt-get install -y git python3 cargo-web librust-{{{','.join(CRATES)}}}-dev"
RUSTUP = "rustup toolchain install stable"
SET_UP = (f"Debian 12 or 13, as root and in bash:  {DEBIAN}", f"a machine with rustup and gcc:         {RUSTUP}    (cargo then fetches the crates)")
# Debian 12 has a cargo that is new enough in its security archive alone.
SECURITY = "echo deb http://deb.debian.org/debian-security bookworm-security main > /etc/apt/sources.list.d/security.list"

# What cargo or rustc prints if something is not there, and what that is.
FETCHED = r"failed to get `([^`]+)` as a dependency"
OLD = "Rust {} is too old: it takes " + OLDEST + " or later"
LACKS = (
    (r"no matching package named `([^`]+)` found", "cargo finds no crate '{}'"),
    (r"failed to select a version for the requirement `([^`]+)`", "cargo finds no crate with '{}'"),
    (FETCHED, "cargo cannot fetch the crate '{}'"),
    (r"failed to download(?: from)? `([^`]+)`", "cargo cannot fetch '{}'"),
    (r"linker `([^`]+)` not found", "the linker '{}', which comes with gcc, is not installed"),
    (r"rustc (\S+) is not supported by", OLD),
    (r"requires rustc (\S+) or newer", "Rust is too old: it takes {} or later"),
    (r"feature `(edition2024)` is required|this version of Cargo is older than the `(2024)` edition", f"cargo is too old: it takes Rust {OLDEST} or later"),
    (r"rustup could not choose a version of (\S+) to run", "rustup has no toolchain, so there is no {}"),
)


def crates_of_debian(folder=DEBIAN_CRATES):
    """Which of cargo's crates Debian's packages have installed."""
    names = os.listdir(folder) if os.path.isdir(folder) else []
    there = {name.rpartition("-")[0] for name in names}
    # Another one is thiserror 2.
    if not any(name.startswith("thiserror-1.") for name in names):
        there.discard("thiserror")
    return there


def packages_that_lack(folder=DEBIAN_CRATES):
    """Debian's packages of crates that are not installed, if some are."""
    there = crates_of_debian(folder)
    wanted = {crate: crate.removesuffix("-1").replace("-", "_") for crate in CRATES}
    lacking = [crate for crate, name in wanted.items() if name not in there]
    return [f"librust-{crate}-dev" for crate in lacking] if len(lacking) < len(CRATES) else []


def lack_in(printed, folder=DEBIAN_CRATES):
    """What cargo lacks by what it printed, in a sentence; None if it failed for another reason."""
    for pattern, said in LACKS:
        found = re.search(pattern, printed)
        if not found:
            continue
        # Cargo names the first crate that it would fetch, whichever is not there.
        packages = packages_that_lack(folder) if pattern == FETCHED else []
        if packages:
            return f"{' and '.join(packages)} {'is' if len(packages) == 1 else 'are'} not installed, and cargo cannot fetch crates"
        return said.format(found[1])
    return None


def is_debian_12():
    try:
        with open(RELEASE, encoding="utf-8") as file:
            return "VERSION_CODENAME=bookworm" in file.read().splitlines()
    except OSError:
        return False


def how(lack="", is_old_debian=None):
    """The lines that set a machine up, each a command for another kind of machine. If Rust is too old on Debian 12, the line that gets a newer
    one comes first: the others were followed already."""
    is_old_debian = is_debian_12() if is_old_debian is None else is_old_debian
    lines = SET_UP
    if "too old" in lack and is_old_debian:
        lines = (f"Debian 12 has a newer one in its security archive alone:  {SECURITY}", "and then once more:                                       " + DEBIAN, SET_UP[1])
    return "".join(f"\n    {line}" for line in lines)


def tell(name, lack):
    print(f"{name}: {lack}; this sets a machine up:{how(lack)}", file=sys.stderr, flush=True)


def cargo():
    """The path of cargo: on the PATH, or where rustup puts it. Or None."""
    return shutil.which("cargo") or shutil.which("cargo", path=os.path.expanduser("~/.cargo/bin"))


def run_cargo(words, folder, **more):
    """Runs cargo. On a terminal one sees its progress as cargo shows it; elsewhere it is quiet. Gives its status and what it printed."""
    is_shown = sys.stderr.isatty()
    environment = {**os.environ, **more}
    if is_shown:
        environment.update(CARGO_TERM_PROGRESS_WHEN="always", CARGO_TERM_PROGRESS_WIDTH=str(shutil.get_terminal_size().columns))
        environment.setdefault("CARGO_TERM_COLOR", "always")
    command = [*words[:2], *([] if is_shown else ["--quiet"]), *words[2:]]
    printed = []
    with subprocess.Popen(command, cwd=folder, env=environment, stdin=subprocess.DEVNULL, stdout=subprocess.PIPE, stderr=subprocess.STDOUT) as ran:
        while part := os.read(ran.stdout.fileno(), 65_536):
            printed.append(part)
            if is_shown:
                sys.stderr.buffer.write(part)
                sys.stderr.buffer.flush()
    return ran.returncode, b"".join(printed), is_shown


def plain(printed):
    """What cargo printed, without colours."""
    return re.sub(r"\x1b\[[0-9;]*[A-Za-z]", "", printed.decode("utf-8", "replace"))


if __name__ == "__main__":
    tell(*sys.argv[1:3])
