#!/usr/bin/env python3
"""Prints the path of the proved program; its status is 1 where that is missing or older than the sources.

The launcher knows whether it is made from the sources as they are. The other tools import this file for it, and for how
they answer `--help`, words that they do not know, and what is not installed.
Use: ci/program.py
"""

import importlib.machinery
import importlib.util
import os
import shutil
import subprocess
import sys

TOP = os.path.dirname(os.path.dirname(os.path.realpath(__file__)))

# Debian's package of what a tool calls, where its name is another one.
PACKAGES = {"cc": "gcc", "ip": "iproute2", "lldpcli": "lldpd", "objdump": "binutils", "text2pcap": "tshark"}

# Toolchains whose `rt ci` takes no names of crates and keeps nothing of what it proved.
WITHOUT_NAMES = ("rattle-kit-13b",)


def takes_names():
    """Whether `rt ci NAME..` proves these crates and tries their mutants. If not, `rt check` and `rt lib` in a crate's folder prove it and
    keep it, and `rt must-fail NAME..` tries its mutants."""
    version = subprocess.run(["rt", "version"], stdout=subprocess.PIPE, text=True).stdout.split()
    return version[:1] != [] and version[0] not in WITHOUT_NAMES


def launcher():
    """The launcher of the repository, as a module."""
    loader = importlib.machinery.SourceFileLoader("launcher", os.path.join(TOP, "pnscript"))
    module = importlib.util.module_from_spec(importlib.util.spec_from_loader("launcher", loader))
    loader.exec_module(module)
    return module


def proved():
    """The path of the proved program. Ends with status 1 where it is missing or older than the sources."""
    known = launcher()
    if known.kept() != "proved":
        raise SystemExit(f"{name()}: the proved program is missing or older than the sources: ./pnscript prove makes it")
    return known.PROGRAM


def bench(program, package="test_benches"):
    """The path of a program of tests/, which is ordinary Rust. Ends with status 1 if it is not built."""
    path = os.path.join(TOP, "out", "plain-rust", "target", "release", program)
    if not os.path.exists(path):
        raise SystemExit(f"{name()}: {program} is not built: run tools/release/plain-rust, then `cargo build --release -p {package}` in out/plain-rust")
    return path


def name():
    """The name of the tool that runs."""
    return os.path.basename(sys.argv[0])


def answer_help(text, words):
    """Prints what a tool says of itself and ends it, where that is asked for."""
    if words[:1] in (["--help"], ["-h"]):
        print(text.strip())
        raise SystemExit(0)


def refuse(words):
    """Says that a tool does not know these words. Gives its status."""
    print(f"{name()}: it has no use for '{' '.join(words)}'; {name()} --help tells what it takes", file=sys.stderr)
    return 64


def need(*tools):
    """Ends with a sentence where one of these is not installed."""
    lacking = [tool for tool in tools if shutil.which(tool) is None]
    if lacking:
        packages = " ".join(sorted({PACKAGES.get(tool, tool) for tool in lacking} - {"rt"}))
        way = f" (Debian: apt-get install {packages})" if packages else ""
        raise SystemExit(f"{name()}: {' and '.join(lacking)} is not on the PATH{way}")


def main(words):
    answer_help(__doc__, words)
    if words:
        return refuse(words)
    print(proved())
    return 0


if __name__ == "__main__":
    sys.exit(main(sys.argv[1:]))
