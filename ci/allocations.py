#!/usr/bin/env python3
"""Each allocation of the built program's run failing in turn, until none is left to fail.

The answer must be `pnscript: out of memory`, status 4 and a prefix of the output, or the unchanged output. The scripts
are the program's stored run and the examples; the catalogues are those of the examples, of which want of memory has to leave no
output. Needs a C compiler (cc) and the GNU C library.

Of `World::play` it is the run of a schedule by `table_world`, in calls of four moves beside a world that makes them one by one: where a
growth of either is refused, its world must be that of a prefix of the moves, and all goes on with memory; if it is another
allocation of the program, this ends and prints nothing.

Use: ci/allocations.py [PROGRAM]   (the proved one if left out). Prints a line for each of them, with how many allocations
were refused in turn; its status is 1 if an answer is wrong.
     ci/allocations.py --worlds [PROGRAM]   the same of a schedule alone, by the program of tests/table_world
"""

import glob
import os
import subprocess
import sys
import tempfile

from program import answer_help, bench, need, proved, refuse

HERE = os.path.dirname(os.path.realpath(__file__))
TOP = os.path.dirname(HERE)
CRATE = os.path.join(TOP, "crates", "pnscript")


def read(path):
    with open(path, "rb") as file:
        return file.read()


def run(program, word, text, environment):
    return subprocess.run([program, word], input=text, capture_output=True, env=environment)


def is_right(answer, word, whole):
    is_unchanged = (answer.returncode, answer.stdout, answer.stderr) == (0, whole, b"")
    is_refused = (answer.returncode, answer.stderr) == (4, b"pnscript: out of memory\n")
    is_front = whole.startswith(answer.stdout) if word == "run" else answer.stdout == b""
    return is_unchanged or (is_refused and is_front)


def fail_each(program, shim, mark, word, text, whole):
    """How many allocations were refused in turn, how many runs ended out of memory and how many answers were wrong."""
    refused = short = wrong = 0
    while True:
        environment = {"LD_PRELOAD": shim, "FAIL_ALLOC": str(refused + 1), "FAIL_MARK": mark}
        answer = run(program, word, text, environment)
        if not is_right(answer, word, whole):
            print(f"allocation {refused + 1}: status {answer.returncode}, {answer.stderr!r}, {answer.stdout[-80:]!r}")
            wrong += 1
        if not os.path.exists(mark):
            return refused, short, wrong
        os.remove(mark)
        refused += 1
        short += answer.returncode == 4


def make_shim(folder):
    """What refuses an allocation, and the file that it then writes."""
    shim, mark = os.path.join(folder, "fail_alloc.so"), os.path.join(folder, "mark")
    subprocess.run(["cc", "-O2", "-shared", "-fPIC", "-o", shim, os.path.join(HERE, "fail_alloc.c")], check=True)
    return shim, mark


def fail_worlds(program):
    """Each allocation of a schedule. Status 1 if an answer is wrong, or no growth of a world was refused."""
    plan = read(os.path.join(TOP, "tests", "table_world", "stdin")).splitlines()[0]
    schedule = plan + b"\ngrowths 1 2000\n"
    whole = subprocess.run([program], input=schedule, stdout=subprocess.PIPE).stdout
    refused = growths = ended = wrong = 0
    with tempfile.TemporaryDirectory() as folder:
        shim, mark = make_shim(folder)
        while True:
            environment = {"LD_PRELOAD": shim, "FAIL_ALLOC": str(refused + 1), "FAIL_MARK": mark}
            answer = subprocess.run([program], input=schedule, capture_output=True, env=environment)
            if not os.path.exists(mark):
                break
            os.remove(mark)
            refused += 1
            if answer.returncode == 0 and answer.stdout == whole:
                growths += answer.stderr == b"table_world: 1 growths refused\n"
            elif answer.returncode == 1 and answer.stdout == b"" or answer.stdout == b"no world\n":
                ended += 1
            else:
                print(f"allocation {refused}: status {answer.returncode}, {answer.stderr!r}, {answer.stdout[-80:]!r}")
                wrong += 1
    print(f"a schedule of both ends: {refused} allocations failed in turn: {growths} growths of a world, with the world of a front of the "
          f"moves, {ended} of the program itself, {wrong} wrong")
    return int(wrong != 0 or growths == 0 or b"make one world" not in whole)


def main(words):
    answer_help(__doc__, words)
    is_worlds = words[:1] == ["--worlds"]
    if len(words) > 1 + is_worlds or (words and words[0].startswith("--") and not is_worlds):
        return refuse(words)
    need("cc")
    if is_worlds:
        return fail_worlds(words[1] if words[1:] else bench("table_world", "table_world"))
    program = words[0] if words else proved()
    stored = read(os.path.join(CRATE, "stdin"))
    texts = [("the stored run", "run", stored, read(os.path.join(CRATE, "stdout")))]
    for path in sorted(glob.glob(os.path.join(TOP, "examples", "*.txt"))):
        texts.append((os.path.basename(path), "run", read(path), run(program, "run", read(path), {}).stdout))
    for path in sorted(glob.glob(os.path.join(TOP, "examples", "catalogue", "*.json"))):
        texts.append((os.path.basename(path), "plan", read(path), read(path[:-len("json")] + "layouts")))
    all_wrong = 0
    with tempfile.TemporaryDirectory() as folder:
        shim, mark = make_shim(folder)
        for title, word, text, whole in texts:
            refused, short, wrong = fail_each(program, shim, mark, word, text, whole)
            all_wrong += wrong
            print(f"{title}: {refused} allocations failed in turn: {short} out of memory, "
                  f"{refused - short - wrong} with the output unchanged, {wrong} wrong")
    return 1 if all_wrong else 0


sys.exit(main(sys.argv[1:]))
