#!/usr/bin/env python3
"""Draws docs/sectors.svg: the two sectors of the flash, with base, gates and slots, at the places that `settings_journal` gives them.

Use: bench/figures/sectors.py [--check]   With --check it only compares; the status is 1 where the picture is another one.
"""

import glob
import os
import re
import sys

sys.path.insert(0, os.path.join(os.path.dirname(os.path.realpath(__file__)), "..", "..", "ci"))
from program import TOP, answer_help, refuse

PICTURE = os.path.join(TOP, "docs", "sectors.svg")
SECTOR, WIDTH, LEFT = 4096, 860, 20


def number_of(name):
    """A constant of the crate's sources."""
    folder = os.path.join(TOP, "crates", "settings_journal", "src")
    for file in sorted(glob.glob(os.path.join(folder, "**", "*.rt"), recursive=True)):
        with open(file, encoding="utf-8") as text:
            found = re.search(rf"\bconst {name}: \w+ = (0x[0-9A-Fa-f]+|[0-9]+);", text.read())
        if found:
            return int(found[1], 0)
    raise SystemExit(f"sectors.py: settings_journal has no constant {name}")


def picture():
    slots, slot = number_of("HEAD"), number_of("SLOT")
    parts = ['<svg xmlns="http://www.w3.org/2000/svg" width="900" height="300" font-family="sans-serif" font-size="12">',
             '<rect width="900" height="300" fill="white"/>']

    def box(top, start, end, fill, text):
        x, width = LEFT + WIDTH * start / SECTOR, WIDTH * (end - start) / SECTOR
        parts.append(f'<rect x="{x:.1f}" y="{top}" width="{width:.1f}" height="44" fill="{fill}" stroke="black"/>')
        parts.append(f'<text x="{x + width / 2:.1f}" y="{top + 27}" text-anchor="middle">{text}</text>')

    def sector(top, title, written):
        parts.append(f'<text x="{LEFT}" y="{top - 8}">{title}</text>')
        box(top, 0, slots, "#cfe3f7" if written is not None else "white", "base, gate")
        for place, start in enumerate(range(slots, SECTOR - slot + 1, slot)):
            fill = "#d9efd0" if written is not None and place < written else "white"
            box(top, start, start + slot, fill, f"{place + 1}" if written is None or place >= written else f"{place + 1} +gate")

    sector(40, "the active sector: its gate is open, generation g; settings are its base and the slots whose gates are open, in order", 5)
    sector(140, "the other one: erased, or older (generation g - 1); the next base goes here when no slot is left", None)
    for line, text in enumerate((
            f"A base (437 octets, its gate behind it) has all settings. From octet {slots} on stand slots of {slot} octets, each an entry and its gate.",
            "A gate is one octet that goes from FF to 00 by a call of its own, after what it stands behind is whole: only then it counts.",
            "A commit into a slot: program the slot, program its gate. Without a slot: erase the other sector, program the base, program its gate.")):
        parts.append(f'<text x="{LEFT}" y="{220 + 24 * line}">{text}</text>')
    return "\n".join([*parts, "</svg>", ""])


def main(words):
    answer_help(__doc__, words)
    if words not in ([], ["--check"]):
        return refuse(words)
    if words:
        with open(PICTURE, encoding="utf-8") as file:
            same = file.read() == picture()
        print("docs/sectors.svg is as it is drawn" if same else "docs/sectors.svg is another one: bench/figures/sectors.py draws it")
        return 0 if same else 1
    with open(PICTURE, "w", encoding="utf-8") as file:
        file.write(picture())
    return 0


if __name__ == "__main__":
    sys.exit(main(sys.argv[1:]))
