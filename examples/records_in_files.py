#!/usr/bin/env python3
"""Answers the records of a device from files: a Read sends the octets of a file, a Write stores octets in it.

    examples/records_in_files.py SOCKET FOLDER

SOCKET is that of `nandutable-device IFACE --flash FILE --socket SOCKET --record SLOT SUBSLOT INDEX LENGTH read|write|both`. The record with index
8192 of slot 1, subslot 1 is the file FOLDER/1.1.8192. A Read of a file that is missing is refused with 'read error' (ErrorCode1 0xA0), a Write that
cannot be stored with 'write error' (0xA1).

The device asks for one record at a time, by a line `asked`, and waits two seconds for the line that answers it.
"""

import os
import socket
import sys

READ_ERROR, WRITE_ERROR = 0xA0, 0xA1


def read(path):
    """The octets of a record as an answer has them; None if the file cannot be read."""
    try:
        with open(path, "rb") as file:
            return file.read().hex() or "-"
    except OSError:
        return None


def write(path, octets):
    """Stores a record. The file has the old octets or the new ones at any moment, also after a loss of power. Returns whether it was stored."""
    try:
        with open(path + ".new", "wb") as file:
            file.write(octets)
            file.flush()
            os.fsync(file.fileno())
        os.rename(path + ".new", path)
        store_names(os.path.dirname(path))
    except OSError:
        return False
    return True


def store_names(folder):
    """Returns when the names of the files of a folder are on the disk."""
    opened = os.open(folder, os.O_RDONLY)
    try:
        os.fsync(opened)
    finally:
        os.close(opened)


def answer_to(folder, words):
    """The line that answers what is asked: NUMBER SLOT SUBSLOT INDEX, and `read LENGTH` or `write HEX`."""
    number, slot, subslot, index, wanted, rest = words
    path = os.path.join(folder, f"{slot}.{subslot}.{index}")
    if wanted == "read":
        octets = read(path)
        return f"answer {number} {octets}" if octets is not None else f"refuse {number} {READ_ERROR} 0"
    is_stored = write(path, bytes.fromhex(rest.strip("-")))
    return f"answer {number}" if is_stored else f"refuse {number} {WRITE_ERROR} 0"


def main(path, folder):
    with socket.socket(socket.AF_UNIX) as device:
        device.connect(path)
        lines = device.makefile("rw", encoding="ascii", newline="\n")

        def say(line):
            print(line, file=lines, flush=True)
        say("asked")  # what was asked before this program was here
        number = None
        for line in lines:
            words = line.split()
            if words[0] == "asked" and len(words) == 7:
                number = words[1]
                say(answer_to(folder, words[1:]))
            elif line.startswith("note refused") and number is not None:
                # The file is longer than the record, or the question is over: then this is refused too, and that is all.
                say(f"refuse {number} {READ_ERROR} 1")
                number = None


if __name__ == "__main__":
    if len(sys.argv) != 3:
        sys.exit(__doc__)
    try:
        main(*sys.argv[1:])
    except KeyboardInterrupt:
        pass
