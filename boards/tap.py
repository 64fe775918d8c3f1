"""A board that QEMU plays, at a cable: a tap in a network namespace, whose other end the controller and the tools use."""

import json
import os
import shutil
import socket
import sys

BOARDS = os.path.dirname(os.path.realpath(__file__))
TOP = os.path.dirname(BOARDS)
HOST = os.path.join(TOP, "host")
sys.path[:0] = [os.path.join(HOST, "test"), os.path.join(BOARDS, "test")]

from board import make_flash
from wire import BUILD, SO_RCVBUFFORCE, TOOL, NoWire, Program, Wire, answer, command, drain

PLAN = os.path.join(BOARDS, "valve.json")
NAME = "valve-1"
TAP = "t0"
WIRE = f"tap,ifname={TAP},script=no,downscript=no"
# The words of QEMU for each board. The chip is the file chip.flash in the folder in which QEMU runs.
QEMU = {
    "mps2-an386": f"-M mps2-an386 -semihosting-config enable=on,target=native -nic {WIRE},model=lan9118",
    "vexpress-a9": f"-M vexpress-a9 -drive if=pflash,format=raw,file=chip.flash -nic {WIRE},model=lan9118",
}
# Boards whose chip is a NOR flash: a new file is erased at the sectors of the device.
NOR = {"vexpress-a9"}


def patient_plan(folder, hold=2000):
    """The plan with a data hold time of two seconds, or of this many intervals, as a file of this folder: QEMU may get no processor for a while on a busy
    machine."""
    with open(PLAN, encoding="utf-8") as file:
        plan = json.load(file)
    plan["Project"]["DataHoldFactor"] = hold
    path = os.path.join(folder, "plan.json")
    with open(path, "w", encoding="utf-8") as file:
        json.dump(plan, file)
    return path


class Cable(Wire):
    """A namespace with a tap: QEMU has one end of the cable, the interface of the tap is the other."""

    def __init__(self, tag="t"):
        super().__init__(tag)
        self.device = self.controller

    def __enter__(self):
        if os.geteuid() != 0:
            raise NoWire("this takes root")
        try:
            command("ip", "netns", "add", self.controller)
            self.made.append(self.controller)
            self.within(self.controller, "sh", "-c", "echo 1 > /proc/sys/net/ipv6/conf/default/disable_ipv6; :")
            command("ip", "-n", self.controller, "tuntap", "add", "dev", TAP, "mode", "tap")
            command("ip", "-n", self.controller, "link", "set", TAP, "address", TOOL.hex(":"), "up")
        except (NoWire, OSError) as fault:
            self.__exit__()
            raise NoWire(str(fault)) from None
        return self

    def socket(self, end=TAP):
        """A packet socket at the free end."""
        made = self.opened("c0", socket.AF_PACKET, socket.SOCK_RAW, socket.htons(3))
        made.setsockopt(socket.SOL_SOCKET, SO_RCVBUFFORCE, 4 << 20)
        made.bind((end, 3))
        return made


def answer_to(link, request, frame_id):
    """The answer to a DCP request, which is a function of its Xid; None without one. It is repeated: the kernel drops what is sent in the first moments
    after QEMU opened the tap."""
    drain(link)
    for xid in range(1, 6):
        came = answer(link, request(xid), frame_id, 2)
        if came is not None:
            return came
    return None


def is_there():
    """Why no board can be played here, or None."""
    for tool, package in (("qemu-system-arm", "qemu-system-arm"), ("ip", "iproute2")):
        if shutil.which(tool) is None:
            return f"{tool} is not installed (Debian: apt-get install {package})"
    return None


def is_real_time():
    """Whether programs may have a real-time priority here."""
    return shutil.which("chrt") is not None and os.system("chrt -f 2 true 2>/dev/null") == 0


def hurried(words, priority):
    """The words of a program with a real-time priority; 0 for none."""
    return ["chrt", "-f", str(priority), *words] if priority and is_real_time() else list(words)


class Board(Program):
    """QEMU with the firmware of a board. Its lines are those of its serial line, and what is said to it are keys."""

    def __init__(self, cable, board, folder, kind="", more="", priority=0):
        self.board, self.folder = board, folder
        chip = os.path.join(folder, "chip.flash")
        if board in NOR and not os.path.exists(chip):
            make_flash(chip)
        firmware = os.path.join(BOARDS, "build", board + kind, "firmware.elf")
        words = hurried(["qemu-system-arm", *QEMU[board].split(), "-display", "none", "-monitor", "none", "-serial", "stdio", "-kernel", firmware, *more.split()], priority)
        # Without this QEMU looks for a sound card, which takes longer than all else.
        super().__init__(cable, "d0", "-c", f"cd {folder} && exec " + " ".join(words), name="/bin/sh", environment={"QEMU_AUDIO_DRV": "none"})

    def counts(self):
        """What the firmware counted."""
        self.say("m")
        self.expect("turns ")
        found = {}
        with self.news:
            self.seen -= 1
        while "stack" not in found:
            name, number = self.expect(r"([a-z-]+) (\d+)$").groups()
            found[name] = int(number)
        return found


class Controller(Program):
    """nandutable-controller with the plan of the valve."""

    def __init__(self, cable, *more, plan=PLAN, priority=0):
        path = os.path.join(BUILD, "nandutable-controller")
        words = hurried([path, TAP, plan, *more], priority)
        super().__init__(cable, "c0", *words[1:], name=shutil.which(words[0]) or words[0])
