"""`nandutable`, or `python3 -m nandutable`: names, values and changes of a plant."""

from __future__ import annotations

import argparse
import difflib
import io
import json
import os
import signal
import sys
import time
from typing import Dict, List, Optional, Sequence, Tuple

from .commands import Raw
from .errors import Error, Gone, NoSuchName, NotStarted, Refused, TimedOut
from .plants import Plant, Reading, Station, plant
from .values import plain

EPILOG = """commands:
  values [NAME ..]        prints signals with their quality (the default)
  get NAME ..             the same, of these signals
  names                   prints the signals with direction, type, unit and text
  watch [NAME ..]         prints each change until it is ended (Ctrl-C), or for
                          --seconds
  set NAME VALUE          sets an output; VALUE is as in the line `set`: 12.5,
                          true, "a text", 00ff. With plans it returns when the
                          value was sent, and then the output is 0 again
  read STATION SLOT SUBSLOT INDEX        prints a record in hex
  write STATION SLOT SUBSLOT INDEX HEX   writes a record
  stations                prints each station: state, address, neighbours,
                          diagnosis
  snapshot                prints all that is known, as JSON

NAME is STATION.SIGNAL, or with one station SIGNAL alone. With plans a
controller is started on the interface, and ended at the end; that takes the
capability CAP_NET_RAW. With --socket a controller that runs already is used,
and goes on. Options are in front of the command. If a plan has the name of a
command, write -- in front of the command.

status: 0; 1 refused; 2 it does not run, or does not exchange data in time;
64 wrong words; 66 no such name

examples:
  nandutable --interface eth2 flow.json watch flow-7.slot2_flow
  nandutable --socket /run/nandutable-controller/eth2/lines
  nandutable --socket /run/nandutable-controller/eth2/lines set flow-7.slot4_valve_1 1"""

WITH_VALUE = ("-i", "--interface", "-s", "--socket", "--ready", "--seconds", "--retry", "--assign")
COMMANDS = {"values": (0, None), "get": (1, None), "names": (0, 0), "watch": (0, None), "set": (2, 2), "read": (4, 4), "write": (5, 5), "stations": (0, 0), "snapshot": (0, 0)}


PORTS = 3.0  # seconds within which the ports of the stations are read


class Parser(argparse.ArgumentParser):
    """Wrong words have the status 64."""

    def error(self, message: str) -> "None":  # type: ignore[override]
        print(f"{self.prog}: {message}; --help says what it takes", file=sys.stderr)
        raise SystemExit(64)


def parser() -> Parser:
    made = Parser(prog="nandutable", usage="%(prog)s --interface IFACE [options] PLAN.json .. [COMMAND ..]\n       %(prog)s --socket PATH [options] [COMMAND ..]", epilog=EPILOG,
                  description="Names, values and changes of a PROFINET plant.", formatter_class=lambda prog: argparse.RawDescriptionHelpFormatter(prog, width=80), allow_abbrev=False)
    made.add_argument("plans", nargs="*", metavar="PLAN.json", help="the plan of a station")
    made.add_argument("-i", "--interface", metavar="IFACE", help="starts a controller for the plans on this network interface")
    made.add_argument("-s", "--socket", metavar="PATH", help="uses the controller that has this socket")
    made.add_argument("--ready", metavar="SECONDS", type=float, default=30.0, help="how long to wait for the exchange of data (30)")
    made.add_argument("--seconds", metavar="SECONDS", type=float, help="ends `watch` after this time")
    made.add_argument("--retry", metavar="SECONDS", type=int, help="starts a relation that has ended again after this time")
    made.add_argument("--assign", metavar="MAC", help="first gives the station with this MAC address the name of the plan")
    made.add_argument("--json", action="store_true", help="`values`, `names` and `watch` print a JSON object for each signal, `stations` a list of stations")
    made.add_argument("--version", action="version", version="nandutable 0.1.0")
    return made


def shown(reading: Reading, as_json: bool) -> str:
    if as_json:
        return json.dumps({"name": reading.name, "value": plain(reading.value), "good": reading.good, "time": reading.time})
    return str(reading)


def chosen(plant: Plant, names: Sequence[str]) -> List[Reading]:
    """The signals of these names; of no names all."""
    if not names:
        return [reading for station in plant for reading in station]
    return [one(plant, name) for name in names]


def one(plant: Plant, name: str) -> Reading:
    """The signal of this name, STATION.SIGNAL, or with one station SIGNAL alone."""
    station, dot, signal_name = name.rpartition(".")
    if not dot and len(plant) == 1:
        station = next(iter(plant)).name
    elif station not in plant:
        near = difflib.get_close_matches(name, plant.state.signal_names(), 3) or [full for full in plant.state.signal_names() if full.rpartition(".")[2] == signal_name][:3]
        raise NoSuchName(f"there is no signal {name!r}" + (f"; the nearest: {', '.join(near)}" if near else f"; a name is STATION.SIGNAL, of {', '.join(found.name for found in plant)}"))
    return plant[station].signal(signal_name)


def set_one(plant: Plant, name: str, value: str, is_alone: bool) -> None:
    """Sets an output. With a controller that ends with this program the value is sent before."""
    full = one(plant, name).name
    plant.commands.set(full, Raw(value))
    if is_alone:
        plant.commands.sent(full.rpartition(".")[0])
        print(f"{full} was sent. The relation ends with this command, and the output is 0 again; a controller with --socket keeps it")


def watch(plant: Plant, names: Sequence[str], as_json: bool, seconds: Optional[float]) -> None:
    wanted = {reading.name for reading in chosen(plant, names)}
    changes = plant.state.subscribe()
    for reading in chosen(plant, names):
        print(shown(reading, as_json), flush=True)
    ends = None if seconds is None else time.monotonic() + seconds
    while ends is None or time.monotonic() < ends:
        for change in changes.take(0.2):
            if change.kind == "signal" and change.key in wanted:
                print(shown(plant[change.data["station"]].signal(change.data["signal"]), as_json), flush=True)
            elif change.kind in ("alarm", "message") and not as_json:
                print(f"{change.data['station'] or ''} {change.data.get('kind', 'alarm')}: {change.data['text']}".strip(), flush=True)
        if not plant.running:
            raise Gone(plant.connection.reason(), plant.connection.status)


def names(plant: Plant, as_json: bool) -> None:
    for reading in chosen(plant, ()):
        if as_json:
            print(json.dumps({"name": reading.name, "direction": reading.direction, "type": reading.type, "unit": reading.unit, "text": reading.text}))
            continue
        print(f"{reading.name:40} {reading.direction:6} {reading.type:20} {reading.unit:8} {reading.text}".rstrip())


def of_station(station: Station) -> Dict[str, object]:
    """A station as JSON has it."""
    info = station.info
    return {"name": station.name, "state": station.state, **{key: info[key] for key in ("mac", "address", "received", "lost", "ports", "diagnosis")}}


def stations(plant: Plant, as_json: bool) -> None:
    ends = time.monotonic() + PORTS
    while time.monotonic() < ends and any(station.state == "exchanging" and not station.info["ports"] for station in plant):
        time.sleep(0.05)
    if as_json:
        print(json.dumps([of_station(station) for station in plant], indent=1))
        return
    for station in plant:
        info = station.info
        print(f"{station.name}  {station.state}  {info['mac'] or '-'}  {info['address']}  {info['received']} frames, {info['lost']} lost")
        for port in info["ports"]:
            peers = ", ".join(f"'{peer['port']}' of '{peer['station']}'" for peer in port["peers"]) or "nobody"
            print(f"    port '{port['name']}' to {peers}")
        for one in station.diagnosis:
            print(f"    diagnosis slot {one.slot} subslot {one.subslot} channel {one.channel}: {one.text}")


def numbers(words: Sequence[str]) -> List[int]:
    try:
        return [int(word, 0) for word in words]
    except ValueError:
        raise Refused(f"slot, subslot and index are numbers: {' '.join(words)}") from None


def act(plant: Plant, command: str, words: List[str], options: argparse.Namespace) -> None:
    if command in ("values", "get"):
        for reading in chosen(plant, words):
            print(shown(reading, options.json))
    elif command == "names":
        names(plant, options.json)
    elif command == "watch":
        watch(plant, words, options.json, options.seconds)
    elif command == "set":
        set_one(plant, words[0], words[1], options.socket is None)
    elif command == "read":
        print(plant[words[0]].read(*numbers(words[1:])).hex() or "-")
    elif command == "write":
        slot, subslot, index = numbers(words[1:4])
        plant[words[0]].write(slot, subslot, index, bytes.fromhex(words[4].replace("-", "")))
    elif command == "stations":
        stations(plant, options.json)
    else:
        print(json.dumps(plant.state.snapshot(), indent=1))


def parted(words: List[str]) -> Tuple[List[str], List[str]]:
    """The options and plans, and the command: from the first word on that is the name of one, or after `--`."""
    at = 0
    while at < len(words):
        if words[at] == "--":
            return words[:at], words[at + 1:] or ["values"]
        if words[at] in COMMANDS:
            return words[:at], words[at:]
        at += 2 if words[at] in WITH_VALUE else 1
    return words, ["values"]


def no_command(word: str) -> str:
    near = difflib.get_close_matches(word, COMMANDS, 1)
    return f"no command '{word}'" + (f"; did you mean {near[0]}?" if near else "")


def refuse_plan(made: Parser, word: str, is_socket: bool) -> None:
    """Refuses a word in front of the command that is neither a plan nor a command."""
    if is_socket and not word.endswith(".json"):
        made.error(no_command(word))
    if not is_socket and not os.path.exists(word) and difflib.get_close_matches(word, COMMANDS, 1):
        made.error(f"{no_command(word)} There is no plan of this name either")


def main(words: Optional[Sequence[str]] = None) -> int:
    for stream in (sys.stdout, sys.stderr):
        if isinstance(stream, io.TextIOWrapper):
            stream.reconfigure(errors="backslashreplace")  # a letter that the output lacks ends no `watch`
    words = list(sys.argv[1:] if words is None else words)
    front, command = parted(words)
    made = parser()
    options = made.parse_args(front)
    for word in options.plans:
        refuse_plan(made, word, options.socket is not None)
    if (options.socket is None) == (options.interface is None) or (options.socket is None) == (not options.plans):
        made.error("name --interface and plans, or --socket alone")
    if options.assign is not None and (options.interface is None or len(options.plans) > 1):
        made.error("--assign takes --interface and one plan")
    if command[0] not in COMMANDS:
        made.error(no_command(command[0]))
    least, most = COMMANDS[command[0]]
    if len(command) - 1 < least or (most is not None and len(command) - 1 > most):
        made.error(f"'{command[0]}' takes other words")
    signal.signal(signal.SIGTERM, lambda *_: sys.exit(143))  # so that the controller is ended then too
    try:
        with plant(*options.plans, interface=options.interface, socket=options.socket, ready=options.ready, retry=options.retry,
                   options=() if options.assign is None else ("--assign", options.assign)) as opened:
            act(opened, command[0], command[1:], options)
    except KeyboardInterrupt:
        return 0
    except NoSuchName as fault:
        return said(fault, 66)
    except NotStarted as fault:
        return said(fault, fault.status or 2)
    except (Gone, TimedOut, OSError) as fault:
        return said(fault, 2)
    except (Error, ValueError) as fault:
        return said(fault, 1)
    return 0


def said(fault: BaseException, status: int) -> int:
    print(f"nandutable: {fault}", file=sys.stderr)
    return status


if __name__ == "__main__":
    sys.exit(main())
