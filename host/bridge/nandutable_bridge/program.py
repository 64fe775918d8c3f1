"""The program: its options, its page, its end."""

from __future__ import annotations

import argparse
import os
import signal
import ssl
import stat
import sys
import threading
from typing import Any, List, NoReturn, Optional, Sequence

from nandutable.commands import ASKING, SETTING
from nandutable.errors import Error, Gone
from nandutable.kept import begin
from nandutable.source import Log, Source
from nandutable.view import Rules, Server

from .bridge import Bridge
from .broker import Address
from .topics import BadPrefix, Topics

NAME = "nandutable-bridge"
VERSION = "0.1.0"
WRONG_OPTION, NO_FILE, FAILED, IS_TAKEN, NOT_ALLOWED = 64, 66, 70, 75, 77

EPILOG = """\
With --socket it uses a controller that runs already (its options --socket
PATH and --signals), which goes on when the bridge ends. Otherwise it starts
nandutable-controller on INTERFACE with the plans, with --signals=only, --times
and the words after `--`, such as `-- --retry 5`. It ends this one when it is
ended itself (SIGTERM, SIGINT, SIGHUP). If the bridge dies, the controller goes
on, and the same command uses it again.

The bridge sends no line to the controller but set, and those that ask: no
client of the broker can stop or restart a station.

Topics and payloads are in docs/BRIDGE.md and nandutable-bridge(1)."""


class Parser(argparse.ArgumentParser):
    """Its status for an invalid option is that of the other programs."""

    def error(self, message: str) -> NoReturn:
        self.exit(WRONG_OPTION, f"{NAME}: {message} ({NAME} --help)\n")


def number(least: int, most: int) -> Any:
    """Reads a whole number within bounds."""
    def read(text: str) -> int:
        if not text.isdecimal() or not text.isascii() or not least <= int(text) <= most:
            raise argparse.ArgumentTypeError(f"it takes {least} to {most}: {text}")
        return int(text)
    return read


def parser() -> Parser:
    made = Parser(NAME, description="Publishes the signals, states, alarms and diagnosis of PROFINET stations\nover MQTT, and sets outputs.", epilog=EPILOG,
                  formatter_class=lambda prog: argparse.RawDescriptionHelpFormatter(prog, width=80), allow_abbrev=False)
    made.add_argument("interface", nargs="?", metavar="INTERFACE")
    made.add_argument("plans", nargs="*", metavar="PLAN.json")
    made.add_argument("--socket", metavar="PATH", help="the socket of a controller that runs; tried again each second")
    made.add_argument("--prefix", default="nandutable", help="the begin of each topic (nandutable)")
    made.add_argument("--read-only", action="store_true", help="accepts no set: the bridge subscribes to nothing")
    made.add_argument("--sets-per-second", type=number(1, 10000), default=100, metavar="N", help="more sets are refused (100)")
    made.add_argument("--view", type=number(1, 65535), metavar="PORT", help="also serves the page of nandutable-view on 127.0.0.1")
    broker = made.add_argument_group("broker", "as the clients of mosquitto have them")
    broker.add_argument("--host", default="localhost", help="the broker (localhost)")
    broker.add_argument("--port", type=number(1, 65535), metavar="N", help="its port (1883, or 8883 with TLS)")
    broker.add_argument("--id", default="", help="the client's identifier (the broker chooses one)")
    broker.add_argument("--keepalive", type=number(5, 3600), default=20, metavar="S", help="seconds after which a silent connection is tested (20)")
    broker.add_argument("--protocol-version", choices=("mqttv5", "mqttv311"), default="mqttv5", help="(mqttv5)")
    broker.add_argument("--username", metavar="NAME")
    broker.add_argument("--password-file", metavar="FILE", help="its first line is the password; other users must not be able to read it")
    broker.add_argument("--cafile", metavar="FILE", help="TLS: certificates that are trusted, PEM")
    broker.add_argument("--capath", metavar="FOLDER", help="TLS: a folder of them")
    broker.add_argument("--tls-use-os-certs", action="store_true", help="TLS: those of the system are trusted")
    broker.add_argument("--cert", metavar="FILE", help="TLS: the certificate of this client, PEM")
    broker.add_argument("--key", metavar="FILE", help="TLS: its key, without a password")
    made.add_argument("--version", action="version", version=f"{NAME} {VERSION}")
    return made


class Refusal(Exception):
    """What was asked for cannot be done."""

    def __init__(self, status: int, text: str) -> None:
        super().__init__(text)
        self.status = status


def password_of(path: str) -> str:
    try:
        with open(path, encoding="utf-8") as file:
            mode = os.fstat(file.fileno()).st_mode
            if stat.S_ISREG(mode) and mode & 0o007:
                raise Refusal(NOT_ALLOWED, f"--password-file: every user may read or write {path} (chmod o= {path})")
            return file.readline().rstrip("\r\n")
    except (OSError, UnicodeDecodeError) as fault:
        raise Refusal(NO_FILE, f"--password-file {path}: {getattr(fault, 'strerror', None) or 'it is not UTF-8'}") from None


def _no_password() -> str:
    raise ValueError("the key has a password")


def context_of(options: argparse.Namespace) -> Optional[ssl.SSLContext]:
    """What TLS takes, None without it."""
    if not (options.cafile or options.capath or options.tls_use_os_certs):
        if options.cert or options.key:
            raise Refusal(WRONG_OPTION, "--cert and --key take --cafile, --capath or --tls-use-os-certs")
        return None
    try:
        context = ssl.SSLContext(ssl.PROTOCOL_TLS_CLIENT)
        context.minimum_version = ssl.TLSVersion.TLSv1_2
        if options.cafile or options.capath:
            context.load_verify_locations(options.cafile, options.capath)
        if options.tls_use_os_certs:
            context.load_default_certs()
        if options.cert or options.key:
            context.load_cert_chain(options.cert or options.key, options.key, _no_password)
    except (OSError, ValueError) as fault:
        raise Refusal(NO_FILE, f"TLS: {fault}") from None
    return context


def address_of(options: argparse.Namespace) -> Address:
    if options.password_file and not options.username:
        raise Refusal(WRONG_OPTION, "--password-file takes --username")
    context = context_of(options)
    return Address(options.host, options.port or (8883 if context else 1883), options.keepalive, options.id, options.protocol_version == "mqttv5",
                   options.username, password_of(options.password_file) if options.password_file else None, context)


def checked(words: Sequence[str]) -> "tuple[argparse.Namespace, List[str], Address, Topics]":
    """The options, the controller's own words, the broker and the topics."""
    words = list(words)
    more = words[words.index("--") + 1:] if "--" in words else []
    options = parser().parse_intermixed_args(words[:words.index("--")] if "--" in words else words)
    if (options.socket is None) == (options.interface is None):
        raise Refusal(WRONG_OPTION, f"name an interface and its plans, or --socket PATH ({NAME} --help)")
    if options.interface is not None and not options.plans:
        raise Refusal(WRONG_OPTION, f"name the plan of each station after the interface ({NAME} --help)")
    if options.socket is not None and more:
        raise Refusal(WRONG_OPTION, "words after -- are for a controller that the bridge starts; with --socket it runs already")
    try:
        topics = Topics(options.prefix)
    except BadPrefix as fault:
        raise Refusal(WRONG_OPTION, f"--prefix: {fault}") from None
    return options, more, address_of(options), topics


def page_of(options: argparse.Namespace, source: Source, log: Log) -> Optional[Server]:
    """The page of nandutable-view, which only shows, over the same picture of the plant."""
    if options.view is None:
        return None
    try:
        page = Server("127.0.0.1", options.view, source.state, source.commands, Rules(tell=log))
    except OSError as fault:
        raise Refusal(IS_TAKEN, f"--view: the page cannot be served at 127.0.0.1 port {options.view}: {fault.strerror or fault}") from None
    page.start()
    return page


def main(words: Sequence[str]) -> int:
    log = Log(NAME)
    try:
        options, more, address, topics = checked(words)
        source = Source(options.socket, lambda: begin(options.plans, options.interface, more, log.pass_on), log, ASKING if options.read_only else SETTING)
        page = page_of(options, source, log)
    except Refusal as no:
        print(f"{NAME}: {no}", file=sys.stderr)
        return no.status
    if address.password is not None and address.context is None and address.host not in ("localhost", "127.0.0.1", "::1"):
        log(f"warning: the password goes to {address.host} without TLS: whoever hears it can set outputs (--cafile)")
    for one in (signal.SIGTERM, signal.SIGINT, signal.SIGHUP):
        signal.signal(one, source.end)
    status = run(source, Bridge(source.state, source.commands, address, topics, options.sets_per_second, options.read_only, log), log)
    if page is not None:
        page.stop()
    log.close()
    return status


def run(source: Source, bridge: Bridge, log: Log) -> int:
    """Runs both until one of them ends."""
    def watch() -> None:
        bridge.ended.wait()
        source.leave()
    bridge.start()
    threading.Thread(target=watch, daemon=True).start()
    try:
        status = source.run()
    except Error as fault:
        log(str(fault))
        status = fault.status if isinstance(fault, Gone) and fault.status is not None else NO_FILE
    bridge.stop()
    if bridge.fault is not None:
        log(f"it fails: {type(bridge.fault).__name__}: {bridge.fault}")
        return FAILED
    return status
