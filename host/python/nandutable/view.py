"""A page over a plant: nandutable-view, its server, and the rules by which it answers.

The server hands out the files of the page, the picture of the plant (`PlantState.snapshot`) and its changes over Server-Sent Events. If it
may, it also sets outputs. Whom it answers:

- it listens on an address of this machine's loopback, unless its user says that the network may reach it;
- it answers only a request whose Host is a name or an address of the server, so a page of another name that leads to this machine (DNS
  rebinding) gets nothing;
- it refuses a request that another site's page makes, by Sec-Fetch-Site and, for a set, by Origin.

What is bounded: connections (`CONNECTIONS`), open pages (`PAGES`), sets that wait for the controller (`SETS`), the time in which a whole request
arrives and in which an answer is read (`PATIENCE`), and what waits for a page (of each station and signal the newest, and `WAITING` alarms and
messages). A page that does not read is closed and counted. If all places are in use, the oldest connection that is no page and sets nothing
gives its place to a new one; another machine has a part of the places only (`EACH`).
"""

from __future__ import annotations

import argparse
import http.server
import io
import ipaddress
import json
import os
import signal
import socket
import sys
import threading
import time
from typing import Any, Callable, Dict, List, NamedTuple, NoReturn, Optional, Sequence, Tuple

from .commands import ASKING, SETTING, Commands, Raw
from .errors import Busy, Error, Gone, NotStarted, Refused, TimedOut
from .plants import start
from .source import Log, Source
from .state import Change, Plain, PlantState

NAME = "nandutable-view"
PORT = 8892
CONNECTIONS = 64
PAGES = 16
SETS = 8  # that wait for the controller
EACH = 16  # connections of another machine
PAGES_EACH = 4  # of them pages
PATIENCE = 10.0  # seconds
SHORTEST = 0.5  # seconds that a connection has in any case
GIVEN_UP = 0.5  # seconds within which one that has to go leaves its place
FAULTS = 10  # of this program that are logged
WAITING = 200
BEAT = 1.0  # seconds from one beat to the next
TURN = 0.1  # seconds from one message to a page to the next
LONGEST = 8192  # octets of a set
SENT = 65536  # octets that the system keeps for a page that does not read

OK, BAD, FORBIDDEN, NOT_FOUND, NOT_ALLOWED, TAKEN = 200, 400, 403, 404, 405, 409
NO_LENGTH, TOO_LONG, NO_JSON, MISDIRECTED, NO_PLACE, NO_ANSWER = 411, 413, 415, 421, 503, 504

TYPES = {".html": "text/html; charset=utf-8", ".css": "text/css; charset=utf-8", ".js": "text/javascript; charset=utf-8", ".svg": "image/svg+xml"}
HEADERS = (
    ("Content-Security-Policy", "default-src 'none'; script-src 'self'; style-src 'self'; img-src 'self'; connect-src 'self'; form-action 'none'; "
                                "base-uri 'none'; frame-ancestors 'none'"),
    ("X-Content-Type-Options", "nosniff"), ("X-Frame-Options", "DENY"), ("Referrer-Policy", "no-referrer"), ("Cross-Origin-Resource-Policy", "same-origin"),
    ("Cross-Origin-Opener-Policy", "same-origin"), ("Cache-Control", "no-store"), ("Connection", "close"))


# ---- what it hands out


def folder_of_page() -> str:
    """The folder of the page's files: beside this module if it is installed, else host/view of the sources."""
    here = os.path.dirname(os.path.realpath(__file__))
    installed = os.path.join(here, "page")
    return installed if os.path.isdir(installed) else os.path.join(os.path.dirname(os.path.dirname(here)), "view")


def read_page(folder: str) -> Dict[str, Tuple[str, bytes]]:
    """The files of the page by their path: type and octets. Nothing else of the disk is handed out. Raises OSError."""
    found: Dict[str, Tuple[str, bytes]] = {}
    for name in sorted(os.listdir(folder)):
        kind = TYPES.get(os.path.splitext(name)[1])
        if kind is not None:
            with open(os.path.join(folder, name), "rb") as file:
                found[f"/{name}"] = (kind, file.read())
    if "/index.html" not in found:
        raise FileNotFoundError(f"{folder} has no index.html")
    found["/"] = found["/index.html"]
    return found


def _without_value(data: Plain) -> Plain:
    """A part for the page. A signal's value goes as the text of its line: a number of JavaScript has 53 bits."""
    return {key: value for key, value in data.items() if key != "value"}


class Rules(NamedTuple):
    """What a server may do: set outputs, and whom it tells of each set; and further names under which it is reached."""

    may_set: bool = False
    names: Tuple[str, ...] = ()
    tell: Callable[[str], None] = lambda _: None


class Counts:
    """What the server has done since its start."""

    def __init__(self) -> None:
        self._lock = threading.Lock()
        self._counts = {"pages": 0, "closed": 0, "no_place": 0, "displaced": 0, "refused": 0, "sets": 0, "sets_refused": 0, "faults": 0}

    def add(self, key: str, number: int = 1) -> int:
        with self._lock:
            self._counts[key] += number
            return self._counts[key]

    def all(self) -> Dict[str, int]:
        with self._lock:
            return dict(self._counts)


class Visit:
    """A connection: whose it is, since when, and whether it may have to leave its place to another one: a page and a set may not."""

    def __init__(self, link: socket.socket, client: str) -> None:
        self.link, self.client, self.since = link, client, time.monotonic()
        self.may_go, self.is_page = True, False


class Visits:
    """The connections that are open, at most `CONNECTIONS`."""

    def __init__(self, counts: Counts) -> None:
        self.counts = counts
        self._lock = threading.Lock()
        self._visits: Dict[Any, Visit] = {}
        self._places = threading.BoundedSemaphore(CONNECTIONS)

    def admit(self, link: socket.socket, client: str) -> bool:
        """Whether there is a place, which `leave` gives back. One that has waited for longest may have to leave it."""
        with self._lock:
            if is_far(client) and sum(visit.client == client for visit in self._visits.values()) >= EACH:
                return False
        if not self._places.acquire(blocking=False) and not (self._displace() and self._places.acquire(timeout=GIVEN_UP)):
            return False
        with self._lock:
            self._visits[link] = Visit(link, client)
        return True

    def _displace(self) -> bool:
        """Ends the oldest connection that may go. Returns whether there is one."""
        with self._lock:
            old = [visit for visit in self._visits.values() if visit.may_go and time.monotonic() - visit.since > SHORTEST]
            if not old:
                return False
            first = min(old, key=lambda visit: visit.since)
            first.may_go = False
            self.counts.add("displaced")
            try:
                first.link.shutdown(socket.SHUT_RDWR)
            except OSError:
                pass  # it is closed already
        return True

    def leave(self, link: socket.socket) -> None:
        with self._lock:
            self._visits.pop(link, None)
        self._places.release()

    def keep(self, link: socket.socket, is_page: bool) -> bool:
        """From now on it is a page, or a set, and needs not leave its place. Returns whether its client may have that page."""
        with self._lock:
            visit = self._visits[link]
            pages = [one for one in self._visits.values() if one.is_page]
            if is_page and (len(pages) >= PAGES or is_far(visit.client) and sum(one.client == visit.client for one in pages) >= PAGES_EACH):
                return False
            visit.may_go, visit.is_page = False, is_page
            return True


def is_far(client: str) -> bool:
    """Whether this is the address of another machine. All users of this machine have one address, so no limit can part them."""
    return not ipaddress.ip_address(client.partition("%")[0]).is_loopback


class Server(http.server.ThreadingHTTPServer):
    """The server of a page over a state. `commands` returns the commands to the controller, or None while no controller runs."""

    daemon_threads = True
    request_queue_size = 32

    def __init__(self, address: str, port: int, state: PlantState, commands: Callable[[], Optional[Commands]], rules: Rules = Rules()) -> None:
        self.address_family = socket.AF_INET6 if ":" in address else socket.AF_INET
        self.state, self.commands, self.rules = state, commands, rules
        self.files = read_page(folder_of_page())
        self.counts = Counts()
        self.visits = Visits(self.counts)
        self.sets = threading.BoundedSemaphore(SETS)
        self.is_closing = False
        super().__init__((address, port), Handler)

    def server_bind(self) -> None:
        """Without the look-up of a name that http.server makes."""
        self.socket.setsockopt(socket.SOL_SOCKET, socket.SO_REUSEADDR, 1)
        self.socket.bind(self.server_address)
        self.server_address = self.socket.getsockname()
        self.server_name, self.server_port = str(self.server_address[0]), int(self.server_address[1])

    @property
    def url(self) -> str:
        """The page's address."""
        address = self.server_name
        return f"http://[{address}]:{self.server_port}/" if ":" in address else f"http://{address}:{self.server_port}/"

    def process_request(self, request: Any, client_address: Any) -> None:
        """One thread for each connection that has a place."""
        if not self.visits.admit(request, str(client_address[0])):
            self.counts.add("no_place")
            self.shutdown_request(request)
            return
        try:
            super().process_request(request, client_address)
        except RuntimeError:  # the system has no further thread
            self.visits.leave(request)
            self.shutdown_request(request)

    def process_request_thread(self, request: Any, client_address: Any) -> None:
        try:
            super().process_request_thread(request, client_address)
        finally:
            self.visits.leave(request)

    def handle_error(self, request: Any, client_address: Any) -> None:
        """A connection that broke off is no fault of the server's."""
        fault = sys.exc_info()[1]
        if not isinstance(fault, OSError) and self.counts.add("faults") <= FAULTS:
            self.rules.tell(f"a fault of this program ended a request: {type(fault).__name__}: {fault}")

    def start(self) -> threading.Thread:
        """Serves in a thread of its own."""
        thread = threading.Thread(target=self.serve_forever, kwargs={"poll_interval": 0.2}, name="nandutable page", daemon=True)
        thread.start()
        return thread

    def stop(self) -> None:
        self.is_closing = True
        self.shutdown()
        self.server_close()

    # -- what the page shows

    def whole(self) -> Plain:
        """The picture of the plant, its stations and signals as lists in their order."""
        found = self.state.snapshot()
        return {"time": found["time"], "controller": found["controller"], "stations": list(found["stations"].values()),
                "signals": [_without_value(one) for one in found["signals"].values()], "alarms": found["alarms"], "messages": found["messages"],
                "isSetAllowed": self.rules.may_set}

    def has_name(self, host: str, reached: str) -> bool:
        """Whether a Host is a name of this server. `reached` is the address to which the connection was made."""
        name, _, port = host.lower().rpartition(":") if not host.endswith("]") else (host.lower(), "", "")
        if not name or not (port.isdecimal() or host.endswith("]")):
            name = host.lower()
        return name.strip("[]") in {"localhost", "127.0.0.1", "::1", self.server_name, reached} | set(self.rules.names)


class Answer(Exception):
    """Ends a request with a status and the reason."""

    def __init__(self, status: int, reason: str) -> None:
        super().__init__(reason)
        self.status, self.reason = status, reason


class Timely(io.RawIOBase):
    """What a connection sends until a time: the limit is one of the request, not of each octet."""

    def __init__(self, link: socket.socket, ends: float) -> None:
        super().__init__()
        self.link, self.ends = link, ends

    def readable(self) -> bool:
        return True

    def readinto(self, buffer: Any) -> int:
        left = self.ends - time.monotonic()
        if left <= 0:
            raise TimeoutError("the request is not whole in time")
        self.link.settimeout(left)
        return self.link.recv_into(buffer)


class Handler(http.server.BaseHTTPRequestHandler):
    """One request."""

    protocol_version = "HTTP/1.1"
    server_version, sys_version = NAME, ""
    timeout = PATIENCE
    server: Server

    def setup(self) -> None:
        self.request.setsockopt(socket.SOL_SOCKET, socket.SO_SNDBUF, SENT)
        super().setup()
        self.rfile = io.BufferedReader(Timely(self.connection, time.monotonic() + PATIENCE))

    def log_message(self, *_: object) -> None:
        """Requests are not logged: counts say what happened."""

    def end_headers(self) -> None:
        self.close_connection = True
        for name, value in HEADERS:
            self.send_header(name, value)
        super().end_headers()

    def send_error(self, code: int, message: Optional[str] = None, explain: Optional[str] = None) -> None:
        """Refusals of http.server itself: a broken request, a method that is not known."""
        self.server.counts.add("refused")
        self._reply(int(code), {"reason": message or "the request is broken"})

    def _reply(self, status: int, data: Plain) -> None:
        self._hand_out(status, "application/json", json.dumps(data).encode() + b"\n")

    def _hand_out(self, status: int, kind: str, octets: bytes) -> None:
        self.connection.settimeout(PATIENCE)
        self.send_response(status)
        self.send_header("Content-Type", kind)
        self.send_header("Content-Length", str(len(octets)))
        self.end_headers()
        if self.command != "HEAD":
            self.wfile.write(octets)

    # -- who is answered

    def _check_host(self) -> str:
        """Returns the Host. Only the server's own names are answered."""
        hosts = [str(host).strip() for host in self.headers.get_all("Host") or []]
        if len(hosts) != 1:
            raise Answer(BAD, "a request has one Host")
        if not self.server.has_name(hosts[0], str(self.connection.getsockname()[0])):
            raise Answer(MISDIRECTED, "this Host is not a name of the server; nandutable-view --host-name NAME adds one")
        return hosts[0]

    def _check_site(self) -> None:
        if (self.headers.get("Sec-Fetch-Site") or "none") not in ("same-origin", "none"):
            raise Answer(FORBIDDEN, "a page of another site may not ask this server")

    def _check_origin(self, host: str) -> None:
        """A browser says the origin of the page that sends; nothing else can say that it is this one."""
        if (self.headers.get_all("Origin") or []) != [f"http://{host}"]:
            raise Answer(FORBIDDEN, f"only a page of this server may set: Origin must be http://{host}")

    def _answered(self, act: Callable[[], None]) -> None:
        try:
            act()
        except Answer as answer:
            self.server.counts.add("refused")
            self._reply(answer.status, {"reason": answer.reason})

    # -- reading

    def do_GET(self) -> None:
        self._answered(self._get)

    do_HEAD = do_GET

    def _get(self) -> None:
        self._check_host()
        path = self.path.partition("?")[0]
        if path not in ("/", "/index.html"):  # a link on another site may lead to the page itself
            self._check_site()
        if path == "/events":
            self._stream()
        elif path == "/state":
            self._reply(OK, {**self.server.whole(), "counts": self.server.counts.all()})
        elif path in self.server.files:
            self._hand_out(OK, *self.server.files[path])
        else:
            raise Answer(NOT_FOUND, "there is no such file")

    def _stream(self) -> None:
        """The whole picture, and then what changes, until the page is closed."""
        server = self.server
        if self.command == "HEAD":
            raise Answer(NOT_ALLOWED, "events are read by GET")
        if not server.visits.keep(self.request, is_page=True):
            raise Answer(NO_PLACE, f"{PAGES} pages are open, or {PAGES_EACH} of your machine; close one")
        server.counts.add("pages")
        changes = server.state.subscribe(WAITING)
        try:
            self.connection.settimeout(PATIENCE)
            self.send_response(OK)
            self.send_header("Content-Type", "text/event-stream")
            self.end_headers()
            self._event("whole", server.whole())
            beat = 0.0
            while not server.is_closing:
                parts = changes.take(TURN)
                if parts:
                    self._event("change", [self._part(part) for part in parts])
                if time.monotonic() >= beat:
                    beat = time.monotonic() + BEAT
                    self._event("beat", {**server.counts.all(), "left_out": changes.dropped})
                time.sleep(TURN)
        except TimeoutError:
            server.counts.add("closed")
        except OSError:
            pass  # the page was closed
        finally:
            server.state.unsubscribe(changes)
            server.counts.add("pages", -1)

    def _part(self, part: Change) -> Plain:
        return {"kind": part.kind, "key": part.key, "data": _without_value(part.data) if part.kind == "signal" else part.data}

    def _event(self, name: str, data: Any) -> None:
        self.wfile.write(f"event: {name}\ndata: {json.dumps(data)}\n\n".encode())

    # -- setting

    def do_POST(self) -> None:
        self._answered(self._post)

    def _post(self) -> None:
        octets = self._body()
        host = self._check_host()
        self._check_site()
        self._check_origin(host)
        if self.path != "/set":
            raise Answer(NOT_FOUND, "only /set takes a POST")
        if not self.server.rules.may_set:
            raise Answer(FORBIDDEN, "this page is read-only: nandutable-view was started without --allow-set")
        if self.headers.get_content_type() != "application/json":
            raise Answer(NO_JSON, "Content-Type must be application/json")
        name, value = self._wanted(octets)
        self._set(name, value)

    def _body(self) -> bytes:
        """Reads the octets of a request before it is judged, so that its sender reads the answer."""
        lengths = [str(length).strip() for length in self.headers.get_all("Content-Length") or []]
        length = lengths[0].lstrip("0") if len(lengths) == 1 else ""
        if self.headers.get("Transfer-Encoding") or not lengths or not (lengths[0].isascii() and lengths[0].isdecimal()) or len(lengths) > 1:
            raise Answer(NO_LENGTH, "one Content-Length is needed")
        if len(length) > len(str(LONGEST)) or int(length or "0") > LONGEST:
            raise Answer(TOO_LONG, f"a set has at most {LONGEST} octets")
        octets = self.rfile.read(int(length or "0"))
        if len(octets) < int(length or "0"):
            raise Answer(BAD, "the request is not whole")
        return octets

    @staticmethod
    def _wanted(octets: bytes) -> Tuple[str, str]:
        """Name and value of a set."""
        try:
            data = json.loads(octets)
        except (ValueError, RecursionError):
            data = None
        name, value = (data.get("name"), data.get("value")) if isinstance(data, dict) else (None, None)
        if not isinstance(name, str) or not isinstance(value, str) or not value.strip() or any(ord(letter) < 0x20 for letter in name + value):
            raise Answer(BAD, 'a set is {"name": "STATION.SIGNAL", "value": "VALUE"}, without control characters')
        return name, value

    def _set(self, name: str, value: str) -> None:
        counts = self.server.counts
        self.server.visits.keep(self.request, is_page=False)
        try:
            self._ask_for_set(name, value)
        except (Error, ValueError, UnicodeError) as fault:
            counts.add("sets_refused")
            status = TAKEN if isinstance(fault, Refused) else NO_ANSWER if isinstance(fault, TimedOut) else BAD if isinstance(fault, ValueError) else NO_PLACE
            raise Answer(status, str(fault)) from None
        counts.add("sets")
        self.server.rules.tell(f"set {name} {value} by {self.client_address[0]}")
        self._reply(OK, {"reason": None})

    def _ask_for_set(self, name: str, value: str) -> None:
        """Asks the controller, for a signal that exists: it is not asked for other names."""
        commands = self.server.commands()
        if commands is None:
            raise Gone("the controller does not run")
        if self.server.state.signal(commands.full_name(name)) is None:
            raise Refused("there is no such signal")
        if not self.server.sets.acquire(blocking=False):
            raise Busy(f"{SETS} other sets wait for the controller")
        try:
            commands.set(name, Raw(value))
        finally:
            self.server.sets.release()


# ---- the program


class Parser(argparse.ArgumentParser):
    """With the statuses of the other programs."""

    def error(self, message: str) -> NoReturn:
        self.exit(64, f"{NAME}: {message} ({NAME} --help)\n")


def parser() -> Parser:
    made = Parser(prog=NAME, allow_abbrev=False, usage="nandutable-view --socket PATH [OPTION ..]\n       nandutable-view IFACE PLAN.json .. [OPTION ..] [-- CONTROLLER OPTION ..]",
                  description="Shows a plant on a page of this machine: stations, who is at which port, signals, alarms, diagnosis. The lines are those of a "
                  "nandutable-controller that runs with --signals and --socket, or of one that this program starts.", epilog="It ends on SIGTERM and SIGINT.",
                  formatter_class=lambda prog: argparse.HelpFormatter(prog, width=80))
    made.add_argument("places", nargs="*", metavar="IFACE PLAN.json", help="starts nandutable-controller on this interface with these plans")
    made.add_argument("--socket", metavar="PATH", help="the socket of a controller that runs already; it is opened again when it was lost")
    made.add_argument("--port", type=int, default=PORT, metavar="N", help=f"the TCP port of the page ({PORT}); 0 takes a free one")
    made.add_argument("--address", default="127.0.0.1", help="the IP address to listen on (127.0.0.1)")
    made.add_argument("--reachable-from-network", action="store_true", help="allows an --address that other machines reach. There is no password and no encryption: "
                      "whoever reaches the port sees the plant, and with --allow-set moves it")
    made.add_argument("--host-name", action="append", default=[], metavar="NAME", help="another name under which browsers reach the page; may be repeated")
    made.add_argument("--allow-set", action="store_true", help="lets the page set outputs; without it the page only shows")
    made.add_argument("--controller", metavar="PATH", help="the program nandutable-controller")
    made.add_argument("--version", action="version", version=f"{NAME} 0.1.0")
    return made


def check(asked: argparse.Namespace, more: Sequence[str]) -> None:
    """Refuses options that do not fit together."""
    try:
        address = ipaddress.ip_address(asked.address)
    except ValueError:
        parser().error(f"--address takes an IP address: {asked.address}")
    if not address.is_loopback and not asked.reachable_from_network:
        parser().error(f"{address} is reached by other machines, and the page has no password and no encryption: add --reachable-from-network if that is meant")
    if not 0 <= asked.port <= 65535:
        parser().error(f"--port takes 0 to 65535: {asked.port}")
    if (asked.socket is None) == (not asked.places):
        parser().error("it takes either --socket PATH, or an interface and its plans")
    if asked.socket is None and len(asked.places) < 2:
        parser().error("a plan is missing after the interface")
    if asked.socket is not None and (more or asked.controller):
        parser().error("options of the controller go with an interface and its plans")


def source_of(asked: argparse.Namespace, more: List[str], log: Log) -> Source:
    may = SETTING if asked.allow_set else ASKING
    return Source(asked.socket, lambda: start(asked.places[1:], asked.places[0], more or ["--retry", "5"], asked.controller), log, may)


def main(words: Optional[List[str]] = None) -> int:
    """Returns the status of the program."""
    given = sys.argv[1:] if words is None else words
    cut = given.index("--") if "--" in given else len(given)
    asked, more = parser().parse_args(given[:cut]), given[cut + 1:]
    check(asked, more)
    log = Log(NAME)
    source = source_of(asked, more, log)
    try:
        server = Server(asked.address, asked.port, source.state, source.commands, Rules(asked.allow_set, tuple(name.lower() for name in asked.host_name), log))
    except OSError as fault:
        log(f"the page cannot be served at {asked.address} port {asked.port}: {fault.strerror or fault}")
        log.close()
        return 75
    for number in (signal.SIGTERM, signal.SIGINT, signal.SIGHUP):
        signal.signal(number, source.end)
    status = run(source, server, log)
    log.close()
    return status


def run(source: Source, server: Server, log: Log) -> int:
    """Serves until a signal comes, or the controller that it has started ends."""
    server.start()
    log.tell(f"page {server.url}")
    try:
        return source.run()
    except NotStarted as fault:
        log(str(fault))
        return 69
    finally:
        server.stop()


if __name__ == "__main__":
    sys.exit(main())
