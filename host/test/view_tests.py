"""Tests of the page: `host/test/run page_words page_rules page_bounds page_slow page_names page_fuzz page_again page page_own browser
browser_made_up`."""

import contextlib
import io
import json
import os
import re
import select
import signal
import socket
import subprocess
import sys
import threading
import time

import browser
from made_up_plant import CONTROLLER, MadeUp, happen, line_of_stations, mac_of, modules_of, plant_of_modules
from signal_tests import same
from wire import HOST, awaited, talk_to

sys.path.insert(0, os.path.join(HOST, "python"))
from nandutable import view as server  # noqa: E402: the module's folder is not on the path before

VIEW = os.path.join(HOST, "view", "nandutable-view")
SIGNALS = [
    {"Name": "level", "Direction": "Input", "Slot": 1, "Subslot": 1, "Octet": 0, "Type": "Unsigned16", "Unit": "mm", "Text": "Level of the tank"},
    {"Name": "speed", "Direction": "Output", "Slot": 2, "Subslot": 1, "Octet": 0, "Type": "Unsigned16", "Unit": "rpm", "Text": "Speed of the pump"}]
# What a station may call itself, and a page may take for something else.
HOSTILE = ("<img/src=x/onerror=document.title='x'>", "'\"><script>document.title='x'</script>", "</title><svg/onload=document.title='x'>")
RATIO = """
const rgb = (text) => { const [r, g, b, a = 1] = text.match(/[0-9.]+/g).map(Number); return [r, g, b, a]; };
const light = ([r, g, b]) => [r, g, b].map((c) => (c /= 255) <= 0.04045 ? c / 12.92 : ((c + 0.055) / 1.055) ** 2.4).reduce((sum, c, at) => sum + c * [0.2126, 0.7152, 0.0722][at], 0);
const over = (top, below) => [0, 1, 2].map((at) => top[at] * top[3] + below[at] * (1 - top[3]));
const ratio = (one, other) => { const [high, low] = [light(one), light(other)].sort((a, b) => b - a); return (high + 0.05) / (low + 0.05); };
const ground = (element) => { let found = [0, 0, 0, 0]; for (let at = element; at; at = at.parentElement) { const colour = rgb(getComputedStyle(at).backgroundColor);
  if (colour[3] > 0) { found = found[3] === 0 ? colour : [...over(found, colour), 1]; if (colour[3] === 1) return found; } } return [255, 255, 255]; };
const behind = (element) => { const box = element.closest("g")?.querySelector("rect.box"); return box && element.closest("svg") ? rgb(getComputedStyle(box).fill) : ground(element); };
"""
# The value of an output in its row.
ROW = "return document.querySelector(`[aria-label='Set ${arguments[0]}']`)?.closest('tr, li').querySelector('.value span').textContent"
# The modules of a station: their titles, the lists of bits with how many lines of them are side by side, and the rows of values.
MODULES = """
const lines = (list) => new Set([...list.children].map((item) => Math.round(item.getBoundingClientRect().top))).size;
return [...document.getElementById(`station-${arguments[0]}`).closest('.card').querySelectorAll('.module')].map((module) => [
  module.querySelector('h4').textContent, [...module.querySelectorAll('.part')].map((part) => part.textContent),
  [...module.querySelectorAll('.bits')].map((list) => [list.getAttribute('aria-label'), list.children.length, lines(list)]),
  [...module.querySelectorAll('tbody tr')].map((row) => row.querySelector('th').firstChild.textContent)]);
"""
# Names of signals that are parted other than after an underscore, and what is wider than its place.
PARTED = """
const wrong = [];
for (const name of document.querySelectorAll('.bit .name, tbody th')) for (const node of name.childNodes) {
  if (node.nodeType !== 3) continue;
  const range = document.createRange();
  range.selectNodeContents(node);
  if (range.getClientRects().length > 1) wrong.push(`${node.textContent} has ${range.getClientRects().length} lines`);
  if (range.getBoundingClientRect().right > name.getBoundingClientRect().right + 1) wrong.push(`${node.textContent} is cut`);
}
return wrong;
"""
# Two frames are drawn.
FRAMES = "const done = arguments[0]; requestAnimationFrame(() => requestAnimationFrame(() => done()))"
CONTRAST = RATIO + """
const wrong = [];
const seen = (element) => element.getClientRects().length > 0 && !element.closest(".unseen, [disabled]");
for (const element of document.querySelectorAll("body *")) {
  const style = getComputedStyle(element);
  if (["INPUT", "BUTTON"].includes(element.tagName) && seen(element) && ratio(rgb(style.borderTopColor), ground(element.parentElement)) < 3) wrong.push("border of " + element.outerHTML.slice(0, 80));
  if (![...element.childNodes].some((node) => node.nodeType === 3 && node.textContent.trim()) || !seen(element) || ["TITLE", "SCRIPT", "NOSCRIPT", "OPTION"].includes(element.tagName.toUpperCase())) continue;
  const isDrawn = element instanceof SVGElement;
  const found = ratio(rgb(isDrawn ? style.fill : style.color), behind(element));
  if (found < 4.5) wrong.push(`${found.toFixed(2)} ${element.outerHTML.slice(0, 100)}`);
}
for (const icon of document.querySelectorAll(".shape")) if (seen(icon) && ratio(rgb(getComputedStyle(icon).color), behind(icon)) < 3) wrong.push("icon " + icon.outerHTML.slice(0, 100));
return [wrong, document.querySelectorAll("body *").length];
"""


class View:
    """nandutable-view on a free port. Its address is read from its first line. With a wire it runs at the end c0."""

    def __init__(self, *words, port=0, program=VIEW, environment=None, errors=subprocess.PIPE, wire=None):
        self.wire = wire
        front = ["ip", "netns", "exec", wire.controller] if wire else []
        self.process = subprocess.Popen([*front, sys.executable, program, "--port", str(port), *words], stdout=subprocess.PIPE, stderr=errors, text=True, env=environment)
        line = self.process.stdout.readline()
        if not line.startswith("page "):
            raise AssertionError(f"nandutable-view: {line}{self.process.stderr.read() if self.process.stderr else ''}")
        self.url = line.split()[1]
        self.port = int(self.url.rstrip("/").rpartition(":")[2])
        self.host = f"127.0.0.1:{self.port}"

    def __enter__(self):
        return self

    def __exit__(self, *_):
        self.end(signal.SIGKILL)

    def end(self, number=signal.SIGTERM):
        """Returns the status and what it said."""
        if self.process.poll() is None:
            self.process.send_signal(number)
        text = self.process.communicate(timeout=20)[1] if not self.process.stdout.closed else ""
        return self.process.returncode, text

    def asked(self, octets, seconds=15):
        """Sends octets, and returns the status of the answer, its head and its body, when the server closes the connection."""
        with self.wire.opened("c0", socket.AF_INET, socket.SOCK_STREAM, 0) if self.wire else socket.socket() as link:
            link.settimeout(seconds)
            link.connect(("127.0.0.1", self.port))
            came = b""
            # A server that refuses may close before it has read all.
            with contextlib.suppress(BrokenPipeError, ConnectionResetError):
                link.sendall(octets if isinstance(octets, bytes) else octets.encode())
            with contextlib.suppress(ConnectionResetError):
                while more := link.recv(65536):
                    came += more
        head, _, body = came.partition(b"\r\n\r\n")
        return int(head.split()[1]) if head.startswith(b"HTTP/") else 0, head.decode(), body.decode()

    def get(self, path, host=None, *lines, method="GET"):
        return self.asked("\r\n".join((f"{method} {path} HTTP/1.1", f"Host: {host or self.host}", *lines, "", "")))

    def set(self, name, value, host=None, origin=None, kind="application/json", *lines):
        """Status and reason."""
        body = json.dumps({"name": name, "value": value})
        origins = [] if origin == "" else [f"Origin: {origin or 'http://' + (host or self.host)}"]
        status, _, text = self.asked("\r\n".join(("POST /set HTTP/1.1", f"Host: {host or self.host}", *origins, f"Content-Type: {kind}", f"Content-Length: {len(body)}", *lines, "", body)))
        return status, json.loads(text)["reason"]

    def state(self):
        return json.loads(self.get("/state")[2])

    def waits(self, wanted, what, seconds=20):
        """Waits until the state is as wanted. Returns what `wanted` returns."""
        ends = time.monotonic() + seconds
        while True:
            state = self.state()
            found = wanted(state)
            if found:
                return found
            if time.monotonic() > ends:
                raise AssertionError(f"{what}: {json.dumps(state)[:3000]}")
            time.sleep(0.05)

    def processor_seconds(self):
        with open(f"/proc/{self.process.pid}/stat", encoding="ascii") as file:
            fields = file.read().rpartition(")")[2].split()
        return (int(fields[11]) + int(fields[12])) / os.sysconf("SC_CLK_TCK")

    def threads(self):
        return len(os.listdir(f"/proc/{self.process.pid}/task"))

    def memory(self):
        """Pages of memory that it has."""
        with open(f"/proc/{self.process.pid}/statm", encoding="ascii") as file:
            return int(file.read().split()[1])


def station_of(state, name="pump-1"):
    return next((station for station in state["stations"] if station["name"] == name), None)


def raw_of(state, name):
    return next((signal["raw"] for signal in state["signals"] if signal["name"] == name), None)


def refused_by(words, status, text):
    """What the program says to words that it does not serve a page for. It runs in this process."""
    said = io.StringIO()
    with contextlib.redirect_stdout(said), contextlib.redirect_stderr(said):
        try:
            came = server.main(list(words))
        except SystemExit as end:
            came = end.code
    same(f"nandutable-view {' '.join(words)}: {said.getvalue()}", (came or 0, text in said.getvalue()), (status, True))


def two_signals(plant, name="pump-1", **more):
    plant.add(name, [("level", "input", "Unsigned16", "812", "mm", "Level of the tank"), ("speed", "output", "Unsigned16", "1200", "rpm", "Speed of the pump")], **more)


class ViewTests:
    """The tests of the page. They are part of the class of all tests."""

    # ---- without a wire

    def page_words(self):
        """What the program refuses."""
        some = ("--socket", "/nowhere")
        for words, status, text in (
                (("--version",), 0, "nandutable-view 0.1.0"), (("--help",), 0, "--allow-set"), ((), 64, "either --socket PATH, or"), (("eth2",), 64, "a plan is missing"),
                (("eth2", "plan.json", *some), 64, "either --socket PATH, or"), ((*some, "--", "--retry", "5"), 64, "options of the controller"),
                ((*some, "--address", "0.0.0.0"), 64, "--reachable-from-network"), ((*some, "--address", "::"), 64, "--reachable-from-network"),
                ((*some, "--address", "192.168.0.9"), 64, "no password"), ((*some, "--address", "pump"), 64, "takes an IP address"),
                ((*some, "--port", "70000"), 64, "0 to 65535"), ((*some, "--port", "x"), 64, "--port"), ((*some, "--allow"), 64, "--allow")):
            refused_by(words, status, text)
        ran = subprocess.run([sys.executable, VIEW, "no-such-if", "/nowhere/plan.json", "--port", "0"], capture_output=True, text=True, timeout=60)
        same(f"the controller's own reason and status: {ran.stderr}", (ran.returncode, "/nowhere/plan.json" in ran.stderr), (66, True))
        with View("--socket", "/nowhere") as view:
            ran = subprocess.run([sys.executable, VIEW, *some, "--port", str(view.port)], capture_output=True, text=True, timeout=60)
            same(f"the port is in use: {ran.stderr}", (ran.returncode, "Address already in use" in ran.stderr), (75, True))
            found = view.waits(lambda state: state["controller"]["ended"], "no controller")
            same("it says so", found, "no controller listens at /nowhere: No such file or directory")
            same("it ends", view.end()[0], 0)

    def page_rules(self):
        """Whom the server answers: names of its own, requests of its own page, and sets only if it may."""
        plant = MadeUp(self.path("rules.lines"))
        two_signals(plant)
        with View("--socket", plant.path) as view:
            view.waits(lambda state: raw_of(state, "pump-1.level") == "812", "the first values")
            status, head, text = view.get("/")
            same("the page", (status, "<!doctype html>" in text, view.get("/index.html")[2] == text), (200, True, True))
            for line in ("Content-Security-Policy: default-src 'none'; script-src 'self'; style-src 'self'; img-src 'self'; connect-src 'self'; form-action 'none'; base-uri 'none'; "
                         "frame-ancestors 'none'", "X-Content-Type-Options: nosniff", "Cross-Origin-Resource-Policy: same-origin", "Cache-Control: no-store"):
                same(line, line in head.split("\r\n"), True)
            same("no script and no style is in the page itself", re.findall(r"<script>|<style|\son\w+=|style=", text), [])
            self.names_of_server(view)
            self.broken_requests(view)
            same("a set is refused", view.set("pump-1.speed", "1"), (403, "this page is read-only: nandutable-view was started without --allow-set"))
            same("and not done", raw_of(view.state(), "pump-1.speed"), "1200")
        with View("--socket", plant.path, "--allow-set", "--host-name", "Panel.Plant") as view:
            view.waits(lambda state: raw_of(state, "pump-1.level") == "812", "the first values")
            self.sets_of_page(view)

    @staticmethod
    def names_of_server(view):
        for host in ("evil.example", f"evil.example:{view.port}", "127.0.0.1.evil.example", "localhost.evil", "10.0.0.1", "[::2]", "127.0.0.1:80:80", "[::1", "panel.plant"):
            for path in ("/", "/state", "/events", "/view.js"):
                same(f"{host} {path}", view.get(path, host)[0], 421)
        for host in ("localhost", f"localhost:{view.port}", "LOCALHOST:9000", "127.0.0.1", "[::1]", f"[::1]:{view.port}"):
            same(host, view.get("/state", host)[0], 200)
        same("no Host", view.asked("GET / HTTP/1.0\r\n\r\n")[0], 400)
        same("two of them", view.get("/", None, "Host: localhost")[0], 400)
        for site, status in (("cross-site", 403), ("same-site", 403), ("same-origin", 200), ("none", 200)):
            same(site, [view.get(path, None, f"Sec-Fetch-Site: {site}")[0] for path in ("/state", "/view.css")], [status] * 2)
        same("a link on another site", view.get("/", None, "Sec-Fetch-Site: cross-site")[0], 200)
        same("a stream of another site", view.get("/events", None, "Sec-Fetch-Site: cross-site")[0], 403)

    @staticmethod
    def broken_requests(view):
        for path in ("/../python/nandutable/view.py", "/%2e%2e/nandutable-view", "//etc/passwd", "/nandutable-view", "/view.js/", "/.", "/set"):
            same(path, view.get(path)[0], 404)
        same("HEAD", view.get("/view.css", method="HEAD")[::2], (200, ""))
        same("HEAD of the stream", view.get("/events", method="HEAD")[0], 405)
        for method in ("PUT", "DELETE", "OPTIONS", "TRACE", "CONNECT", "x" * 100):
            same(method, view.get("/set", method=method)[0], 501)
        for octets, status in ((b"\r\n\r\n", 0), (b"GET\r\n\r\n", 0), (b"GET /\r\n\r\n", 0), (b"GET / HTTP/9.9\r\n\r\n", 0), (b"GET /" + b"a" * 70000 + b" HTTP/1.1\r\n\r\n", 414), (b"\x16\x03\x01\x02\x00\x01\r\n\r\n", 0)):
            came, head, _ = view.asked(octets)
            same(f"{octets[:20]}: {head}", came, status)

    @staticmethod
    def sets_of_page(view):
        same("a set", view.set("pump-1.speed", "1500"), (200, None))
        view.waits(lambda state: raw_of(state, "pump-1.speed") == "1500", "the value")
        for words, status, reason in (
                (("pump-1.speed", "70000"), 409, "Unsigned16 takes 0 to 65535"), (("pump-1.level", "1"), 409, "it is an input"), (("pump-1.none", "1"), 409, "there is no such signal"),
                (("pump-1.speed", ""), 400, "a set is"), (("pump-1.speed", "1\nstop"), 400, "without control characters"), (("pump-1.speed\nstop", "1"), 400, "without control"),
                (("pump-1.speed 7", "1"), 409, "there is no such signal"), (("pump-1.speed", 7), 400, "a set is"),
                (("pump-1.speed", "1", None, ""), 403, "Origin"), (("pump-1.speed", "1", None, "http://evil.example"), 403, "Origin"), (("pump-1.speed", "1", None, "null"), 403, "Origin"),
                (("pump-1.speed", "1", None, "http://localhost:1"), 403, "Origin"), (("pump-1.speed", "1", "evil.example", "http://evil.example"), 421, "Host"),
                (("pump-1.speed", "1", None, None, "text/plain"), 415, "application/json"), (("pump-1.speed", "1", None, None, "application/x-www-form-urlencoded"), 415, "json"),
                (("pump-1.speed", "1", None, None, "application/json", "Sec-Fetch-Site: cross-site"), 403, "another site")):
            came, text = view.set(*words)
            same(f"{words}: {text}", (came, reason in text), (status, True))
        same("another name of the server", view.set("pump-1.speed", "1501", "panel.plant"), (200, None))
        front = f"POST /set HTTP/1.1\r\nHost: {view.host}\r\nOrigin: http://{view.host}\r\nContent-Type: application/json\r\n"
        for rest, status in (("\r\n", 411), ("Transfer-Encoding: chunked\r\n\r\n0\r\n\r\n", 411), ("Content-Length: -1\r\n\r\n", 411), ("Content-Length: 9000\r\n\r\n" + "a" * 9000, 413),
                             ("Content-Length: 2\r\n\r\n{}", 400), ("Content-Length: 5000\r\n\r\n" + "[" * 5000, 400), ("Content-Length: 4\r\n\r\n\xff\xff", 400)):
            same(rest[:40], view.asked((front + rest).encode("utf-8"))[0], status)
        view.waits(lambda state: raw_of(state, "pump-1.speed") == "1501", "only two were done")
        counts = view.state()["counts"]
        same(f"{counts}", (counts["sets"], counts["refused"] > 10), (2, True))

    def page_bounds(self):
        """Pages that never read, that come slowly, and that are too many; the memory of the server does not grow."""
        plant = MadeUp(self.path("bounds.lines"))
        line_of_stations(plant, 64, lambda number: [(f"value_{at}", "input", "Unsigned16", "0", "", "") for at in range(31)])
        with View("--socket", plant.path) as view:
            view.waits(lambda state: len(state["signals"]) == 64 * 31, "all signals", 60)
            asleep = [self.open_page(view) for _ in range(16)]
            view.waits(lambda state: state["counts"]["pages"] == 16, "16 pages")
            same("a seventeenth page", view.get("/events")[0], 503)
            # Each of them has got the beginning of all signals, so the server has all that it keeps for them.
            for link in asleep:
                awaited("a page begins", lambda: b"event: whole" in link.recv(4096, socket.MSG_PEEK))
            slow = socket.create_connection(("127.0.0.1", view.port))
            slow.sendall(b"GET / HTTP/1.1\r\nHost:")
            over = threading.Event()
            changes = threading.Thread(target=self.change_all, args=(plant, over), daemon=True)
            changes.start()
            time.sleep(2)
            before = view.memory()
            begins = time.monotonic()
            view.waits(lambda state: state["counts"]["closed"] == 16, "all 16 are closed", 40)
            took = time.monotonic() - begins
            slow.settimeout(15)
            same("the slow one is closed", slow.recv(10), b"")
            same(f"its memory: {before} pages, then {view.memory()}", view.memory() < before + 4096, True)
            counts = view.waits(lambda state: state["counts"]["pages"] == 0 and state["counts"], "no page")
            with self.open_page(view) as link:
                same("a new page is served", link.recv(15), b"HTTP/1.1 200 OK")
            idle = [socket.create_connection(("127.0.0.1", view.port)) for _ in range(70)]
            same("connections beyond 64 are closed", bool(select.select(idle, [], [], 20)[0]), True)
            for link in idle:
                link.close()
            more = view.waits(lambda state: state["counts"]["no_place"] + state["counts"]["displaced"] >= 1 and state["counts"], "they are counted")
            over.set()
            changes.join()
            for link in (*asleep, slow):
                link.close()
        return f"{counts['closed']} pages closed within {took:.0f} s, {more['no_place']} connections without a place, {more['displaced']} that left theirs"

    def page_slow(self):
        """64 connections that send an octet now and then: others are served meanwhile, and each of them ends when its time is over, however it sends."""
        plant = MadeUp(self.path("slow.lines"))
        two_signals(plant)
        with View("--socket", plant.path) as view:
            view.waits(lambda state: raw_of(state, "pump-1.level") == "812", "the first values")
            slow = [socket.create_connection(("127.0.0.1", view.port)) for _ in range(64)]
            begins, over = time.monotonic(), threading.Event()
            ended = {}

            def drip():
                for octet in b"POST /set HTTP/1.1\r\nX: " + 1000 * b"x":
                    for number, link in enumerate(slow):
                        try:
                            if number not in ended and select.select([link], [], [], 0)[0] and not link.recv(100):
                                ended[number] = time.monotonic() - begins
                            elif number not in ended:
                                link.send(bytes((octet,)))
                        except OSError:
                            ended[number] = time.monotonic() - begins
                    if over.wait(0.3):
                        return
            drops = threading.Thread(target=drip, daemon=True)
            drops.start()
            time.sleep(2)
            longest = 0.0
            while time.monotonic() - begins < 8:
                asked = time.monotonic()
                same(f"a request meanwhile, after {asked - begins:.1f} s", view.get("/state")[0], 200)
                longest = max(longest, time.monotonic() - asked)
                time.sleep(0.2)
            awaited("each of them ends", lambda: len(ended) == 64, 20)
            over.set()
            drops.join()
            for link in slow:
                link.close()
            counts = view.state()["counts"]
        same(f"{counts}: their ends {sorted(ended.values())[-5:]}", (max(ended.values()) < 14, counts["displaced"] >= 1, longest < 3), (True, True, True))
        return f"{counts['displaced']} connections left their places, the others were closed within {max(ended.values()):.1f} s; a request took {longest:.2f} s at most"

    def page_names(self):
        """Sets of names that no signal has, and that the controller would not show as they are, do not delay the operator's; a controller that does not answer
        keeps nobody for long."""
        plant = MadeUp(self.path("names.lines"))
        two_signals(plant)
        with View("--socket", plant.path, "--allow-set") as view:
            view.waits(lambda state: raw_of(state, "pump-1.level") == "812", "the first values")
            answers = []
            odd = [threading.Thread(target=lambda name=name: answers.append(view.set(name, "1")[0]), daemon=True) for name in [f"pump-1.l\u00e4nge{number}" for number in range(20)]]
            for thread in odd:
                thread.start()
            time.sleep(0.2)
            begins = time.monotonic()
            same("the operator's set", view.set("pump-1.speed", "1500"), (200, None))
            took = time.monotonic() - begins
            for thread in odd:
                thread.join(20)
            same("the others", answers, [409] * 20)
            same(f"the operator waits {took:.1f} s", took < 3, True)
            same("names of several kinds", [view.set(name, "1")[0] for name in ("pump-1.\u2028", "\ud83d\ude00", "speed", "pump-1." + "a" * 400, "pump-1.speed\u00a0", "*", "")], [409, 409, 200, 409, 409, 409, 409])
            plant.is_silent = True
            answers.clear()
            begins = time.monotonic()
            many = [threading.Thread(target=lambda: answers.append(view.set("pump-1.speed", "1")[0]), daemon=True) for _ in range(20)]
            for thread in many:
                thread.start()
            for thread in many:
                thread.join(30)
            took = time.monotonic() - begins
            same(f"a controller that does not answer: {answers}", (len(answers), set(answers) <= {503, 504}, took < 15), (20, True, True))
            plant.is_silent = False
            same("and then it does", view.set("pump-1.speed", "1501"), (200, None))
        return f"20 sets that nobody answers are refused within {took:.1f} s"

    def page_fuzz(self):
        """Requests of lines that are bent: none ends in a fault of the program, no thread is left, the memory is bounded, and the page is served afterwards."""
        plant = MadeUp(self.path("fuzz.lines"))
        two_signals(plant)
        lines = self.asked.fuzz or (10000 if self.asked.short else 100000)
        with View("--socket", plant.path, "--allow-set", errors=subprocess.DEVNULL) as view:
            view.waits(lambda state: raw_of(state, "pump-1.level") == "812", "the first values")
            for length in ("1" * 5000, "0" * 5000 + "2", "9" * 9):
                came = view.asked(f"POST /set HTTP/1.1\r\nHost: {view.host}\r\nContent-Length: {length}\r\n\r\n{{}}")
                same(f"a length of {len(length)} digits: {came[2]}", came[0], 403 if length.endswith("2") else 413)
            found = self.fuzzed(view, 2000, 1)
            before = (view.threads(), view.memory())
            found = self.fuzzed(view, lines, self.asked.seed or 2)
            awaited("no thread is left", lambda: view.threads() <= before[0], 30)
            grown = (view.memory() - before[1]) * os.sysconf("SC_PAGE_SIZE") // 1024
            counts = view.state()["counts"]
            same(f"{counts}, {found}", (counts["faults"], counts["pages"], found["statuses"].get("no answer", 0), grown < 8192), (0, 0, 0, True))
            same("and it goes on", (view.get("/")[0], view.set("pump-1.speed", "1600")), (200, (200, None)))
        return f"{found['lines']} lines in {found['requests']} requests, {counts['sets']} sets; the memory grows by {grown} KiB"

    @staticmethod
    def fuzzed(view, lines, seed):
        ran = subprocess.run([sys.executable, os.path.join(HOST, "test", "page_fuzz.py"), str(view.port), str(lines), str(seed)], capture_output=True, text=True, timeout=7200)
        same(f"page_fuzz.py: {ran.stderr[-2000:]}", ran.returncode, 0)
        return json.loads(ran.stdout)

    def page_again(self):
        """The controller ends and another one comes; the program's own lines go to a full disk, or to a pipe that nobody reads."""
        path = self.path("again.lines")
        unread, written = os.pipe()
        os.set_blocking(written, False)
        with contextlib.suppress(BlockingIOError):
            while True:
                os.write(written, bytes(4096))
        os.set_blocking(written, True)
        with open("/dev/full", "w", encoding="ascii") as full:
            for errors in (full, written):
                plant = MadeUp(path)
                two_signals(plant)
                with View("--socket", path, "--allow-set", errors=errors) as view:
                    view.waits(lambda state: raw_of(state, "pump-1.level") == "812", "the first values")
                    plant.close()
                    gone = view.waits(lambda state: not state["controller"]["running"] and state, "it is gone")
                    same("all is bad", ([one["good"] for one in gone["signals"]], station_of(gone)["state"]), ([False, False], "ended"))
                    same("a set is refused", view.set("pump-1.speed", "1")[0], 503)
                    plant = MadeUp(path + ".new")  # which nobody knows before it has its stations
                    two_signals(plant)
                    plant.change("pump-1.level", "813")
                    os.replace(path + ".new", path)
                    view.waits(lambda state: raw_of(state, "pump-1.level") == "813" and station_of(state)["state"] == "exchanging", "it is there again")
                    same("sets, whose lines cannot be written", [view.set("pump-1.speed", str(number)) for number in range(150)], [(200, None)] * 150)
                    plant.close()
        os.close(unread)
        os.close(written)

    @staticmethod
    def open_page(view):
        """A connection to the stream, which is not read."""
        link = socket.socket()
        link.setsockopt(socket.SOL_SOCKET, socket.SO_RCVBUF, 4096)
        link.connect(("127.0.0.1", view.port))
        link.sendall(f"GET /events HTTP/1.1\r\nHost: {view.host}\r\n\r\n".encode())
        time.sleep(0.02)
        return link

    @staticmethod
    def change_all(plant, over):
        """A hundred changes a second."""
        names, at = list(plant.values), 0
        while not over.wait(0.01):
            at += 1
            plant.change(names[at % len(names)], str(at % 65536))

    def page_installed(self, tree, place):
        """The installed page: its program and its unit."""
        environment = {**os.environ, "PYTHONPATH": os.path.join(tree, place), "PYTHONDONTWRITEBYTECODE": "1"}
        with View("--socket", "/nowhere", program=os.path.join(tree, "usr", "bin", "nandutable-view"), environment=environment) as view:
            for name in ("", "view.js", "icon.svg"):
                same(f"/{name}", view.get(f"/{name}")[0], 200)
        with open(os.path.join(tree, "lib/systemd/system/nandutable-view@.service"), encoding="utf-8") as file:
            lines = [line.rstrip("\n") for line in file if not line.startswith("#")]
        same("the unit's program", [line for line in lines if line.startswith("ExecStart")],
             ["ExecStart=/usr/bin/nandutable-view --socket /run/nandutable-controller/%I/lines $VIEW_WORDS"])
        same("it may do nothing else", {"CapabilityBoundingSet=", "NoNewPrivileges=yes", "DynamicUser=yes", "Group=nandutable"} <= set(lines), True)

    # ---- on a wire

    def page(self, wire):
        """The page of a real plant, without a browser: values, ports, diagnosis, alarms; it is killed and started again, and nobody loses a frame."""
        if lacks := self.has_no_signals():
            return lacks
        path = self.path("page.lines")
        device = self.device(wire, "page")
        controller = self.controller(wire, self.with_texts(self.signal_plan("pump-1", SIGNALS)), "--signals", "--times", "--socket", path, "--retry", "1")
        with View("--socket", path, "--allow-set") as view:
            view.waits(lambda state: (station_of(state) or {}).get("state") == "exchanging", "data is exchanged", 60)
            modules = view.waits(lambda state: [(one["slot"], one["subslot"], one["text"]) for one in station_of(state)["modules"] if one["slot"] in (1, 2)], "the names of the modules")
            same("the names of the modules", modules, [(1, None, 'Level "A" in mm'), (1, 1, "Level"), (2, None, "Pumpe f\u00fcr Halle 2" + 61 * "x")])
            device.ask("input 1 1 04d2", "note done")
            view.waits(lambda state: raw_of(state, "pump-1.level") == "1234", "the level")
            same("a set", view.set("pump-1.speed", "1500"), (200, None))
            device.expect("output 2 1 05dc")
            device.ask("diagnosis 1 1 3 6 appears", "note done")
            device.ask("alarm 1 1 c0ffee", "note done")
            view.waits(lambda state: [fault["text"] for fault in station_of(state)["diagnosis"]] == ["wire break"], "the diagnosis")
            device.ask("diagnosis 1 1 3 256 appears", "note done")
            view.waits(lambda state: [fault["text"] for fault in station_of(state)["diagnosis"]] == ["wire break", "Cell is used up"], "the diagnosis by the maker's text")
            view.waits(lambda state: any("error 256 (Cell is used up) appears" in alarm["text"] for alarm in state["alarms"]), "the alarm by the maker's text")
            device.ask("diagnosis 1 1 3 256 disappears", "note done")
            view.waits(lambda state: {alarm["octets"] for alarm in state["alarms"]} >= {"c0ffee"}, "the alarm")
            peers = view.waits(lambda state: [port["peers"] for port in station_of(state)["ports"] if port["peers"]], "the neighbour", 40)
            same("the controller is its neighbour", peers[0][0], {"port": "port-001", "station": "plc", "mac": CONTROLLER})
            view.waits(lambda state: (state["controller"]["neighbour"] or {}).get("chassis") == "pump-1", "the controller's neighbour")
            before = view.waits(lambda state: station_of(state)["interval"] and station_of(state), "the interval")
            same("its middle is a millisecond", 900 <= before["interval"]["p50"] <= 1200, True)
            port = view.port
        told = self.killed_and_started(path, port)
        controller.end()
        device.end()
        return told

    def page_own(self, wire):
        """A page that started its controller: neither outlives the other, and the relation is released."""
        if lacks := self.has_no_signals():
            return lacks
        wire.within(wire.controller, "ip", "link", "set", "lo", "up")
        device = self.device(wire, "page-own")
        plan = self.signal_plan("pump-1", SIGNALS)
        environment = {**os.environ, "NANDUTABLE_CONTROLLER": os.path.join(HOST, "build", self.kind, "nandutable-controller")}
        for number in (signal.SIGTERM, signal.SIGKILL):
            with View("c0", plan, "--allow-set", wire=wire, environment=environment) as view:
                view.waits(lambda state: (station_of(state) or {}).get("state") == "exchanging", "data is exchanged", 60)
                same("a set", view.set("pump-1.speed", "7"), (200, None))
                device.expect("output 2 1 0007")
                status, text = view.end(number)
                same(f"its status: {text}", status, 0 if number == signal.SIGTERM else -9)
                device.expect("phase none", 20)
        # The device loses its power, and the controller ends without --retry.
        with View("c0", plan, "--", "--patience", "10", wire=wire, environment=environment) as view:
            view.waits(lambda state: (station_of(state) or {}).get("state") == "exchanging", "data is exchanged", 60)
            device.end(9)
            view.process.wait(30)
            status, text = view.end()
            same(f"the controller's status: {text}", (status, "ended" in text), (4, True))

    @staticmethod
    def with_texts(path):
        """The catalogue of this file with names of its modules, and of an error of its maker."""
        with open(path, encoding="utf-8") as file:
            catalogue = json.load(file)
        targets = {slot["Slot"]: slot["ModuleItemTarget"] for slot in catalogue["Project"]["Slots"]}
        module = {item["ID"]: item for item in catalogue["ModuleItem"]}
        module[targets[1]]["Name"] = 'Level "A"\nin mm'
        module[targets[1]]["VirtualSubmoduleItem"][0]["Name"] = "Level"
        module[targets[2]]["Name"] = "Pumpe f\u00fcr Halle 2" + 61 * "x" + "\u00fc"
        for part in (*module[targets[2]]["VirtualSubmoduleItem"], *catalogue["DeviceAccessPointItem"]["VirtualSubmoduleItem"]):
            part.pop("Name", None)
        catalogue["ChannelDiagList"] = [{"ErrorType": 256, "Name": "Cell is used up"}, {"ErrorType": "x"}, 7]
        with open(path, "w", encoding="utf-8") as file:
            json.dump(catalogue, file)
        return path

    @staticmethod
    def killed_and_started(path, port):
        """Kills the page three times beside programs that never read. Returns what was received and lost."""
        talker, asleep = talk_to(path), talk_to(path)
        asleep.sendall(b"names\nget *\nstatistics\n" * 100)
        talker.settimeout(10)

        def counts():
            came = b""
            talker.sendall(b"statistics\n")
            while not re.search(rb"lines lost [0-9]+\n", came):
                came += talker.recv(65536)
            return [int(number) for number in re.search(rb"cyclic received ([0-9]+) lost ([0-9]+)", came).groups()]
        begins, before = time.monotonic(), counts()
        for _ in range(3):
            with View("--socket", path, port=port) as view:
                pages = [ViewTests.open_page(view) for _ in range(4)]
                view.waits(lambda state: raw_of(state, "pump-1.level") == "1234", "the level again")
                time.sleep(1)
            for page in pages:
                page.close()
        after, took = counts(), time.monotonic() - begins
        talker.close()
        asleep.close()
        received, lost = after[0] - before[0], after[1] - before[1]
        same(f"{received} frames in {took:.1f} s, {lost} lost", (received > 100, lost), (True, 0))
        return f"{received} frames in {took:.1f} s beside three pages that were killed, {lost} lost; load {os.getloadavg()[0]:.1f}"

    # ---- in a browser

    def browser(self, wire):
        """The page of a real plant in Chromium: values change, a pulled cable is seen, sets are refused and carried, keys, nothing from outside."""
        if lacks := self.has_no_signals() or browser.lacks():
            return f"NOT TRIED: {lacks}"
        path = self.path("browser.lines")
        device = self.device(wire, "browser")
        plan = self.signal_plan("pump-1", SIGNALS)
        controller = self.controller(wire, plan, "--signals", "--times", "--socket", path, "--retry", "1")
        with browser.Browser() as page, View("--socket", path) as view:
            port = view.port
            page.size(1200, 900)
            page.open(view.url)
            self.shows(page, ".state", "exchanging data", 60)
            for number in (1234, 4321, 815):
                device.ask(f"input 1 1 {number:04x}", "note done")
                self.shows(page, "td.value", f"{number}mm", 2)
            same("nothing can be set on this page", page.run("return document.querySelectorAll('table button').length"), 0)
            same("and its server refuses", self.set_by_script(page), [403, "this page is read-only: nandutable-view was started without --allow-set"])
            self.shows(page, ".picture text.name", "pump-1", 20)
            self.shows(page, "#cables li", "Controller, port-001 – pump-1, port-001", 30)
            self.shows(page, "#title", "Controller plc", 40)
            self.says(page, "one cable, from both of its ends", 1, "return document.querySelectorAll('#cables li, .picture .other').length")
            took = self.pulled(wire, page)
            same("complaints", [line for line in page.complaints() if "403" not in line], [])
            view.end(signal.SIGKILL)
            self.shows(page, "#live", "no data", 8)
            with View("--socket", path, "--allow-set", port=port):
                self.shows(page, "#live", "live", 10)
                page.open(view.url)
                self.shows(page, ".state", "exchanging data", 60)
                self.keys_and_sets(page, device)
            asked = page.requests()
        same(f"{len(asked)} requests: all to this server", [url for url in asked if not url.startswith(view.url) and not url.startswith(("data:", "about:", "chrome:"))], [])
        controller.end()
        device.end()
        return f"a pulled cable is seen within {took:.1f} s; {len(asked)} requests, all to the server of the page"

    def shows(self, page, place, text, seconds):
        """Waits until an element of this kind has this text. Returns the seconds."""
        return self.comes(page, f"{place} with {text!r}", lambda found: text in found, seconds,
                          "return [...document.querySelectorAll(arguments[0])].map((element) => element.textContent.trim())", place)

    def says(self, page, what, wanted, script, *words, seconds=20):
        """Waits until a script of the page returns this."""
        return self.comes(page, f"{what} is {wanted!r}", lambda found: found == wanted, seconds, script, *words)

    @staticmethod
    def comes(page, what, is_it, seconds, script, *words):
        """Waits until a script of the page returns what is wanted. Returns the seconds. A browser that draws late on this machine has more time: twenty times
        of what it takes for two frames."""
        begins, late = time.monotonic(), 0.0
        while not is_it(found := page.run(script, *words)):
            took = time.monotonic() - begins
            if took > seconds + late:
                page.waits(FRAMES)
                late = max(late, 20 * (time.monotonic() - begins - took))
            if took > seconds + late:
                raise AssertionError(f"{what}: not within {seconds} s, and {late:.1f} s for a late browser, but {found!r}")
            time.sleep(0.02)
        return time.monotonic() - begins

    @staticmethod
    def set_by_script(page):
        return page.waits("const done = arguments[0]; fetch('set', {method: 'POST', headers: {'Content-Type': 'application/json'}, body: JSON.stringify({name: 'pump-1.speed', value: '1'})})"
                          ".then(async (answer) => done([answer.status, (await answer.json()).reason]))")

    def pulled(self, wire, page):
        """Pulls the cable and plugs it again. Returns the seconds until the page says so."""
        wire.link("d0", "set", "d0", "down")
        took = self.shows_link(page)
        self.shows(page, ".quality", "bad", 5)
        wire.link("d0", "set", "d0", "up")
        self.shows(page, ".state", "exchanging data", 30)
        return took

    def shows_link(self, page):
        return self.comes(page, "the pulled cable is seen", lambda found: "down" in found, 2, "return document.getElementById('summary').lastElementChild.textContent")

    def keys_and_sets(self, page, device):
        """By the keyboard alone: the skip link, the search, the dialog."""
        focused = "const at = document.activeElement; return [at.tagName, at.id || at.textContent.trim(), getComputedStyle(at).outlineStyle]"
        page.keys("TAB")
        same("the first key goes to the skip link", page.run(focused), ["A", "Skip to the stations", "solid"])
        page.keys("ENTER")
        self.says(page, "where it skips to", "#stations-title", "return location.hash")
        page.keys("/")
        self.says(page, "the search", "find", "return document.activeElement.id")
        page.keys("leve")
        self.shows(page, "#found", "1 station, 1 signal found", 20)
        page.keys("ESCAPE")
        self.shows(page, "#found", "1 station, 2 signals", 20)
        # All is known of both signals: their rows are not made again.
        self.shows(page, "td.value", "815mm", 20)
        self.says(page, "the output has a row", True, "return document.querySelector(`[aria-label='Set pump-1.speed']`) !== null")
        seen = []
        while page.run("return document.activeElement.getAttribute('aria-label')") != "Set pump-1.speed":
            page.keys("TAB")
            seen.append(page.run(focused))
            same(f"the button is reached: {seen}", len(seen) < 12 and all(one[2] == "solid" for one in seen), True)
        page.keys("ENTER")
        self.says(page, "the dialog is open, in its field", [True, "set-value"], "return [document.getElementById('set').open, document.activeElement.id]")
        page.keys("70000", "ENTER")
        self.shows(page, "#set-answer", "Not set: Unsigned16 takes 0 to 65535", 20)
        same("complaints: of the refused one alone", [line for line in page.complaints() if "409" not in line and "events" not in line], [])
        page.run("document.getElementById('set-value').select()")
        page.keys("1500", "ENTER")
        device.expect("output 2 1 05dc")
        self.shows(page, "td.value", "1500rpm", 20)
        self.says(page, "the dialog is closed, and the focus is back", [False, "Set pump-1.speed"], "return [document.getElementById('set').open, document.activeElement.getAttribute('aria-label')]")
        page.keys("ENTER")
        self.says(page, "the dialog is open", True, "return document.getElementById('set').open")
        page.keys("ESCAPE")
        self.says(page, "Escape closes it", False, "return document.getElementById('set').open")

    def browser_made_up(self):
        """Plants that no test machine has, in Chromium: many stations, a ring, names that are meant to break the page; widths, contrast, motion."""
        if lacks := browser.lacks():
            return f"NOT TRIED: {lacks}"
        with browser.Browser() as page:
            told = self.in_all_sizes(page)
            told += "; " + self.in_modules(page)
            self.dialogs(page)
            self.hostile_names(page)
            told += "; " + self.many_stations(page)
        return told

    def in_all_sizes(self, page):
        """No width needs scrolling aside, and each text has its contrast, in both schemes, also while nothing arrives."""
        plant = self.plant_of_four()
        count = 0
        with View("--socket", plant.path, "--allow-set") as view:
            for scheme in ("light", "dark"):
                page.scheme(scheme, "reduce")
                for width in (320, 390, 900, 1400):
                    page.size(width, 900)
                    page.open(view.url)
                    self.shows(page, ".faults li", "wire break: slot 2 subslot 1, channel 0", 15)
                    self.shows(page, "#cables li", "flow-7, port-002 – weigher-1, port-001", 15)
                    same(f"{width} pixels", page.run("return document.documentElement.scrollWidth"), width)
                    count += self.has_contrast(page, f"{width} {scheme}")
                    same("each state has its word", page.run("return [...document.querySelectorAll('.state, .quality, .mark, .word')].filter((one) => !one.textContent.trim()).length"), 0)
                plant.change("pump-1.level", scheme)
                same("no motion", page.run("return document.getAnimations().length"), 0)
                self.says(page, "the output in its row", "1200", ROW, "pump-1.speed")
                page.run("document.querySelector('[aria-label=\"Set pump-1.speed\"]').click()")
                count += self.has_contrast(page, f"dialog {scheme}")
                page.keys("ESCAPE")
            view.end(signal.SIGKILL)
            self.shows(page, "#live", "no data", 8)
            count += self.has_contrast(page, "no data")
        return f"{count} elements have their contrast"

    def in_modules(self, page):
        """64 stations with 30 signals each, by module: bits side by side, names that are not parted within a word, the maker's own texts, a stall once and in
        milliseconds, at three widths. One station with 61 signals is short."""
        plant = MadeUp(self.path("modules.lines"))
        plant_of_modules(plant, 64)
        heights, longest = [], 0.0
        with View("--socket", plant.path, "--allow-set") as view:
            for width in (390, 1280, 1920):
                page.size(width, 900)
                page.scheme("dark" if width == 390 else "light", "reduce")
                page.open(view.url)
                self.shows(page, "#found", "64 stations, 1,920 signals", 60)
                same("all stations are closed", page.run("return document.querySelectorAll('.card details[open]').length"), 0)
                heights.append(page.run("return document.documentElement.scrollHeight"))
                self.shows(page, ".faults li", "Measuring tube is coated: slot 4 subslot 1 (Flow meter), channel 3", 15)
                self.shows(page, "#diagnosis strong", "Supply of the sensors is overloaded", 15)
                longest = max(longest, self.shows_out_of_sight(page, plant, "drive-60", f"wire break at {width} pixels"))
                page.run("const line = document.getElementById('station-drive-3').closest('summary'); line.scrollIntoView(); line.click()")
                self.says(page, "it is open", True, "return document.querySelector('.module h4') !== null")
                came = page.run(MODULES, "drive-3")
                same(f"modules at {width}", [(title, parts, [(words, count) for words, count, _ in bits], rows[:1]) for title, parts, bits, rows in came], [
                    ("Slot 18 digital inputs", [], [("Inputs", 8)], []), ("Slot 28 digital outputs", [], [("Outputs", 8)], []),
                    ("Slot 34 analog inputs, 4 to 20 mA", [], [], ["temperature_"]), ("Slot 4Flow meter", [], [("Inputs", 3)], ["flow"]),
                    ("Slot 5Carrier for submodules", ["Subslot 1Display", "Subslot 2", "Subslot 3Lamp"], [], ["display"])])
                same(f"bits side by side at {width}", [lines < count for _, _, bits, _ in came for _, count, lines in bits], [True] * 3)
                same(f"names at {width}", page.run(PARTED), [])
                same(f"nothing is wider than {width} pixels", page.run("return document.documentElement.scrollWidth"), width)
                self.has_contrast(page, f"modules {width}")
                happen(plant)
                self.says(page, "the stalls", ["The machine stood still: 6,000 ms were lost since the start, 3 times"],
                          "return [...document.querySelectorAll('#events li')].map((item) => item.lastChild.lastChild.textContent).filter((text) => text.includes('stood still'))")
                self.says(page, "the alarm", True, "return [...document.querySelectorAll('#events li')].some((item) => item.textContent.includes('Measuring tube is coated appearsslot 4 subslot 1 (Flow meter), channel 3'))")
            page.keys("/")
            page.keys("valve_7")
            self.shows(page, "#found", "64 stations, 64 signals found", 10)
            same("a search that finds many opens none but the one that was", page.run("return document.querySelectorAll('.card details[open]').length") <= 1, True)
            page.keys("ESCAPE", "ESCAPE")
            page.run("location.hash = '#station-drive-40'")
            self.says(page, "a link opens a station", True, "return document.getElementById('station-drive-40').closest('details').open")
        one = MadeUp(self.path("single.lines"))
        some = modules_of(1)[1]
        one.add("flow-7", [*some, *((f"{name}_b", *rest, slot + 5, subslot, octet, bit) for name, *rest, slot, subslot, octet, bit in some), ("last", "input", "Unsigned8", "1", "", "", 12, 1, 0, "-")])
        with View("--socket", one.path) as view:
            page.size(1280, 900)
            page.open(view.url)
            self.shows(page, "#found", "1 station, 61 signals", 30)
            self.says(page, "its modules", 11, "return document.querySelectorAll('.module').length")
            height = page.run("return document.documentElement.scrollHeight")
            same(f"61 signals take {height} pixels", height < 2000, True)
        return f"64 stations are {heights} pixels high, 61 signals {height}; a diagnosis out of sight is there after at most {longest:.2f} s"

    def shows_out_of_sight(self, page, plant, name, fault):
        """A diagnosis that comes while the station is far below what is seen is in its card at once. Returns the seconds."""
        top = page.run("return document.getElementById(`station-${arguments[0]}`).getBoundingClientRect().top - innerHeight", name)
        same(f"{name} is {top} pixels below what is seen", top > 400, True)
        plant.stations[name]["diagnosis"] = [f"3 1 2 6 ({fault})"]
        plant.tell(f"{name} alarm 1 3 1 43008 800008000100 (low priority, diagnosis, USI 8000 channel diagnosis: channel 2 error 6 ({fault}) appears)")
        took = self.shows(page, ".is-warn .faults li", f"{fault}: slot 3 subslot 1 (4 analog inputs, 4 to 20 mA), channel 2", 1)
        same(f"{name} is not scrolled to", page.run("return scrollY"), 0)
        return took

    def dialogs(self, page):
        """A text and a Boolean by the dialog: quotes and backslashes arrive as they were typed."""
        plant = MadeUp(self.path("dialogs.lines"))
        plant.add("flow-7", [("display", "output", "VisibleString", '"Hello, \\"world\\"!"', "", "Display"), ("valve", "output", "Boolean", "false", "", ""),
                             ("octets", "output", "OctetString", "00ff", "", "")])
        with View("--socket", plant.path, "--allow-set") as view:
            page.open(view.url)
            self.shows(page, "#found", "1 station, 3 signals", 15)
            for name in ("display", "valve", "octets"):
                self.says(page, f"{name} in its row", plant.values[f"flow-7.{name}"][2], ROW, f"flow-7.{name}")
            for name, keys, field, value in (("display", (), 'Hello, "world"!', '"Hello, \\"world\\"!"'), ("display", ('a "b" \\ c',), 'a "b" \\ c', '"a \\"b\\" \\\\ c"'),
                                             ("octets", ("a0b1",), "a0b1", "a0b1"), ("valve", ("ARROW_UP",), "true", "true"), ("valve", ("ARROW_DOWN",), "false", "false")):
                page.run("document.querySelector(`[aria-label='Set flow-7.${arguments[0]}']`).click()", name)
                if keys:
                    page.keys(*keys)
                self.says(page, f"the field of {name}", field, "return document.activeElement.value")
                page.keys("ENTER")
                self.says(page, "the dialog is open", False, "return document.getElementById('set').open")
                view.waits(lambda state: raw_of(state, f"flow-7.{name}") == value, f"{name} is {value}")
                # The next dialog begins with the value that the page has.
                self.says(page, f"{name} in its row", value, ROW, f"flow-7.{name}")

    @staticmethod
    def has_contrast(page, what):
        wrong, count = page.run(CONTRAST)
        same(f"contrast, {what}", wrong, [])
        return count

    def plant_of_four(self):
        switch = "02:00:00:00:09:01"
        plant = MadeUp(self.path("four.lines"))
        two_signals(plant, ports=[("port-001", [("port-002", "switch-a", switch)])])
        plant.add("flow-7", [("flow", "input", "Float32", "12.5", "l/s", "Flow"), ("pipe_full", "input", "Boolean", "true", "", ""), ("display", "output", "VisibleString", '"Hello, \\"world\\"!"', "", "")],
                  [("port-001", [("port-003", "switch-a", switch)]), ("port-002", [("port-001", "weigher-1", mac_of(3))])])
        plant.add("weigher-1", [("weight", "input", "Float32", "321.75", "kg", "Weight on the belt")], [("port-001", [("port-002", "flow-7", mac_of(2))])])
        two_signals(plant, "a-station-with-a-long-name.that-has-labels.and-goes-on", state="connecting")
        plant.neighbour = f"neighbour {switch} port 'port-001' of 'switch-a'"
        plant.stations["flow-7"]["diagnosis"] = ["2 1 0 6 (wire break)"]
        plant.stations["weigher-1"]["lost"] = 3
        return plant

    def hostile_names(self, page):
        """Names over LLDP that are markup are shown as they are, and do nothing."""
        plant = MadeUp(self.path("hostile.lines"))
        two_signals(plant, ports=[(f"port-{number:03}", [(name, name, f"02:00:00:00:0a:0{number}")]) for number, name in enumerate(HOSTILE, 1)])
        plant.values["pump-1.level"][4] = HOSTILE[0].replace("'", "")
        with View("--socket", plant.path) as view:
            page.open("about:blank")  # the page before may still ask for a server that is gone
            page.complaints()
            page.open(view.url)
            for number, name in enumerate(HOSTILE, 1):
                self.shows(page, "#cables li", f"pump-1, port-{number:03} – {name}, {name}", 15)
            same("none of them is an element", page.run("return [document.querySelectorAll('img, script:not([src]), body svg[onload]').length, document.title]"), [0, "Controller on eth2"])
            plant.tell(f"warning: {HOSTILE[0]}")
            self.comes(page, "the warning", lambda found: HOSTILE[0] in found, 20, "return document.getElementById('events').textContent")
            same("nor in what happened", page.run("return document.querySelectorAll('#events img').length"), 0)
            same("complaints", page.complaints(), [])

    def many_stations(self, page):
        """64 stations and 1,984 signals, a hundred changes a second: the page stays usable and finds one."""
        plant = MadeUp(self.path("many.lines"))
        line_of_stations(plant, 64, lambda number: [(f"value_{at}", "input" if at % 3 else "output", "Unsigned16", "0", "rpm", f"Value {at}") for at in range(31)])
        over = threading.Event()
        changes = threading.Thread(target=self.change_all, args=(plant, over), daemon=True)
        with View("--socket", plant.path) as view:
            page.size(1400, 900)
            page.scheme("light")
            page.open(view.url)
            self.shows(page, "#found", "64 stations, 1,984 signals", 60)
            changes.start()
            begins, used = time.monotonic(), view.processor_seconds()
            time.sleep(5)
            share = 100 * (view.processor_seconds() - used) / (time.monotonic() - begins)
            page.keys("/")
            page.keys("drive-17.value_5")
            self.shows(page, "#found", "1 station, 1 signal found", 5)
            over.set()
            changes.join()
            plant.change("drive-17.value_5", "4711")
            took = self.shows(page, "tr:not([hidden]) td.value", "4711rpm", 5)
            same("the picture has each of them", page.run("return document.querySelectorAll('.picture a').length"), 64)
            # All of them open: what a browser does while a hundred signals a second change. The page closes them in the frame in which the search is gone, and
            # that frame is drawn late on a busy machine.
            page.keys("ESCAPE")
            self.shows(page, "#found", "64 stations, 1,984 signals", 20)
            page.run("document.querySelectorAll('.card details').forEach((one) => (one.open = true))")
            page.waits(FRAMES)
            over.clear()
            changes = threading.Thread(target=self.change_all, args=(plant, over), daemon=True)
            changes.start()
            time.sleep(2)
            before, begins = page.processor_seconds(), time.monotonic()
            time.sleep(5)
            used = 100 * (page.processor_seconds() - before) / (time.monotonic() - begins)
            over.set()
            changes.join()
            same("all of them are open", page.run("return document.querySelectorAll('.card details[open]').length"), 64)
            plant.change("drive-1.value_1", "4712")
            self.shows(page, "tr:not([hidden]) td.value", "4712rpm", 10)
        return (f"one of 1,984 signals changes on the page within {took * 1000:.0f} ms; its server takes {share:.0f} % of a processor; "
                f"with all open, the browser takes {used:.0f} %")
