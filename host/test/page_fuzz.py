#!/usr/bin/env python3
"""What may be sent to the server of the page: page_fuzz.py PORT LINES SEED [CLIENTS]. It sends requests with as many lines in all, most of them bent,
and prints as JSON how many there were, and how many answers of each status."""

import collections
import json
import random
import socket
import sys
import threading

METHODS = ("GET", "POST", "HEAD", "PUT", "get", "", "\0", "GET" * 100, "OPTIONS", "é")
PATHS = ("/", "/state", "/set", "/view.js", "/events", "//", "/../view.py", "/%00", "*", "http://localhost/", "/" + "a" * 3000, "/\udc80", "/?" + "=&" * 200, "\\", "")
VERSIONS = ("HTTP/1.1", "HTTP/1.0", "HTTP/0.9", "HTTP/2.0", "HTTP/1." + "9" * 5000, "HTTP/", "http/1.1", "HTTP/1.1.1", "", "HTTP/-1.1", "HTTP/1.1 more")
NUMBERS = ("0", "2", "-1", "+2", "1" * 5000, "0" * 5000 + "2", "9000", "8192", "2, 2", "0x2", "２", "1e3", " 2 ", "2\x0b", "18446744073709551616", "")
HOSTS = ("localhost", "127.0.0.1", "[::1]", "[::1", "a" * 300, "evil.example", "localhost:" + "9" * 5000, "", ":", "\xff", "127.0.0.1:80:80", "[", "]", "localhost.")
NAMES = ("Host", "Content-Length", "Content-Type", "Origin", "Sec-Fetch-Site", "Transfer-Encoding", "Connection", "Expect", "X" * 2000, "", " Host", "Host ", "A\0b", "Cookie", "Content-length", "é")
OTHERS = ("application/json", "text/plain", "same-origin", "cross-site", "chunked", "keep-alive", "close", "100-continue", "http://localhost", "null", "\0", "a\rb", "=?utf-8?q?=ff?=", "; charset=\"", "é" * 100,
          "multipart/form-data; boundary=" + "x" * 500, "x;" * 500)
BODIES = ('{"name": "pump-1.speed", "value": "7"}', '{"name": "pump-1.speed", "value": "\\ud800"}', '{"name": "ü", "value": "7"}', '{"name": "pump-1.speed", "value": "\\u0085"}', "{}", "[" * 8000, '"' * 100, "\0",
          '{"name": "pump-1.speed", "value": "' + "9" * 7000 + '"}', '{"name": "' + "a" * 7000 + '", "value": "7"}', '{"name": "pump-1.level", "value": "1"}', "1" * 8000, "NaN", "é")


def request(rng, host):
    """A request, and the number of its lines. One of four is as it should be but for one thing."""
    lines = [f"{rng.choice(METHODS)} {rng.choice(PATHS)} {rng.choice(VERSIONS)}"]
    body = rng.choice(BODIES)
    if rng.random() < 0.5:
        lines = ["POST /set HTTP/1.1", f"Host: {host}", f"Origin: http://{host}", "Content-Type: application/json", f"Content-Length: {len(body.encode())}"]
        if rng.random() < 0.6:
            lines[rng.randrange(len(lines))] = header(rng)
    for _ in range(rng.choice((0, 0, 0, 1, 3, 8, 20, 60))):
        lines.insert(rng.randrange(len(lines)) + 1, header(rng))
    octets = bytearray(rng.choice(("\r\n",) * 8 + ("\n", "\r")).join([*lines, "", body]).encode("utf-8", "surrogateescape"))
    for _ in range(rng.choice((0, 0, 0, 1, 3, 10))):
        octets[rng.randrange(len(octets))] = rng.randrange(256)
    return bytes(octets[:rng.randrange(len(octets))] if rng.random() < 0.05 else octets), len(lines) + 1


def header(rng):
    return rng.choice(NAMES) + rng.choice((": ", ":", " : ", "", ":\t")) + rng.choice(rng.choice((NUMBERS, HOSTS, OTHERS)))


class Client(threading.Thread):
    """Sends requests until its lines are done."""

    def __init__(self, port, lines, seed):
        super().__init__(daemon=True)
        self.port, self.left, self.rng = port, lines, random.Random(seed)
        self.sent, self.lines, self.statuses = 0, 0, collections.Counter()

    def run(self):
        while self.lines < self.left:
            octets, lines = request(self.rng, f"127.0.0.1:{self.port}")
            self.statuses[self.answer(octets)] += 1
            self.sent, self.lines = self.sent + 1, self.lines + lines

    def answer(self, octets):
        """The status, or why nothing came."""
        try:
            with socket.create_connection(("127.0.0.1", self.port), 20) as link:
                link.sendall(octets)
                link.shutdown(socket.SHUT_WR)
                came = link.recv(4096)
                return came[9:12].decode("latin-1") if came.startswith(b"HTTP/1.") else "closed" if not came else "no head"
        except TimeoutError:
            return "no answer"
        except OSError:  # it is closed before all was sent
            return "reset"


def main(port, lines, seed, clients=4):
    made = [Client(port, lines // clients, seed + number) for number in range(clients)]
    for client in made:
        client.start()
    for client in made:
        client.join()
    if any(client.lines < client.left for client in made):
        sys.exit("page_fuzz: a client has failed")
    total = sum((client.statuses for client in made), collections.Counter())
    print(json.dumps({"requests": sum(client.sent for client in made), "lines": sum(client.lines for client in made), "statuses": total}))


if __name__ == "__main__":
    main(*map(int, sys.argv[1:]))
