"""What a broker sends, before paho reads it. paho keeps each packet as a whole, however long it is, and each message of QoS 2 until the broker
releases it. So here

- a PUBLISH of MQTT 3.1.1 that is longer than `LONGEST` goes on with the begin of its payload alone, `CUT` octets: a set that is too long is
  refused with its answer, and the octets after them are dropped as they come;
- any other packet that is so long, and a PUBLISH of QoS 2, which the bridge did not subscribe to, is refused: the connection is made again.

What waits here is at most `AT_ONCE` octets.
"""

from __future__ import annotations

import time
from typing import Callable

LONGEST = 98304  # octets of a packet, without its fixed header
CUT = 8193  # octets of a payload that is cut: one more than a set may have
AT_ONCE = 4096

PUBLISH = 3
SEVEN_BITS = 127


class Refused(Exception):
    """The broker sent what it may not send. The connection has to end."""


def length_octets(length: int) -> bytes:
    """A Remaining Length as a fixed header has it (MQTT 3.1.1, 2.2.3)."""
    octets = bytearray()
    while True:
        length, low = divmod(length, 128)
        octets.append(low | (128 if length else 0))
        if not length:
            return bytes(octets)


class Inlet:
    """The stream of one connection. `may_cut` says whether long messages are cut: by MQTT 5 the broker is asked not to send them."""

    def __init__(self, may_cut: bool) -> None:
        self.may_cut = may_cut
        self.heard = time.monotonic()  # when octets came last
        self._came = bytearray()  # octets that were not looked at
        self._ready = bytearray()  # octets for paho
        self._head = bytearray()  # of a fixed header that is not whole, and of a long message up to the length of its topic
        self._body = 0  # octets that go on as they are
        self._skipped = 0  # octets that are dropped after them
        self._last = bytearray()  # the last octet of a message that is cut goes on after those

    @property
    def has_more(self) -> bool:
        """Whether there is something for paho that no system call would show."""
        return bool(self._ready or self._came)

    @property
    def is_skipping(self) -> bool:
        """Whether a long message arrives, whose rest is dropped."""
        return self._skipped > 0 and self._body == 0

    def receive(self, most: int, read: Callable[[int], bytes]) -> bytes:
        """At most that many octets for paho. `read` reads from the connection, and raises BlockingIOError if nothing is there; then so does this
        one. Returns b"" at the end of the stream. Raises `Refused`."""
        while not self._ready:
            if not self._came:
                octets = read(AT_ONCE)
                if not octets:
                    return b""
                self.heard = time.monotonic()
                self._came += octets
            self._look()
        taken = bytes(self._ready[:most])
        del self._ready[:most]
        return taken

    def _look(self) -> None:
        """Moves octets on, until there are some for paho or all were looked at."""
        while self._came and not self._ready:
            if self._body:
                self._ready += self._came[:self._body]
                self._body -= len(self._ready)
                del self._came[:len(self._ready)]
            elif self._skipped:
                dropped = min(self._skipped, len(self._came))
                self._skipped -= dropped
                del self._came[:dropped]
                if not self._skipped:
                    self._ready += self._last
                    self._last.clear()
            else:
                self._head.append(self._came[0])
                del self._came[:1]
                self._look_at_head()

    def _look_at_head(self) -> None:
        """A fixed header is whole with the first octet of its length that has no high bit; paho refuses one with five of them."""
        head = self._head
        ends = next((at for at in range(1, len(head)) if head[at] <= SEVEN_BITS), 0)
        if not ends and len(head) <= 5:
            return
        length = sum((head[at] & SEVEN_BITS) << 7 * (at - 1) for at in range(1, ends + 1))
        if head[0] >> 4 == PUBLISH and head[0] & 4:
            raise Refused("a message of QoS 2, which was not subscribed to")
        if length <= LONGEST:
            self._ready += head
            self._body = length
            head.clear()
        elif head[0] >> 4 != PUBLISH or not self.may_cut:
            raise Refused(f"a packet of {length} octets")
        elif len(head) == ends + 3:  # with the length of the topic
            self._cut(length, bytes(head[ends + 1:]))
            head.clear()

    def _cut(self, length: int, topic: bytes) -> None:
        kept = 2 + int.from_bytes(topic, "big") + (2 if self._head[0] & 2 else 0) + CUT
        if kept > LONGEST:  # nobody subscribes to such a topic
            raise Refused(f"a message whose topic has {int.from_bytes(topic, 'big')} octets")
        self._ready += self._head[:1] + length_octets(kept) + topic
        # All octets but the last one go on at once. Until that follows, paho waits, as it would for the whole message.
        self._body, self._skipped = kept - 3, length - kept
        self._last = bytearray(b" ")
        self._skipped += 1
