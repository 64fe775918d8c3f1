"""A connection to a broker of MQTT, by paho's client, and what waits to be published. One thread uses it; only `wake` is for all.

What waits is bounded:

- of each retained topic only the newest payload waits;
- of events (alarms, messages, answers) at most `EVENTS`: if more wait, the oldest is dropped and counted;
- of answers to sets at most `EVENTS` as well, by themselves: who sends many sets pushes out no alarm;
- paho gets the next packet only when the last one was written to the socket, so its own queue has one packet at most; of events and answers at
  most `IN_FLIGHT` wait for the broker's acknowledgement;
- what the broker sends is bounded by `inlet`, and nothing of it is read while something waits to be written.

While there is no broker the payloads of the retained topics are replaced as they change, and events wait. Each connection begins with all
retained topics again.
"""

from __future__ import annotations

import collections
import select
import socket
import ssl
import time
from dataclasses import dataclass
from typing import Any, Callable, Deque, Dict, Optional, Tuple

from paho.mqtt import client as mqtt
from paho.mqtt.packettypes import PacketTypes
from paho.mqtt.properties import Properties
from paho.mqtt.subscribeoptions import SubscribeOptions

from .inlet import Inlet, Refused

EVENTS = 256
IN_FLIGHT = 20
AT_ONCE = 500  # packets in one turn
READ_AT_ONCE = 200  # times that paho reads in one turn
ANSWERS_WITHIN = 10.0  # seconds within which the broker answers to a connection
LEAST_PAUSE, MOST_PAUSE = 0.5, 10.0  # seconds from one attempt to connect to the next
LONGEST_WAIT = 0.5
# What a broker that closes a connection, which was made, makes of the next octets sent. One that wants a certificate does so after the handshake.
ENDED = (ssl.SSLEOFError, ssl.SSLZeroReturnError, ConnectionResetError, BrokenPipeError)
LONGEST_PACKET = 32768  # octets that the broker may send at once, by MQTT 5


Message = Tuple[str, bytes]


@dataclass
class Address:
    """Where the broker is, and how it is spoken to."""

    host: str = "localhost"
    port: int = 1883
    keepalive: int = 20
    identifier: str = ""
    is_five: bool = True
    username: Optional[str] = None
    password: Optional[str] = None
    context: Optional[ssl.SSLContext] = None


class Client(mqtt.Client):
    """paho's client, which reads through an `Inlet`."""

    def __init__(self, address: Address) -> None:
        # Since version 2 the first word says which form the callbacks have.
        version = getattr(mqtt, "CallbackAPIVersion", None)
        form = {} if version is None else {"callback_api_version": version.VERSION1}
        super().__init__(client_id=address.identifier, protocol=mqtt.MQTTv5 if address.is_five else mqtt.MQTTv311, reconnect_on_failure=False, **form)
        self.inlet = Inlet(may_cut=not address.is_five)

    def _sock_recv(self, bufsize: int) -> bytes:
        return self.inlet.receive(bufsize, super()._sock_recv)


class Broker:
    """The connection, made again whenever it breaks. `will` is the retained message that the broker publishes if this program dies.
    `on_message` is called with the topic, the payload and whether the message was retained, `on_state` with a text for the log."""

    def __init__(self, address: Address, will: Tuple[str, bytes], subscribed: Optional[str], on_message: Callable[[str, bytes, bool], None],
                 on_state: Callable[[str], None]) -> None:
        self.address, self.will, self.subscribed, self.on_message, self.on_state = address, will, subscribed, on_message, on_state
        self.retained: Dict[str, bytes] = {}
        self.published = self.replaced = self.dropped = self.connections = 0
        self.is_connected = False
        self._dirty: Dict[str, None] = {}
        self._events: Deque[Message] = collections.deque()
        self._answers: Deque[Message] = collections.deque()
        self._unconfirmed: Dict[int, Tuple[Message, bool]] = {}  # each with whether it is an answer
        self._is_answer_next = False
        self._client: Optional[Client] = None
        self._gives_up_at = 0.0
        self._begins_at, self._pause = 0.0, LEAST_PAUSE
        self._told = ""
        self._wake, self._woken = socket.socketpair()
        self._wake.setblocking(False)
        self._woken.setblocking(False)

    # -- what waits

    def put(self, topic: str, payload: bytes) -> None:
        """Publishes a retained payload, unless the topic has it."""
        if self.retained.get(topic) != payload:
            self.retained[topic] = payload
            self.replaced += topic in self._dirty
            self._dirty[topic] = None

    def say(self, topic: str, payload: bytes) -> None:
        """Publishes an event."""
        self._events.append((topic, payload))
        self._bound(self._events)

    def answer(self, topic: str, payload: bytes) -> None:
        """Publishes the answer to a set."""
        self._answers.append((topic, payload))
        self._bound(self._answers)

    def _bound(self, waiting: Deque[Message]) -> None:
        while len(waiting) > EVENTS:
            waiting.popleft()
            self.dropped += 1

    @property
    def waits(self) -> int:
        """How many payloads wait."""
        return len(self._dirty) + len(self._events) + len(self._answers) + len(self._unconfirmed)

    def wake(self) -> None:
        """Ends a `turn` that waits. Any thread may call it."""
        try:
            self._wake.send(b"\0")
        except OSError:
            pass  # it is full, so the turn ends anyway; or closed

    # -- a turn

    def turn(self, wait: float) -> None:
        """Waits at most that many seconds for something to do, and does it."""
        try:
            if self._client is None and time.monotonic() >= self._begins_at:
                self._begin()
            self._look(min(wait, LONGEST_WAIT))
            self._keep_up()
            self._flush()
        except OSError as fault:
            self._over(f"the connection is lost: {fault}")
        except Refused as fault:
            self._over(f"it sent what it may not send: {fault}")
        except Exception as fault:  # a broker that speaks no MQTT makes paho raise errors of many kinds
            self._over(f"it sent what is not understood: {type(fault).__name__}: {fault}")

    def _keep_up(self) -> None:
        """Tests a silent connection, and gives up one that does not come about."""
        client = self._client
        if client is None:
            return
        now = time.monotonic()
        if not client.inlet.is_skipping:
            client.loop_misc()
        elif now - client.inlet.heard > self.address.keepalive:
            self._over("it goes on with no message")  # no answer to a ping can come in the middle of one
        if not self.is_connected and self._client is client and now >= self._gives_up_at:
            self._over(f"it does not answer within {ANSWERS_WITHIN:g} s")

    def _look(self, wait: float) -> None:
        poll = select.poll()
        poll.register(self._woken, select.POLLIN)
        client = self._client
        link = client.socket() if client is not None else None
        is_full = client is not None and client.want_write()
        if link is not None:
            # A broker that sends and does not read: what paho would answer to it must not pile up.
            poll.register(link, select.POLLOUT if is_full else select.POLLIN)
        has_more = client is not None and not is_full and self._has_more(client)
        ready = dict(poll.poll(0 if self._can_send() or has_more else wait * 1000))
        if self._woken.fileno() in ready:
            self._drain()
        if client is None or link is None or not (link.fileno() in ready or has_more):
            return
        if is_full:
            client.loop_write()
        else:
            self._read(client)

    @staticmethod
    def _has_more(client: Client) -> bool:
        """Whether there is something to read that the socket does not show."""
        link = client.socket()
        return client.inlet.has_more or isinstance(link, ssl.SSLSocket) and link.pending() > 0

    def _read(self, client: Client) -> None:
        """Reads what is there, up to a limit for each turn."""
        for _ in range(READ_AT_ONCE):
            client.loop_read()
            if client is not self._client or client.socket() is None or client.want_write() or not self._has_more(client):
                return

    def _drain(self) -> None:
        try:
            while self._woken.recv(4096):
                pass
        except OSError:
            pass

    def _can_send(self) -> bool:
        return self.is_connected and self._client is not None and not self._client.want_write() and bool(self._dirty or self._has_event())

    def _has_event(self) -> bool:
        return bool(self._events or self._answers) and len(self._unconfirmed) < IN_FLIGHT

    def _next_event(self) -> Tuple[Message, bool]:
        """The next event or answer, in turns, and whether it is an answer."""
        self._is_answer_next = bool(self._answers) and (self._is_answer_next or not self._events)
        is_answer = self._is_answer_next
        self._is_answer_next = not is_answer
        return (self._answers if is_answer else self._events).popleft(), is_answer

    def _flush(self) -> None:
        """Hands packets to paho while it has none that waits."""
        for _ in range(AT_ONCE):
            if not self._can_send():
                return
            assert self._client is not None
            if self._has_event():
                event, is_answer = self._next_event()
                info = self._client.publish(*event, qos=1)
                self._unconfirmed[info.mid] = (event, is_answer)
            else:
                topic = next(iter(self._dirty))
                del self._dirty[topic]
                self._client.publish(topic, self.retained[topic], qos=0, retain=True)
            self.published += 1

    # -- the connection

    def _begin(self) -> None:
        """Begins a connection, by a client of its own: nothing of the last one is left in it."""
        address = self.address
        client = Client(address)
        client.on_connect, client.on_disconnect, client.on_message, client.on_publish = self._on_connect, self._on_disconnect, self._on_message, self._on_publish
        client.will_set(*self.will, qos=1, retain=True)
        if address.username is not None:
            client.username_pw_set(address.username, address.password)
        if address.context is not None:
            client.tls_set_context(address.context)
        self._client = client
        try:
            if address.is_five:
                properties = Properties(PacketTypes.CONNECT)
                properties.MaximumPacketSize = LONGEST_PACKET
                client.connect(address.host, address.port, address.keepalive, clean_start=True, properties=properties)
            else:
                client.connect(address.host, address.port, address.keepalive)
            link: Any = client.socket()
            link.setsockopt(socket.IPPROTO_TCP, socket.TCP_NODELAY, 1)
        except ENDED as fault:
            self._over(f"the connection is lost: {fault}")
            return
        except (OSError, ValueError) as fault:
            self._over(str(fault) or type(fault).__name__)
            return
        self._gives_up_at = time.monotonic() + ANSWERS_WITHIN

    def _over(self, why: str) -> None:
        """The connection has ended, or was not made. What was not acknowledged is an event again."""
        client, self._client, was_connected = self._client, None, self.is_connected
        self.is_connected = False
        if client is not None:
            client.on_connect = client.on_disconnect = client.on_message = client.on_publish = None
            if client.socket() is not None:
                client.socket().close()
        for event, is_answer in reversed(self._unconfirmed.values()):
            (self._answers if is_answer else self._events).appendleft(event)
        self._unconfirmed.clear()
        self._bound(self._events)
        self._bound(self._answers)
        self._pause = LEAST_PAUSE if was_connected else min(2 * self._pause, MOST_PAUSE)
        self._begins_at = time.monotonic() + self._pause
        self._tell(f"no connection to the broker {self.address.host}:{self.address.port}: {why}")

    def _tell(self, text: str) -> None:
        """Tells the log, but not the same twice."""
        if text != self._told:
            self._told = text
            self.on_state(text)

    def _on_connect(self, client: mqtt.Client, _: Any, __: Any, reason: Any, *___: Any) -> None:
        if reason != 0:
            self._over(f"it refuses the connection: {reason if self.address.is_five else mqtt.connack_string(reason)}")
            return
        if self.subscribed is not None and self.address.is_five:
            client.subscribe(self.subscribed, options=SubscribeOptions(qos=1, noLocal=True, retainAsPublished=True))
        elif self.subscribed is not None:
            client.subscribe(self.subscribed, qos=1)
        self.is_connected, self.connections = True, self.connections + 1
        self._dirty = dict.fromkeys(self.retained)
        # The bridge's own state goes last: where it says online, all others are of now.
        if self.will[0] in self._dirty:
            del self._dirty[self.will[0]]
            self._dirty[self.will[0]] = None
        self._tell(f"connected to the broker {self.address.host}:{self.address.port}")

    def _on_disconnect(self, client: mqtt.Client, _: Any, reason: Any, *__: Any) -> None:
        if client is self._client:
            self._over("the connection is lost" if isinstance(reason, int) else f"the connection has ended: {reason}")

    def _on_publish(self, _: mqtt.Client, __: Any, number: int) -> None:
        self._unconfirmed.pop(number, None)

    def _on_message(self, _: mqtt.Client, __: Any, message: mqtt.MQTTMessage) -> None:
        try:
            topic = message.topic
        except UnicodeDecodeError:
            return
        self.on_message(topic, message.payload, message.retain)

    def close(self, last: bytes, seconds: float = 2.0) -> None:
        """Publishes what waits and, as the last one, this payload of the will's topic; then ends the connection in order, so that the broker does
        not publish the will."""
        ends = time.monotonic() + seconds
        while self.is_connected and self.waits and time.monotonic() < ends:
            self.turn(0.05)
        self.retained[self.will[0]] = last
        self._dirty[self.will[0]] = None
        while self.is_connected and self._dirty and time.monotonic() < ends:
            self.turn(0.05)
        if self._client is not None and self.is_connected:
            self._client.on_disconnect = None
            self._client.disconnect()
        self._client, self.is_connected = None, False
