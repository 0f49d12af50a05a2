"""Packets: reading any bytes to a message or a refusal, and writing a message as a packet.

Written from docs/PROTOCOL.md, section 2 and grounds 3 to 8 of section 3, and from nothing else.
"""

from __future__ import annotations

from typing import Callable, NamedTuple, Optional, Sequence, Union

import values
from refusals import COMMAND, FRAME, HEAD, NOT_UTF8, PAYLOAD, TOO_LONG, Refused

LONGEST_PACKET = 512
HEAD_FIELDS = 4
MOST_GROUPS = 10
GREATEST_NUMBER = 65535
GREATEST_INDEX = 65535
GREATEST_COMMAND = 255

VERSIONS = (b"1.0", b"1.1")
NEWEST_VERSION = b"1.1"
REQUEST, ANSWER = b"R", b"A"
READ, WRITE, DISCOVERY = 1, 2, 3

DONE, NOT_FOUND, WRONG_TYPE, OUTSIDE = 0, 1, 2, 3
CODES = {b"0": DONE, b"1": NOT_FOUND, b"2": WRONG_TYPE, b"3": OUTSIDE}

NIL = "Nil"
NIL_TEXT = b"0"
IDENTIFIERS = {kind.encode(): kind for kind in values.KINDS + (NIL,)}

# The indices of a Discovery request: identifier and security mode.
DISCOVERED = (2, 3)


class Asked(NamedTuple):
    """A group of a read request or a Discovery request."""

    index: int

    def fields(self) -> list[bytes]:
        return [b"%d" % self.index]


class Put(NamedTuple):
    """A group of a write request. The text bears no type."""

    index: int
    text: bytes

    def fields(self) -> list[bytes]:
        return [b"%d" % self.index, self.text]


class Told(NamedTuple):
    """A group of a read answer or a Discovery answer."""

    code: int
    kind: str
    text: bytes

    def fields(self) -> list[bytes]:
        return [b"%d" % self.code, self.kind.encode(), self.text]


class Done(NamedTuple):
    """A group of a write answer."""

    code: int

    def fields(self) -> list[bytes]:
        return [b"%d" % self.code]


Group = Union[Asked, Put, Told, Done]


class Place(NamedTuple):
    """Where a part of a packet lies: the count of bytes before it, and its own."""

    start: int
    length: int


class Message(NamedTuple):
    """What a packet says. `places` has the places of the texts and values, from the left."""

    version: bytes
    direction: bytes
    number: int
    command: int
    groups: tuple[Group, ...]
    places: tuple[Place, ...] = ()


# ---- reading ----------------------------------------------------------------------------------


def read(packet: bytes) -> Message:
    """The message in a packet. Refused by 3 to 8."""
    if len(packet) > LONGEST_PACKET:
        raise Refused(TOO_LONG)
    if not is_framed(packet):
        raise Refused(FRAME)
    if not values.is_utf8(packet):
        raise Refused(NOT_UTF8)
    fields = packet[1:-1].split(b":")
    version, direction, number, command = read_head(fields)
    shape = SHAPES.get((direction, command))
    if shape is None:
        raise Refused(COMMAND, 3)
    groups = read_groups(fields, shape)
    return Message(version, direction, number, command, groups, places_of(fields, shape))


def is_framed(packet: bytes) -> bool:
    """Whether the packet starts with `{`, ends with `}`, and has no other brace (section 2.1)."""
    if len(packet) < 2 or packet[:1] != b"{" or packet[-1:] != b"}":
        return False
    return not any(byte in b"{}" for byte in packet[1:-1])


def numeral(field: Optional[bytes], greatest: int) -> Optional[int]:
    """The number of a field that is a numeral up to the greatest (section 2.2), or None."""
    return None if field is None else values.read_whole(field, 0, greatest)


def read_head(fields: list[bytes]) -> tuple[bytes, bytes, int, int]:
    """Version, direction, number and command (section 2.3). Refused by 6."""
    version, direction, number, command = (fields + [None] * HEAD_FIELDS)[:HEAD_FIELDS]
    if version not in VERSIONS or (version != NEWEST_VERSION and command == b"%d" % DISCOVERY):
        raise Refused(HEAD, 0)
    if direction not in (REQUEST, ANSWER):
        raise Refused(HEAD, 1)
    if numeral(number, GREATEST_NUMBER) is None:
        raise Refused(HEAD, 2)
    if numeral(command, GREATEST_COMMAND) is None:
        raise Refused(HEAD, 3)
    return version, direction, int(number), int(command)


class Shape(NamedTuple):
    """What the payload of a kind of packet is made of (section 2.4)."""

    width: int
    least: int
    most: int
    reader: Callable[[list[bytes], int], Group]
    text_at: Optional[int] = None


def read_groups(fields: list[bytes], shape: Shape) -> tuple[Group, ...]:
    """The groups of a payload. Refused by 8 with the first field at fault (section 2.6)."""
    groups: list[Group] = []
    at = HEAD_FIELDS
    while len(groups) < shape.least or at < len(fields):
        if len(groups) == shape.most:
            raise Refused(PAYLOAD, at)
        groups.append(shape.reader(fields, at))
        at += shape.width
    return tuple(groups)


def field_at(fields: list[bytes], at: int) -> bytes:
    """The field with this number; if it is missing, it is at fault."""
    if at >= len(fields):
        raise Refused(PAYLOAD, at)
    return fields[at]


def read_index(fields: list[bytes], at: int) -> int:
    index = numeral(field_at(fields, at), GREATEST_INDEX)
    if index is None:
        raise Refused(PAYLOAD, at)
    return index


def read_code(fields: list[bytes], at: int) -> int:
    code = CODES.get(field_at(fields, at))
    if code is None:
        raise Refused(PAYLOAD, at)
    return code


def read_asked(fields: list[bytes], at: int) -> Asked:
    return Asked(read_index(fields, at))


def read_discovered(fields: list[bytes], at: int) -> Asked:
    """A group of a Discovery request: the first is exactly `2`, the second exactly `3`."""
    index = read_index(fields, at)
    if index != DISCOVERED[at - HEAD_FIELDS]:
        raise Refused(PAYLOAD, at)
    return Asked(index)


def read_put(fields: list[bytes], at: int) -> Put:
    index = read_index(fields, at)
    text = field_at(fields, at + 1)
    if not values.is_value_text(text):
        raise Refused(PAYLOAD, at + 1)
    return Put(index, text)


def read_told(fields: list[bytes], at: int) -> Told:
    """Code, type and value. Where two do not go together, the later one is at fault."""
    code = read_code(fields, at)
    kind = IDENTIFIERS.get(field_at(fields, at + 1))
    if kind is None or (kind == NIL) == (code == DONE):
        raise Refused(PAYLOAD, at + 1)
    text = field_at(fields, at + 2)
    if not (text == NIL_TEXT if kind == NIL else values.read(kind, text) is not None):
        raise Refused(PAYLOAD, at + 2)
    return Told(code, kind, text)


def read_done(fields: list[bytes], at: int) -> Done:
    return Done(read_code(fields, at))


SHAPES = {
    (REQUEST, READ): Shape(1, 1, MOST_GROUPS, read_asked),
    (ANSWER, READ): Shape(3, 1, MOST_GROUPS, read_told, text_at=2),
    (REQUEST, WRITE): Shape(2, 1, MOST_GROUPS, read_put, text_at=1),
    (ANSWER, WRITE): Shape(1, 1, MOST_GROUPS, read_done),
    (REQUEST, DISCOVERY): Shape(1, len(DISCOVERED), len(DISCOVERED), read_discovered),
    (ANSWER, DISCOVERY): Shape(3, len(DISCOVERED), len(DISCOVERED), read_told, text_at=2),
}


def places_of(fields: list[bytes], shape: Shape) -> tuple[Place, ...]:
    """The places of the texts and values of a well-formed packet (section 2.7)."""
    if shape.text_at is None:
        return ()
    numbers = range(HEAD_FIELDS + shape.text_at, len(fields), shape.width)
    return tuple(Place(1 + sum(len(field) + 1 for field in fields[:at]), len(fields[at])) for at in numbers)


# ---- writing ----------------------------------------------------------------------------------


def write(message: Message) -> bytes:
    """The packet that says this message (section 2.8)."""
    fields = [message.version, message.direction, b"%d" % message.number, b"%d" % message.command]
    for group in message.groups:
        fields += group.fields()
    return b"{" + b":".join(fields) + b"}"


def request(number: int, command: int, groups: Sequence[Group]) -> bytes:
    """The request that a catalogue writes."""
    return write(Message(NEWEST_VERSION, REQUEST, number, command, tuple(groups)))


def answer(to: Message, groups: Sequence[Group]) -> bytes:
    """The answer to a request: it bears the request's version, number and command."""
    return write(Message(to.version, ANSWER, to.number, to.command, tuple(groups)))


def discovery_request() -> bytes:
    return request(0, DISCOVERY, [Asked(index) for index in DISCOVERED])


def told(code: int, value: Optional[values.Value] = None) -> Told:
    """The group for what a read gave: a value in its one spelling, or a code other than 0."""
    if value is None:
        return Told(code, NIL, NIL_TEXT)
    return Told(code, value.kind, values.spell(value))
