"""Packets that are likely to show a mistake in the reading of packets.

`packet_vectors.py` takes them with a fixed seed, `random_lines.py` with any. Nothing here says what the
right answer is; about half of the packets are damaged on purpose, mostly in one place.
"""

from __future__ import annotations

import texts
import values
from dice import Dice
from packets import ANSWER, DISCOVERY, LONGEST_PACKET, READ, REQUEST, WRITE
from values import KINDS

# The six kinds of packets.
SIX = tuple((direction, command) for command in (READ, WRITE, DISCOVERY) for direction in (REQUEST, ANSWER))

VERSION_FIELDS = (b"", b"1", b"1.", b".1", b"1.2", b"0.1", b"2.0", b"1.00", b"1.10", b"1.01", b"01.1", b"1,1", b"11",
                  b" 1.1", b"1.1 ", b"1.1\x00", b"+1.1", b"-1.1", b"1.1.1", b"v1.1", b"R", b"7")
DIRECTION_FIELDS = (b"", b"r", b"a", b"RR", b"RA", b"AR", b"R ", b" R", b"R\x00", b"Q", b"0", b"1", b"1.1",
                    b"\xd0\x90")
NUMBER_FIELDS = (b"", b"-0", b"-1", b"00", b"01", b"007", b"+7", b"7.", b"7.0", b"7E0", b" 7", b"7 ", b"7\x00",
                 b"0x7", b"65534", b"65535", b"65536", b"65537", b"65540", b"66535", b"75535", b"99999", b"100000",
                 b"165535", b"655350", b"4294967295", b"4294967296", b"4294967303", b"18446744073709551615",
                 b"18446744073709551616", b"18446744073709551623", b"9" * 41, b"0" * 41, b"x", b"R", b"\xd9\xa7")
COMMAND_FIELDS = (b"", b"-0", b"-1", b"00", b"01", b"02", b"03", b"003", b"+1", b"+3", b"1.0", b"3.0", b" 1", b"3 ",
                  b"254", b"255", b"256", b"257", b"258", b"259", b"260", b"300", b"512", b"513", b"515", b"999",
                  b"1000", b"65537", b"65539", b"4294967297", b"4294967299", b"18446744073709551619", b"x", b"R")
KNOWN_NOWHERE = (b"0", b"4", b"5", b"9", b"10", b"11", b"12", b"13", b"30", b"31", b"33", b"99", b"100", b"200", b"255")
CODE_FIELDS = (b"", b"-0", b"-1", b"00", b"01", b"03", b"+0", b"0 ", b" 0", b"0.0", b"0\x00", b"4", b"5", b"9", b"10",
               b"11", b"30", b"256", b"Nil", b"x")
TYPE_FIELDS = (b"", b"bo", b"BO", b"in", b"IN", b"Int", b"sh", b"Ush", b"USH", b"USh ", b" USh", b"Us", b"lo", b"si",
               b"do", b"by", b"BY", b"st", b"STR", b"nil", b"NIL", b"Ni", b"Nill", b"Nil\x00", b"B", b"0", b"Bo,In")
INDEX_FIELDS = NUMBER_FIELDS
TEXT_FIELDS = (b"", b"a" * 41, b"a" * 42, b"a" * 80, b"0" * 41, "é".encode() * 21, b"a" * 39 + "é".encode(),
               b"\xe2\x98\x83" * 14)
NIL_FIELDS = (b"", b"1", b"00", b"-0", b"0.0", b"0E0", b"+0", b" 0", b"0 ", b"0\x00", b"Nil", b"False", b"null")
ODD_FIELDS = (b"", b"0", b"1", b"2", b"3", b"4", b"-0", b"00", b"03", b"65535", b"65536", b"1.0", b"1.1", b"R", b"A",
              b"Nil", b"By", b"St", b"True", b"Vega", b"\x00", b" ", b"a" * 40, b"a" * 41)


# ---- fields and packets -----------------------------------------------------------------------


def framed(fields: list[bytes]) -> bytes:
    return b"{" + b":".join(fields) + b"}"


def roles_of(direction: bytes, command: int) -> tuple[str, ...]:
    """What the fields of a group are, for a kind of packet."""
    if direction == ANSWER:
        return ("code",) if command == WRITE else ("code", "type", "value")
    return ("index", "text") if command == WRITE else ("index",)


def sound_value(dice: Dice) -> tuple[str, bytes]:
    """A type and a text that reads as it."""
    while True:
        kind, text = texts.some_value(dice)
        if values.read(kind, text) is not None:
            return kind, text


def sound_text(dice: Dice) -> bytes:
    """A value text."""
    while True:
        text = texts.some_text(dice) if dice.once_in(2) else texts.some_for(dice, dice.pick(KINDS))
        if values.is_value_text(text):
            return text


def some_index(dice: Dice) -> bytes:
    if dice.once_in(3):
        return b"%d" % dice.pick((0, 1, 2, 3, 4, 9, 10, 99, 100, 101, 255, 256, 999, 1000, 9999, 10000, 65534, 65535))
    return b"%d" % dice.below(65536)


def some_group(dice: Dice, direction: bytes, command: int) -> list[bytes]:
    """The fields of a group as the rules want them."""
    if direction == REQUEST:
        return [some_index(dice)] + ([sound_text(dice)] if command == WRITE else [])
    if command == WRITE:
        return [dice.pick((b"0", b"0", b"1", b"2", b"3"))]
    if dice.once_in(4):
        return [dice.pick((b"1", b"2", b"3")), b"Nil", b"0"]
    kind, text = sound_value(dice)
    return [b"0", kind.encode(), text]


def sound_fields(dice: Dice) -> list[bytes]:
    """The fields of a packet that keeps all rules."""
    direction, command = dice.pick(SIX)
    version = b"1.0" if command != DISCOVERY and dice.once_in(3) else b"1.1"
    fields = [version, direction, some_index(dice), b"%d" % command]
    if (direction, command) == (REQUEST, DISCOVERY):
        return fields + [b"2", b"3"]
    count = 2 if command == DISCOVERY else dice.pick((1, 1, 1, 2, 2, 3, 4, 8, 9, 10, 10))
    for _ in range(count):
        fields += some_group(dice, direction, command)
    return fields


# ---- damage -----------------------------------------------------------------------------------


def wrong_field(dice: Dice, fields: list[bytes], at: int) -> bytes:
    """A field that is likely to be wrong at this place, or just about right."""
    if at < 4:
        return dice.pick((VERSION_FIELDS, DIRECTION_FIELDS, NUMBER_FIELDS, COMMAND_FIELDS + KNOWN_NOWHERE)[at])
    if len(fields) < 4 or fields[3] not in (b"1", b"2", b"3") or dice.once_in(6):
        return dice.pick(ODD_FIELDS)
    roles = roles_of(fields[1], int(fields[3]))
    role = roles[(at - 4) % len(roles)]
    if role == "index":
        return dice.pick(INDEX_FIELDS)
    if role == "code":
        return dice.pick(CODE_FIELDS + (b"0", b"1", b"2", b"3"))
    if role == "type":
        return dice.pick(TYPE_FIELDS + (b"Nil",)) if dice.once_in(2) else dice.pick(KINDS).encode()
    if role == "text" or dice.once_in(3):
        return dice.pick(TEXT_FIELDS)
    return dice.pick(NIL_FIELDS) if dice.once_in(2) else texts.some_value(dice)[1]


def damaged_fields(dice: Dice, fields: list[bytes]) -> list[bytes]:
    """The fields with one change."""
    at = dice.below(len(fields))
    if dice.once_in(4):
        at = min(at, dice.below(6))
    style = dice.below(9)
    if style < 3:
        return fields[:at] + [wrong_field(dice, fields, at)] + fields[at + 1 :]
    if style == 3:
        return fields[:at]
    if style == 4:
        return fields[:at] + fields[at + 1 :]
    if style == 5:
        return fields[:at] + [dice.pick(ODD_FIELDS)] + fields[at:]
    if style == 6:
        return fields + [dice.pick(ODD_FIELDS)] * dice.pick((1, 1, 2, 3))
    if style == 7:
        return fields[:4] + fields[4:] * dice.between(2, 12)
    other = dice.below(len(fields))
    swapped = list(fields)
    swapped[at], swapped[other] = swapped[other], swapped[at]
    return swapped


def damaged_packet(dice: Dice, packet: bytes) -> bytes:
    """The bytes of a packet with one change."""
    style = dice.below(8)
    at = dice.between(0, len(packet))
    if style < 3:
        return texts.damaged(dice, packet)
    if style == 3:
        return packet[:at] + dice.pick(texts.NOT_UTF8) + packet[at:]
    if style == 4:
        return packet[:at] + dice.pick((b"{", b"}", b"{", b"}", b":", b"{}", b"}{", b"::")) + packet[at:]
    if style == 5:
        return packet[dice.below(2) : len(packet) - dice.below(2)] + dice.pick((b"", b"}", b"{", b"\n", b" ", b"\x00"))
    if style == 6:
        return packet + packet
    return packet[:at] + dice.pick(texts.CHARACTERS) + packet[at:]


def stretched(dice: Dice, packet: bytes) -> bytes:
    """The packet, brought near the greatest length by more bytes in one place."""
    length = dice.pick((484, 485, 486, 487, 510, 511, 512, 512, 513, 513, 514, 515, 600, 1024))
    at = dice.between(1, max(1, len(packet) - 1))
    more = max(0, length - len(packet))
    filling = dice.pick((b"a", b"0", b":", b":0", b":100", b"\xc3\xa9", b":1:Nil:0"))
    return packet[:at] + (filling * more)[:more] + packet[at:]


def some_packet(dice: Dice) -> bytes:
    """A packet: sound, damaged in its fields, in its bytes or in its length, or just bytes."""
    if dice.once_in(60):
        return dice.bytes(dice.pick((0, 1, 2, 3, 8, 60)))
    fields = sound_fields(dice)
    style = dice.below(10)
    if style < 4:
        return framed(fields)
    if style < 8:
        fields = damaged_fields(dice, fields)
        while fields and dice.once_in(4):
            fields = damaged_fields(dice, fields)
        return framed(fields)
    packet = framed(fields)
    if style == 8 and dice.once_in(3):
        packet = stretched(dice, packet)
    else:
        packet = damaged_packet(dice, packet)
    while dice.once_in(5):
        packet = damaged_packet(dice, packet)
    return packet if len(packet) <= 2 * LONGEST_PACKET else packet[: LONGEST_PACKET + dice.below(3)]
