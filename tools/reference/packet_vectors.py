"""Lines about packets for the console's sample: all six kinds, and every way in which each can be at fault."""

from __future__ import annotations

from typing import Iterator

import lines
import packet_texts
import texts
from dice import Dice
from packet_texts import (CODE_FIELDS, COMMAND_FIELDS, DIRECTION_FIELDS, INDEX_FIELDS, KNOWN_NOWHERE, NIL_FIELDS,
                          NUMBER_FIELDS, ODD_FIELDS, TEXT_FIELDS, TYPE_FIELDS, VERSION_FIELDS, framed, roles_of)
from values import KINDS

RANDOM_COUNT = 1200

# A text that reads as each type.
SOUND = {"Bo": b"True", "In": b"-2147483648", "Sh": b"-7", "USh": b"65535", "Lo": b"922337236854775807",
         "Si": b"84.830", "Do": b"-2.2E17", "By": b"255", "St": b"\xce\xb1 Lyr"}

# One packet of each of the six kinds, as fields, with several groups.
SIX = [
    [b"1.1", b"R", b"7", b"1", b"100", b"101", b"65535"],
    [b"1.0", b"A", b"65535", b"1", b"0", b"Si", b"84.830", b"1", b"Nil", b"0", b"0", b"St", b"Vega"],
    [b"1.0", b"R", b"0", b"2", b"100", b"Vega", b"101", b"84.830", b"0", b"x"],
    [b"1.1", b"A", b"7", b"2", b"0", b"1", b"2", b"3"],
    [b"1.1", b"R", b"7", b"3", b"2", b"3"],
    [b"1.1", b"A", b"7", b"3", b"0", b"St", b"M1", b"0", b"By", b"0"],
]

LONGEST_TEXT = b"a" * 40
LONGEST_REQUEST = [b"1.1", b"R", b"65535", b"2"] + [b"65535", LONGEST_TEXT] * 10
LONGEST_ANSWER = [b"1.1", b"A", b"65535", b"1"] + [b"0", b"St", LONGEST_TEXT] * 10


def cut(text: bytes) -> list[bytes]:
    """The fields of a text that is written with its colons."""
    return text.split(b":")


def kind_of(fields: list[bytes]) -> tuple[bytes, int]:
    return fields[1], int(fields[3])


def sound_packets() -> Iterator[bytes]:
    """All six kinds with each version, number and count of groups that is worth a look."""
    for fields in SIX:
        for version in (b"1.0", b"1.1"):
            for number in (b"0", b"1", b"9", b"10", b"255", b"256", b"32768", b"65534", b"65535"):
                yield framed([version, fields[1], number] + fields[3:])
    for kind, text in SOUND.items():
        yield framed(cut(b"1.1:A:7:1:0") + [kind.encode(), text])
        yield framed(cut(b"1.1:A:7:3:0") + [kind.encode(), text] + [b"0", kind.encode(), text])
        yield framed(cut(b"1.0:R:7:2:100") + [text])
    for index in (0, 1, 2, 3, 9, 10, 99, 100, 255, 256, 9999, 10000, 32767, 32768, 65534, 65535):
        yield framed(cut(b"1.1:R:7:1:%d" % index))
        yield framed(cut(b"1.0:R:7:2:%d:x" % index))


def counts_of_groups() -> Iterator[bytes]:
    """Each kind with no group, with one too few, just enough and one too many."""
    for fields in SIX:
        width = len(roles_of(*kind_of(fields)))
        groups = [fields[at : at + width] for at in range(4, len(fields), width)]
        for count in (0, 1, 2, 3, 8, 9, 10, 11, 12, 20):
            wanted = [field for at in range(count) for field in groups[at % len(groups)]]
            yield framed(fields[:4] + wanted)
            yield framed(fields[:4] + wanted + [b""])
            for broken in range(1, width):
                yield framed(fields[:4] + wanted + groups[count % len(groups)][:broken])
            if count > 8:
                for extra in (b"x", b"0", b"1", b"-1", b"Nil", b"a" * 41):
                    yield framed(fields[:4] + wanted + [extra])
                    yield framed(fields[:4] + wanted + [b"", extra])


def wrong_for(fields: list[bytes], at: int) -> tuple[bytes, ...]:
    """What to put in the place of a field."""
    if at < 4:
        return (VERSION_FIELDS + (b"1.0", b"1.1"), DIRECTION_FIELDS + (b"R", b"A"), NUMBER_FIELDS,
                COMMAND_FIELDS + KNOWN_NOWHERE + (b"1", b"2", b"3"))[at]
    direction, command = kind_of(fields)
    roles = roles_of(direction, command)
    return {
        "index": INDEX_FIELDS + (b"2", b"3"),
        "text": TEXT_FIELDS + ODD_FIELDS,
        "code": CODE_FIELDS + (b"0", b"1", b"2", b"3"),
        "type": TYPE_FIELDS + tuple(kind.encode() for kind in KINDS) + (b"Nil",),
        "value": NIL_FIELDS + TEXT_FIELDS + (b"256", b"Vega", b"True", b"-1", b"1E5"),
    }[roles[(at - 4) % len(roles)]]


def damaged_fields() -> Iterator[bytes]:
    """Each kind, damaged at every field: missing, empty, doubled, extra, wrong."""
    for fields in SIX:
        for at in range(len(fields) + 1):
            yield framed(fields[:at])
            yield framed(fields[:at] + [b""])
            yield framed(fields[:at] + fields[at + 1 :])
            yield framed(fields[:at] + [b""] + fields[at + 1 :])
            yield framed(fields[:at] + [b""] + fields[at:])
            yield framed(fields[:at] + fields[at : at + 1] + fields[at:])
            yield framed(fields[:at] + [b"0"] + fields[at:])
        for at in range(len(fields)):
            for wrong in wrong_for(fields, at):
                yield framed(fields[:at] + [wrong] + fields[at + 1 :])


def two_faults() -> Iterator[bytes]:
    """Two fields at fault: the one further left is told."""
    for fields in SIX:
        for left in range(len(fields)):
            for right in range(left + 1, len(fields) + 1):
                yield framed(fields[:left] + [b"?"] + fields[left + 1 : right] + [b"?"] + fields[right + 1 :])


def old_versions() -> Iterator[bytes]:
    """Version 1.0 with command 3, and near misses of either, with faults elsewhere."""
    for version in (b"1.0", b"1.1", b"1.2", b""):
        for direction in (b"R", b"A", b"X", b""):
            for number in (b"7", b"65536", b""):
                for command in (b"3", b"03", b"", b"1", b"4", b"256"):
                    yield framed([version, direction, number, command, b"2", b"3"])
        for rest in (b"", b":R", b":R:7", b":R:7:3", b":R:7:3:", b":R:7:3:2", b"::7:3", b":::3", b"::::3", b":3:3:3",
                     b":A:7:3:0:St:M1:0:By:0", b":R:7:33", b":R:7: 3", b":R:7:3 "):
            yield b"{" + version + rest + b"}"


def unknown_commands() -> Iterator[bytes]:
    """Every command, with a payload and without."""
    for command in range(257):
        yield framed(cut(b"1.1:R:7:%d" % command))
        yield framed(cut(b"1.0:A:7:%d:0" % command))
    for tail in (b"", b":", b":x", b":2:3", b":" + b"a" * 41):
        yield framed(cut(b"1.1:R:7:4" + tail))


def disagreements() -> Iterator[bytes]:
    """Every code with every type, with values that read as some type and not as another."""
    types = tuple(kind.encode() for kind in KINDS) + (b"Nil", b"nil", b"", b"X")
    some = (b"0", b"1", b"-1", b"256", b"-0", b"1.5", b"True", b"Vega", b"")
    for code in (b"0", b"1", b"2", b"3", b"4", b"00", b""):
        for kind in types:
            for text in some if code in (b"0", b"1") else some[:2]:
                yield framed(cut(b"1.1:A:7:1") + [code, kind, text])
            yield framed(cut(b"1.1:A:7:3:0:St:M1") + [code, kind, b"0"])
            yield framed(cut(b"1.1:A:7:1") + [code, kind])
    for kind in KINDS:
        for other, text in SOUND.items():
            yield framed(cut(b"1.1:A:7:1:0:St:M1:0") + [kind.encode(), text])
            yield framed(cut(b"1.1:A:7:3:0") + [kind.encode(), text, b"0", other.encode(), text])


def lengths() -> Iterator[bytes]:
    """Every length near 485 and 512, by too long a text, too many groups, or a fault elsewhere."""
    for length in (484, 485, 486, 487, 500, 509, 510, 511, 512, 513, 514, 515, 1000):
        for head, filling in ((b"{1.1:R:7:2:100:", b"a"), (b"{1.1:R:7:1:100", b":0"), (b"{1.1:A:7:2:0", b":1"),
                              (b"{1.1:R:7:1", b":65535"), (b"{1.1:A:7:1:0:St:a", b":0:St:a"), (b"{", b"1"),
                              (b"{", b":"), (b"{1.1:R:7:2:1:\xc3\xa9", b"a"), (b"{1.0:R:7:3", b":2"),
                              (b"{1.1:R:7:4:", b"a"), (b"{1.1:R:", b"0"),
                              (b"{1.1:R:7:2" + b":65535:" + LONGEST_TEXT, b":1:b")):
            packet = (head + filling * length)[: length - 1] + b"}"
            yield packet
        yield b"{" * length
        yield b"a" * length
        yield b"\xff" + b"a" * (length - 2) + b"}"
        yield b"{" + b"a" * (length - 1)
        yield b"{\xff" + b"a" * (length - 3) + b"}"
        yield b"{" + b"a" * (length - 3) + b"\xc3}"
    for fields in (LONGEST_REQUEST, LONGEST_ANSWER):
        for at in range(4, len(fields)):
            yield framed(fields[:at] + [fields[at] + b"0"] + fields[at + 1 :])
            yield framed(fields[:at] + [fields[at][:-1]] + fields[at + 1 :])
        for tail in ([], [b""], [b"0"], fields[4:6], fields[4:7], fields[4:]):
            yield framed(fields + tail)
    for character in ("é", "☃", "🔭"):
        text = (character.encode() * 40)[: 40 // len(character.encode()) * len(character.encode())].ljust(40, b"a")
        yield framed(cut(b"1.1:R:65535:2") + [b"65535", text] * 10)
        yield framed(cut(b"1.1:A:65535:1") + [b"0", b"St", text] * 10)


def frames() -> Iterator[bytes]:
    """Braces missing, alone, doubled and in every place; colons in every place."""
    for packet in (b"", b"{", b"}", b"{}", b"}{", b"{{", b"}}", b"{{}", b"{}}", b"{{}}", b"{}{}", b"{:}", b"{::}",
                   b"{:::}", b"{::::}", b"{:::::}", b" {}", b"{} ", b"{}\n", b"\xff}", b"{\xff", b"\xff", b"{\xff}",
                   b"{\xff{}", b"}\xff{", b"\xc3{}", b"{}\xc3", b"{\xc3}", b"[1.1]", b"(1.1:R:7:1:100)"):
        yield packet
    for fields in SIX:
        packet = framed(fields)
        for at in range(len(packet) + 1):
            for brace in (b"{", b"}"):
                yield packet[:at] + brace + packet[at:]
            yield packet[:at] + b":" + packet[at:]
        for at in range(len(packet)):
            yield packet[:at] + packet[at + 1 :]
            yield packet[:at] + b"{" + packet[at + 1 :]
            yield packet[:at] + b"}" + packet[at + 1 :]
        for at in range(0, len(packet), 3):
            yield packet[:at]
            yield packet[:at] + b"}"
            yield b"{" + packet[at:]
        yield packet + packet
        yield packet + b"\n"
        yield b"\xef\xbb\xbf" + packet


def characters() -> Iterator[bytes]:
    """UTF-8 at its borders, in a text, in a value and where no text belongs."""
    for run in texts.CHARACTERS + texts.NOT_UTF8:
        yield framed(cut(b"1.1:R:7:2:100") + [run])
        yield framed(cut(b"1.1:R:7:2:100") + [b"a" + run + b"b", b"101", b"x"])
        yield framed(cut(b"1.1:A:7:1:0:St") + [run])
        yield framed([b"1.1" + run, b"R", b"7", b"1", b"100"])
        yield framed(cut(b"1.1:R:7:1") + [run])
    for run in texts.NOT_UTF8:
        yield framed(cut(b"1.1:R:7:2:100") + [b"a" * (40 - len(run)) + run])
        yield framed([b"1.2" + run])
        yield framed(cut(b"1.1:R:7:9") + [run])
        yield b"{1.1:R:7:2:100:a" + run
        yield run + b"1.1:R:7:2:100:a}"
    for byte in range(256):
        odd = bytes([byte])
        yield framed(cut(b"1.1:R:7:2:100:a") + [b"101", odd])
        yield b"{1.1:R:7:2:100:x" + odd + b"y}"
        yield odd
        yield b"{1.1:R:7:1:100" + odd
        yield odd + b"1.1:R:7:1:100}"
        yield b"{1.1:R:7" + odd + b":1:100}"
        yield b"{1.1:A:7:1:0:By:" + odd + b"}"


def random_packets() -> Iterator[bytes]:
    dice = Dice(20261118)
    for _ in range(RANDOM_COUNT):
        yield packet_texts.some_packet(dice)


ABOUT_LINES = [
    b"packet", b"packet ", b"packet \\e", b"packet {}", b"  packet   {}  ", b"packet {} {}", b"packet { }",
    b"packet {1.1:R:7:1:100} #", b"Packet {}", b"PACKET {}", b"packets {}", b"packe {}", b"packet{}", b"\\x70acket {}",
    b"#packet {}", b" #packet {}", b"packet \\x7b\\x7d", b"packet \\x7b1.1:R:7:1:100\\x7d",
    b"packet {1.1:R:7:2:100:\\xce\\xb1\\x20Lyr}", b"packet {1.1:R:7:2:100:\\x56ega}", b"packet {1.1:R:7:2:100:\\x5c}",
    b"packet {1.1:R:7:2:100:=}", b"packet {1.1:R:7:2:100:a=b=c}", b"packet {1.1:R:7:2:100:#}",
    b"packet {1.1:R:7:2:100:\\x3a}", b"packet {1.1:R:7:2:100:\\e}", b"packet {1.1:R:7:2:100:\\}",
    b"packet {1.1:R:7:2:100:\\x}", b"packet {1.1:R:7:2:100:\\xCE}",
    b"packet {1.1:R:7:2:100:\\x20}", b"packet {1.1:R:7:2:100: }", b"packet {1.1:R:7:1:100}\\x0a", b"packet \\",
    b"packet " + b"\\x7b" + b"\\x61" * 510 + b"\\x7d", b"packet " + b"\\x7b" + b"\\x61" * 511 + b"\\x7d",
    b"packet " + b"{" * 3000, b"value {1.1:R:7:1:100}", b"packet St {}",
]

RAW_LINES = [
    b"packet {1.1:R:7:1:100}\r", b"packet\t{}", b"packet {1.1:R:7:2:100:\xce\xb1}", b"packet {1.1:R:7:2:100:\x00}",
    b"packet \xff", b"packet {\x7f}",
]

PARTS = [
    ("packets that keep all rules", sound_packets),
    ("counts of groups", counts_of_groups),
    ("packets damaged at every field", damaged_fields),
    ("two faults", two_faults),
    ("old versions", old_versions),
    ("every command", unknown_commands),
    ("codes, types and values that do not go together", disagreements),
    ("lengths of packets", lengths),
    ("frames", frames),
    ("characters in packets", characters),
    ("any packets, by chance", random_packets),
]


def sections() -> Iterator[tuple[str, list[bytes]]]:
    """Headings, each with its lines. No packet comes twice."""
    seen: set[bytes] = set()
    for heading, part in PARTS:
        fresh = [packet for packet in part() if not (packet in seen or seen.add(packet))]
        yield heading, [b"packet " + lines.encode(packet) for packet in fresh]
