"""The console's lines, words and byte strings.

Written from docs/PROTOCOL.md, sections 7.1 to 7.3.
"""

from __future__ import annotations

import re
from typing import Optional

# The bytes that stand for themselves in a byte string: 21 to 7e, but not backslash.
PLAIN = frozenset(range(0x21, 0x7F)) - {0x5C}

EMPTY = b"\\e"
BYTE_STRING = re.compile(rb"(?:[\x21-\x5b\x5d-\x7e]|\\x[0-9a-f]{2})+")
ESCAPE = re.compile(rb"\\x([0-9a-f]{2})")

WRITTEN = [bytes([byte]) if byte in PLAIN else b"\\x%02x" % byte for byte in range(256)]


def lines_of(script: bytes) -> list[bytes]:
    """The lines of a script, without their ends. The last one may lack its end."""
    lines = script.split(b"\n")
    if lines[-1] == b"":
        lines.pop()
    return lines


def prints_nothing(line: bytes) -> bool:
    """Whether this is an empty line or a comment."""
    return line == b"" or line.startswith(b"#")


def words_of(line: bytes) -> list[bytes]:
    """The words of a line, parted by one or more spaces."""
    return [word for word in line.split(b" ") if word]


def decode(word: bytes) -> Optional[bytes]:
    """The bytes that a word stands for, or None if it is no byte string."""
    if word == EMPTY:
        return b""
    if not BYTE_STRING.fullmatch(word):
        return None
    return ESCAPE.sub(lambda escape: bytes([int(escape[1], 16)]), word)


def encode(text: bytes) -> bytes:
    """The word in which a byte string is printed."""
    return b"".join([WRITTEN[byte] for byte in text]) or EMPTY
