"""The console's call about values (docs/PROTOCOL.md, section 7.5)."""

from __future__ import annotations

from typing import TYPE_CHECKING

import lines
import values
from words import bytes_of, exactly, type_of

if TYPE_CHECKING:
    from console import Console


def value(_: Console, words: list[bytes]) -> bytes:
    """value TYPE BYTES"""
    kind, word = exactly(2, words)
    read = values.read(type_of(kind), bytes_of(word))
    return b"none" if read is None else b"value " + lines.encode(values.spell(read))


CALLS = {
    b"value": value,
}
