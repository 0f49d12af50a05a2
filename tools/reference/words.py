"""The words of the console's lines: what each stands for, and how answers are printed.

Written from docs/PROTOCOL.md, sections 7.1 to 7.3.
"""

from __future__ import annotations

import lines
import values

TYPES = {kind.encode(): kind for kind in values.KINDS}

# The longest number on a line that can lie in its range, sign and all.
LONGEST_NUMBER = 20


class NotUnderstood(Exception):
    """The line is not of the form that its call wants."""


def exactly(count: int, words: list[bytes]) -> list[bytes]:
    """The words, if there are this many."""
    if len(words) != count:
        raise NotUnderstood
    return words


def at_least(count: int, words: list[bytes]) -> tuple[list[bytes], list[bytes]]:
    """The first words, this many, and the others."""
    if len(words) < count:
        raise NotUnderstood
    return words[:count], words[count:]


def type_of(word: bytes) -> str:
    """The type that a word names, one of the nine types of values."""
    if word not in TYPES:
        raise NotUnderstood
    return TYPES[word]


def bytes_of(word: bytes) -> bytes:
    """The bytes that a word stands for."""
    text = lines.decode(word)
    if text is None:
        raise NotUnderstood
    return text


def number_of(word: bytes, least: int, greatest: int) -> int:
    """The number that a word spells, if it lies in the range."""
    number = values.read_whole(word, least, greatest) if len(word) <= LONGEST_NUMBER else None
    if number is None:
        raise NotUnderstood
    return number


def printed(*words: object) -> bytes:
    """A line of words; numbers and names may be among them."""
    return b" ".join(word if isinstance(word, bytes) else str(word).encode() for word in words)
