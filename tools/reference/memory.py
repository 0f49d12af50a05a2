"""The memory that stations are handed: a slab of sixteen rows, a reply buffer, and places in them.

Written from docs/PROTOCOL.md, "Stations, addresses and times" and section 5.5.
"""

from __future__ import annotations

from typing import NamedTuple

from refusals import LIMIT, SHORT_MEMORY, Refused

ROWS = 16
ROW_LENGTH = 512
SLAB_LENGTH = ROWS * ROW_LENGTH
BUFFER_LENGTH = 512

SLAB, BUFFER = "slab", "reply buffer"


class Part(NamedTuple):
    """The place of a part: which memory, where it begins in it, and its length."""

    memory: str
    start: int
    length: int


def new_slab() -> bytearray:
    return bytearray(SLAB_LENGTH)


def new_buffer() -> bytearray:
    return bytearray(BUFFER_LENGTH)


def refuse_short(memory: bytearray, least: int) -> None:
    """Refuses by 2 memory that has fewer bytes than it must."""
    if len(memory) < least:
        raise Refused(SHORT_MEMORY)


def put_in_row(slab: bytearray, row: int, packet: bytes) -> Part:
    """Writes a packet to the start of a row; the rest of the row and the other rows stay."""
    start = ROW_LENGTH * row
    slab[start : start + len(packet)] = packet
    return Part(SLAB, start, len(packet))


def put_in_buffer(buffer: bytearray, packet: bytes) -> Part:
    """Writes a packet to the start of a reply buffer; the rest stays."""
    buffer[: len(packet)] = packet
    return Part(BUFFER, 0, len(packet))


def hand_out(part: Part, slab: bytes, buffer: bytes = b"") -> bytes:
    """The bytes at a place. Refused by 13 if it reaches beyond the memory that it names."""
    memory = slab if part.memory == SLAB else buffer
    if part.start + part.length > len(memory):
        raise Refused(LIMIT)
    return bytes(memory[part.start : part.start + part.length])
