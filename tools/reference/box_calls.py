"""The console's calls that make a box, and those of a box (docs/PROTOCOL.md, section 7.5)."""

from __future__ import annotations

from typing import TYPE_CHECKING, Sequence

import lines
import stores
import values
from box import Box
from memory import hand_out
from packet_calls import refusal
from refusals import Refused
from stations import index_of, make, station_at, word_of
from stores import HouseRecord, Item, Shelf, Star, StarRows, Store
from words import NotUnderstood, at_least, bytes_of, exactly, number_of, printed, type_of

if TYPE_CHECKING:
    from console import Console

FIXED = b"fixed"
SLASH = b"/"
LEAST_ANGLE, GREATEST_ANGLE = -2147483648, 2147483647


# ---- the words of the makings -----------------------------------------------------------------


def item_of(word: bytes) -> Item:
    """INDEX:TYPE:TEXT, or INDEX:TYPE:TEXT:fixed"""
    parts = word.split(b":")
    if len(parts) not in (3, 4) or parts[3:] not in ([], [FIXED]):
        raise NotUnderstood
    return Item(index_of(parts[0]), type_of(parts[1]), bytes_of(parts[2]), len(parts) == 4)


def star_of(word: bytes) -> Star:
    """NAME:RA:DEC"""
    name, right_ascension, declination = exactly(3, word.split(b":"))
    return Star(bytes_of(name), angle_of(right_ascension), angle_of(declination))


def angle_of(word: bytes) -> int:
    return number_of(word, LEAST_ANGLE, GREATEST_ANGLE)


class House:
    """SERIAL IDENTIFIER"""

    def __init__(self, words: Sequence[bytes]) -> None:
        self.serial, self.identifier = (bytes_of(word) for word in words)

    def store(self) -> Store:
        return HouseRecord(self.serial, self.identifier)


class Rows:
    """STAR .."""

    def __init__(self, words: Sequence[bytes]) -> None:
        self.stars = [star_of(word) for word in words]

    def store(self) -> Store:
        return StarRows(self.stars)


class Board:
    """LOW HIGH ITEM .."""

    def __init__(self, words: list[bytes]) -> None:
        (low, high), items = at_least(2, words)
        self.low, self.high = index_of(low), index_of(high)
        self.items = [item_of(word) for word in items]

    def store(self) -> Store:
        return Shelf(self.low, self.high, self.items)


def make_box(console: Console, address: bytes, parts: Sequence[House | Rows | Board]) -> bytes:
    """A box over these stores, the lowest first. The words have all been understood by now."""
    return make(console, address, lambda: Box(stores.joined(part.store() for part in parts)))


# ---- the makings ------------------------------------------------------------------------------


def mount(console: Console, words: list[bytes]) -> bytes:
    """mount ADDR SERIAL IDENTIFIER LOW HIGH ITEM .."""
    (address, *house), board = at_least(3, words)
    return make_box(console, address, [House(house), Board(board)])


def library(console: Console, words: list[bytes]) -> bytes:
    """library ADDR SERIAL IDENTIFIER STAR .."""
    (address, *house), rows = at_least(3, words)
    return make_box(console, address, [House(house), Rows(rows)])


def dome(console: Console, words: list[bytes]) -> bytes:
    """dome ADDR SERIAL IDENTIFIER STAR .. / LOW HIGH ITEM .."""
    (address, *house), rest = at_least(3, words)
    if rest.count(SLASH) != 1:
        raise NotUnderstood
    at = rest.index(SLASH)
    return make_box(console, address, [House(house), Rows(rest[:at]), Board(rest[at + 1 :])])


def bare(console: Console, words: list[bytes]) -> bytes:
    """bare ADDR LOW HIGH ITEM .."""
    (address,), board = at_least(1, words)
    return make_box(console, address, [Board(board)])


# ---- the calls of a box -----------------------------------------------------------------------


def handle(console: Console, words: list[bytes]) -> bytes:
    """handle ADDR SENDER BYTES"""
    address, sender, packet = exactly(3, words)
    station = station_at(console, address, Box)
    try:
        part = station.logic.handle(word_of(sender), bytes_of(packet), station.slab, station.buffer)
    except Refused as refused:
        return refusal(refused)
    return printed(b"reply", lines.encode(hand_out(part, station.slab, station.buffer)))


def owner_write(console: Console, words: list[bytes]) -> bytes:
    """owner-write ADDR INDEX TYPE TEXT"""
    address, index, kind, text = exactly(4, words)
    store = station_at(console, address, Box).logic.store
    return printed(b"code", stores.owner_write(store, index_of(index), type_of(kind), bytes_of(text)))


def look(console: Console, words: list[bytes]) -> bytes:
    """look ADDR INDEX"""
    address, word = exactly(2, words)
    store = station_at(console, address, Box).logic.store
    index = index_of(word)
    code, value = store.read(index)
    if value is None:
        return printed(b"code", code)
    shown = printed(code, value.kind, lines.encode(values.spell(value)))
    return shown + b" fixed" if store.element(index).fixed else shown


CALLS = {
    b"mount": mount,
    b"library": library,
    b"dome": dome,
    b"bare": bare,
    b"handle": handle,
    b"owner-write": owner_write,
    b"look": look,
}
