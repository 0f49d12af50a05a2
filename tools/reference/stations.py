"""The console's stations: each at its address, with the memory that its calls are handed.

Written from docs/PROTOCOL.md, sections 7.3 and 7.4.
"""

from __future__ import annotations

from typing import TYPE_CHECKING, Any, Callable, Generic, Type, TypeVar

from memory import new_buffer, new_slab
from packet_calls import refusal
from packets import GREATEST_INDEX
from refusals import Refused
from words import NotUnderstood, number_of

if TYPE_CHECKING:
    from console import Console

GREATEST_WORD = 4294967295
GREATEST_TIME = 18446744073709551615

Logic = TypeVar("Logic")


class Station(Generic[Logic]):
    """A box or a catalogue, with its slab and a reply buffer."""

    def __init__(self, logic: Logic) -> None:
        self.logic = logic
        self.slab = new_slab()
        self.buffer = new_buffer()


def word_of(word: bytes) -> int:
    """An address, a partner or a setting of a catalogue."""
    return number_of(word, 0, GREATEST_WORD)


def time_of(word: bytes) -> int:
    return number_of(word, 0, GREATEST_TIME)


def index_of(word: bytes) -> int:
    return number_of(word, 0, GREATEST_INDEX)


def station_at(console: Console, address: bytes, kind: Type[Logic]) -> Station[Logic]:
    """The station at an address, if it is of this kind."""
    station = console.stations.get(word_of(address))
    if station is None or not isinstance(station.logic, kind):
        raise NotUnderstood
    return station


def make(console: Console, address: bytes, making: Callable[[], Any]) -> bytes:
    """made | refused N. The new station takes the address; if its making is refused, the old one stays."""
    at = word_of(address)
    try:
        console.stations[at] = Station(making())
    except Refused as refused:
        return refusal(refused)
    return b"made"
