"""Histories: what the stations of an honest world did, call by call.

A history has each call with what it was handed and answered, and with the contents of the store before and
after it where the call was to a box. Nothing else is known of a station. What a catalogue would answer if a
transaction were withdrawn now is found out on a copy, which is thrown away.
"""

from __future__ import annotations

import copy
from collections import Counter
from typing import Iterator, NamedTuple, Optional

import lines
import stores
import traffic
from box import Box
from console import Console
from stores import Element

Contents = dict[int, Element]


class Event(NamedTuple):
    """A call: its line in the script, counted from 1, its words, and the words of its answer."""

    line: int
    words: list[bytes]
    answer: list[bytes]

    # What the store held before and after, at a box that is there.
    before: Optional[Contents] = None
    after: Optional[Contents] = None

    # What withdrawing at each partner, one after the other, would answer after the call.
    withdrawals: tuple[list[bytes], ...] = ()


class History(NamedTuple):
    """The calls of one honest world, and the number that it grows from."""

    seed: int
    events: list[Event]


class Recorder(Console):
    """A console that keeps the history of its calls. Each line names a station in its second word."""

    def __init__(self, level: Optional[str] = None) -> None:
        super().__init__(level)
        self.trial = Console(level)
        self.events: list[Event] = []
        self.enlisted: Counter[int] = Counter()

    def answer(self, line: bytes) -> Optional[bytes]:
        words = lines.words_of(line)
        address = int(words[1])
        before = self.contents_at(address)
        answer = super().answer(line)
        told = lines.words_of(answer or b"")
        if told[0] == b"partner":
            self.enlisted[address] += 1
        after = self.contents_at(address)
        self.events.append(Event(len(self.events) + 1, words, told, before, after, self.withdrawals_at(address)))
        return answer

    def contents_at(self, address: int) -> Optional[Contents]:
        """What the store of the box at an address holds, if there is a box."""
        station = self.stations.get(address)
        is_box = station is not None and isinstance(station.logic, Box)
        return stores.contents(station.logic.store) if is_box else None

    def withdrawals_at(self, address: int) -> tuple[list[bytes], ...]:
        """What withdrawing at each partner of a catalogue would answer now."""
        if b"withdraw" not in self.calls or not self.enlisted[address]:
            return ()
        self.trial.stations = {address: copy.deepcopy(self.stations[address])}
        script = (b"withdraw %d %d" % (address, partner) for partner in range(self.enlisted[address]))
        return tuple(lines.words_of(self.trial.answer(line)) for line in script)


def recorded(seed: int, count: int, level: str = "all") -> Iterator[History]:
    """Whole histories from this seed on, until they have so many lines together."""
    for each, world in traffic.histories(seed, count, level, Recorder):
        yield History(each, world.console.events)
