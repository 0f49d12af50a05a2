"""The console's calls of a catalogue, apart from withdrawing (docs/PROTOCOL.md, section 7.5)."""

from __future__ import annotations

from typing import TYPE_CHECKING, Callable, Sequence

import catalogue as catalogues
import lines
from catalogue import Again, Catalogue, Opened
from memory import hand_out
from packet_calls import group_words, refusal
from refusals import Refused
from stations import Station, index_of, make, station_at, time_of, word_of
from words import NotUnderstood, at_least, bytes_of, exactly, printed

if TYPE_CHECKING:
    from console import Console


def or_refusal(call: Callable[[Console, list[bytes]], bytes]) -> Callable[[Console, list[bytes]], bytes]:
    """The call, printing its refusal if it is refused."""

    def told(console: Console, words: list[bytes]) -> bytes:
        try:
            return call(console, words)
        except Refused as refused:
            return refusal(refused)

    return told


def pair_of(word: bytes) -> tuple[int, bytes]:
    """I=TEXT, where the first = parts"""
    index, mark, text = word.partition(b"=")
    if not mark:
        raise NotUnderstood
    return index_of(index), bytes_of(text)


def sent(station: Station[Catalogue], opened: Opened) -> bytes:
    return printed(b"sent", opened.number, lines.encode(hand_out(opened.part, station.slab)))


def make_catalogue(console: Console, words: list[bytes]) -> bytes:
    """catalogue ADDR T M R"""
    address, *settings = exactly(4, words)
    first, longest, repeats = (word_of(word) for word in settings)
    return make(console, address, lambda: Catalogue(first, longest, repeats))


def enlist(console: Console, words: list[bytes]) -> bytes:
    """enlist ADDR PARTNER_ADDR"""
    address, partner = exactly(2, words)
    station = station_at(console, address, Catalogue)
    return printed(b"partner", station.logic.enlist(word_of(partner)))


def opening(words: list[bytes]) -> tuple[bytes, int, int, Sequence[bytes]]:
    """ADDR TIME PARTNER, and the words of the groups"""
    (address, time, partner), groups = at_least(3, words)
    return address, time_of(time), word_of(partner), groups


def open_read(console: Console, words: list[bytes]) -> bytes:
    """open-read ADDR TIME PARTNER I .."""
    address, time, partner, groups = opening(words)
    station = station_at(console, address, Catalogue)
    return sent(station, station.logic.open_read(partner, time, station.slab, [index_of(word) for word in groups]))


def open_write(console: Console, words: list[bytes]) -> bytes:
    """open-write ADDR TIME PARTNER I=TEXT .."""
    address, time, partner, groups = opening(words)
    station = station_at(console, address, Catalogue)
    return sent(station, station.logic.open_write(partner, time, station.slab, [pair_of(word) for word in groups]))


def poll(console: Console, words: list[bytes]) -> bytes:
    """poll ADDR TIME PARTNER"""
    address, time, partner = exactly(3, words)
    station = station_at(console, address, Catalogue)
    polled = station.logic.poll(word_of(partner), time_of(time))
    if polled is None:
        return b"nothing due"
    if isinstance(polled, Again):
        return printed(b"again", lines.encode(hand_out(polled.part, station.slab)))
    return printed(b"failed", polled.number)


def receive(console: Console, words: list[bytes]) -> bytes:
    """receive ADDR SENDER BYTES"""
    address, sender, packet = exactly(3, words)
    station = station_at(console, address, Catalogue)
    answered = station.logic.receive(word_of(sender), bytes_of(packet))
    return printed(b"answered", answered.number, *group_words(answered.groups))


def counts(console: Console, words: list[bytes]) -> bytes:
    """counts ADDR"""
    (address,) = exactly(1, words)
    logic = station_at(console, address, Catalogue).logic
    told = logic.counts
    return printed(b"opened", told.opened, b"answered", told.answered, b"failed", told.failed, b"withdrawn",
                   told.withdrawn, b"repeated", told.repeated, b"waiting", logic.waiting())


def discover(console: Console, words: list[bytes]) -> bytes:
    """discover ADDR"""
    (address,) = exactly(1, words)
    station = station_at(console, address, Catalogue)
    part = catalogues.discover(station.buffer)
    return printed(b"sent", 0, lines.encode(hand_out(part, station.slab, station.buffer)))


def discovered(console: Console, words: list[bytes]) -> bytes:
    """discovered ADDR BYTES"""
    address, packet = exactly(2, words)
    station_at(console, address, Catalogue)
    return printed(b"found", *group_words(catalogues.discovered(bytes_of(packet))))


CALLS = {
    b"catalogue": make_catalogue,
    b"enlist": or_refusal(enlist),
    b"open-read": or_refusal(open_read),
    b"open-write": or_refusal(open_write),
    b"poll": or_refusal(poll),
    b"receive": or_refusal(receive),
    b"counts": counts,
    b"discover": discover,
    b"discovered": or_refusal(discovered),
}
