"""The console's call that withdraws a transaction (docs/PROTOCOL.md, section 7.5)."""

from __future__ import annotations

from typing import TYPE_CHECKING

from catalogue import Catalogue
from catalogue_calls import or_refusal
from stations import station_at, word_of
from words import exactly, printed

if TYPE_CHECKING:
    from console import Console


def withdraw(console: Console, words: list[bytes]) -> bytes:
    """withdraw ADDR PARTNER"""
    address, partner = exactly(2, words)
    station = station_at(console, address, Catalogue)
    return printed(b"withdrawn", station.logic.withdraw(word_of(partner)))


CALLS = {
    b"withdraw": or_refusal(withdraw),
}
