"""The console's call about packets, and how groups and refusals are printed (docs/PROTOCOL.md, section 7.5)."""

from __future__ import annotations

from typing import TYPE_CHECKING, Sequence

import lines
import packets
from packets import Asked, Done, Group, Put, Told
from refusals import Refused
from words import bytes_of, exactly, printed

if TYPE_CHECKING:
    from console import Console

DIRECTIONS = {packets.REQUEST: b"request", packets.ANSWER: b"answer"}
COMMANDS = {packets.READ: b"read", packets.WRITE: b"write", packets.DISCOVERY: b"discovery"}


def packet(_: Console, words: list[bytes]) -> bytes:
    """packet BYTES"""
    (word,) = exactly(1, words)
    try:
        message = packets.read(bytes_of(word))
    except Refused as refused:
        return refusal(refused)
    head = (DIRECTIONS[message.direction], message.version, message.number, COMMANDS[message.command])
    if (message.direction, message.command) == (packets.REQUEST, packets.DISCOVERY):
        return printed(*head)
    return printed(*head, *group_words(message.groups))


def group_words(groups: Sequence[Group]) -> list[bytes]:
    """The words in which groups are printed."""
    return [group_word(group) for group in groups]


def group_word(group: Group) -> bytes:
    if isinstance(group, Asked):
        return b"%d" % group.index
    if isinstance(group, Put):
        return b"%d=%s" % (group.index, lines.encode(group.text))
    if isinstance(group, Told):
        return b"%d:%s:%s" % (group.code, group.kind.encode(), lines.encode(group.text))
    assert isinstance(group, Done)
    return b"%d" % group.code


def refusal(refused: Refused) -> bytes:
    """refused N, or refused N FIELD"""
    if refused.field is None:
        return printed(b"refused", refused.number)
    return printed(b"refused", refused.number, refused.field)


CALLS = {
    b"packet": packet,
}
