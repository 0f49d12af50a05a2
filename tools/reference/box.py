"""The box: it answers requests over one store, and remembers the newest number of up to sixteen senders.

Written from docs/PROTOCOL.md, section 5, and from nothing else.
"""

from __future__ import annotations

from typing import NamedTuple, Optional

import packets
import stores
from memory import BUFFER_LENGTH, ROW_LENGTH, ROWS, SLAB, SLAB_LENGTH, Part, put_in_buffer, put_in_row, refuse_short
from packets import ANSWER, DISCOVERY, READ, Done, Group, Message
from refusals import DIRECTION, OLD_NUMBER, UNKNOWN, Refused
from stores import Store


class Record(NamedTuple):
    """What a box knows about a sender."""

    address: int
    newest: int
    length: int


class Box:
    """A box over a store. The kept reply of record k lies at the start of row k of the slab."""

    def __init__(self, store: Store) -> None:
        self.store = store
        self.records: list[Record] = []

    def handle(self, sender: int, packet: bytes, slab: bytearray, buffer: bytearray) -> Part:
        """Handles a packet and tells where the reply lies. Refused by 2 to 11."""
        refuse_short(slab, SLAB_LENGTH)
        refuse_short(buffer, BUFFER_LENGTH)
        message = packets.read(packet)
        if message.direction == ANSWER:
            raise Refused(DIRECTION)
        if message.command == DISCOVERY:
            return put_in_buffer(buffer, packets.answer(message, self.read_groups(message)))
        return self.serve(sender, message, slab)

    def serve(self, sender: int, message: Message, slab: bytearray) -> Part:
        """A read or a write: repeated, refused by 10 or 11, or carried out."""
        row = self.record_of(sender)
        if row is None and len(self.records) == ROWS:
            raise Refused(UNKNOWN)
        if row is not None:
            record = self.records[row]
            if message.number == record.newest:
                return Part(SLAB, ROW_LENGTH * row, record.length)
            if message.number < record.newest:
                raise Refused(OLD_NUMBER)
        return self.carry_out(row, sender, message, slab)

    def record_of(self, sender: int) -> Optional[int]:
        """The number of the sender's record, or None."""
        return next((row for row, record in enumerate(self.records) if record.address == sender), None)

    def carry_out(self, row: Optional[int], sender: int, message: Message, slab: bytearray) -> Part:
        """Carries a request out, keeps the reply, and sets the sender's record."""
        groups = self.read_groups(message) if message.command == READ else self.write_groups(message)
        if row is None:
            row = len(self.records)
            self.records.append(Record(sender, message.number, 0))
        part = put_in_row(slab, row, packets.answer(message, groups))
        self.records[row] = Record(sender, message.number, part.length)
        return part

    def read_groups(self, message: Message) -> list[Group]:
        return [packets.told(*self.store.read(group.index)) for group in message.groups]

    def write_groups(self, message: Message) -> list[Group]:
        """Each group sees what those before it have done."""
        return [Done(stores.write_text(self.store, group.index, group.text)) for group in message.groups]
