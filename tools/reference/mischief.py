"""Rough worlds, by chance: stations as in `traffic.py`, among whom nobody can be trusted.

Strangers ask of their own, packets are damaged, forged and sent to the wrong place, stations are made again,
and lines are spoiled. Nothing here says what the right answer is.
"""

from __future__ import annotations

from typing import Callable, Iterator, Optional

import levels
import lines
import packet_texts
import packets
from box import Box
from catalogue import Catalogue
from console import Console
from dice import Dice
from packets import ANSWER, DISCOVERY, REQUEST, WRITE, Message
from traffic import ADDRESSES, Flight, World

STRANGERS = tuple(range(500, 520))

# How many lines a rough world has: least and greatest.
LENGTHS = (60, 500)

BAD_NUMBERS = (b"-1", b"-0", b"00", b"01", b"+1", b"1.0", b"", b"x", b"65536", b"4294967296", b"18446744073709551616",
               b"\\x31", b"\\e", b"/", b"=", b":", b"9" * 30)


class RoughWorld(World):
    """A world with strangers and mischief. At the level `box` it has no catalogues."""

    def __init__(self, dice: Dice, console: Console, level: str) -> None:
        self.with_catalogues = levels.knows(level, "transactions")
        count = dice.pick((0 if self.with_catalogues else 2, 1, 2, 3, 15, 20))
        self.strangers = STRANGERS[:count]
        super().__init__(dice, console, level)

    def people(self) -> tuple[list[int], list[int], list[int]]:
        """A few of each kind: one box if there are many strangers, and an address without a station."""
        dice = self.dice
        free = list(ADDRESSES)
        some = [free.pop(dice.below(len(free))) for _ in range(7)]
        boxes = some[: dice.between(1, 3) if len(self.strangers) < 15 else 1]
        return boxes, some[3 : 3 + dice.between(1, 3)] if self.with_catalogues else [], some[6:]

    # ---- strangers ----------------------------------------------------------------------------

    def some_number(self, box: Optional[Box], sender: int) -> int:
        """A number near the newest that the box has from the sender."""
        if box is None or self.dice.once_in(60):
            return self.dice.pick((0, 1, 65534, 65535, self.dice.below(65536)))
        row = box.record_of(sender)
        newest = self.dice.pick((0, 0, 5)) - 1 if row is None else box.records[row].newest
        return max(0, min(65535, newest + self.dice.pick((-2, -1, -1, 0, 0, 0, 1, 1, 1, 1, 1, 1, 2, 9))))

    def some_request(self, to: int, sender: int) -> bytes:
        """A request that a sender could have made of its own."""
        number = self.some_number(self.logic_at(to, Box), sender)
        store = self.store_at(to)
        version = b"1.1" if self.dice.once_in(3) else b"1.0"
        if self.dice.once_in(12):
            return packets.write(packets.read(packets.discovery_request())._replace(number=number))
        command = self.dice.pick((packets.READ, WRITE, WRITE))
        groups = []
        for _ in range(self.some_count()):
            index = self.some_index(store)
            put = command == WRITE
            groups.append(packets.Put(index, self.some_text(store, index)) if put else packets.Asked(index))
        return packets.write(Message(version, REQUEST, number, command, tuple(groups)))

    def stranger_asks(self) -> None:
        """A request from a sender that is no station of this world."""
        if not self.strangers:
            return
        to, sender = self.dice.pick(self.boxes), self.dice.pick(self.strangers)
        self.hand_to_box(Flight(sender, to, self.some_request(to, sender)))

    # ---- packets ------------------------------------------------------------------------------

    def deliver_damaged(self) -> None:
        """A packet with a change in its bytes or in its fields."""
        flight = self.take_from_air()
        if flight is None:
            return
        fields = flight.packet[1:-1].split(b":")
        if self.dice.once_in(2):
            packet = packet_texts.damaged_packet(self.dice, flight.packet)
        else:
            packet = packet_texts.framed(packet_texts.damaged_fields(self.dice, fields))
        self.hand_over(flight._replace(packet=packet))

    def deliver_changed(self) -> None:
        """A packet whose number, version or command is another, but which is still well formed."""
        flight = self.take_from_air()
        if flight is None:
            return
        message = packets.read(flight.packet)
        step = self.dice.pick((-2, -1, 0, 1, 1, 2))
        message = message._replace(number=max(0, min(65535, message.number + step)))
        if message.command != DISCOVERY:
            message = message._replace(version=self.dice.pick(packets.VERSIONS))
        self.hand_over(flight._replace(packet=packets.write(message)))

    def deliver_astray(self) -> None:
        """A packet that comes to the wrong station, or from the wrong sender."""
        flight = self.take_from_air()
        if flight is None:
            return
        everyone = tuple(self.boxes) + tuple(self.catalogues) + ADDRESSES[:4]
        if self.dice.once_in(2):
            self.hand_over(flight._replace(to=self.dice.pick(everyone)))
        else:
            self.hand_over(flight._replace(sender=self.dice.pick(everyone)))

    def deliver_any(self) -> None:
        """Any packet from anyone."""
        to = self.dice.pick(tuple(self.boxes) + tuple(self.catalogues))
        self.hand_over(Flight(self.dice.pick(ADDRESSES), to, packet_texts.some_packet(self.dice)))

    def forge_answer(self) -> None:
        """An answer that no box gave, near to what a catalogue waits for."""
        if not self.catalogues:
            return
        address = self.dice.pick(self.catalogues)
        catalogue = self.logic_at(address, Catalogue)
        waiting = [partner for partner in catalogue.partners if partner.waiting] if catalogue else []
        if not waiting:
            return
        partner = self.dice.pick(waiting)
        command = self.dice.pick((partner.waiting.command, partner.waiting.command, 1, 2))
        count = max(1, min(10, partner.waiting.count + self.dice.pick((0, 0, 0, -1, 1))))
        number = max(0, partner.waiting.number + self.dice.pick((0, 0, 0, -1, 1)))
        fields = [self.dice.pick(packets.VERSIONS), ANSWER, b"%d" % min(65535, number), b"%d" % command]
        for _ in range(count):
            fields += packet_texts.some_group(self.dice, ANSWER, command)
        self.hand_to_catalogue(Flight(partner.address, address, packet_texts.framed(fields)))

    # ---- lines and stations -------------------------------------------------------------------

    def spoil_line(self) -> None:
        """A line that was said before, with one word changed, dropped, doubled or added."""
        words = lines.words_of(self.dice.pick(self.script[-40:]))
        if not words:
            return
        at = self.dice.below(len(words))
        style = self.dice.below(6)
        if style == 0:
            words = words[:at] + words[at + 1 :]
        elif style == 1:
            words = words[:at] + [words[at]] + words[at:]
        elif style == 2:
            words = words + [self.dice.pick((b"x", b"0", b"\\e", b"100:By:0", b"/"))]
        elif style == 3:
            words[at] = self.dice.pick(BAD_NUMBERS) or b"\\"
        elif style == 4:
            words[at] = words[at] + self.dice.pick((b":", b"=", b"\\", b"0", b":fixed", b"\\x20", b"\t", b"\xff"))
        else:
            other = self.dice.below(len(words))
            words[at], words[other] = words[other], words[at]
        self.say(*words)

    def make_again(self) -> None:
        """Another station at an address that has one, or a making that is refused."""
        address = self.dice.pick(tuple(self.boxes) + tuple(self.catalogues) + tuple(self.others))
        if self.catalogues and self.dice.once_in(2):
            self.make_catalogue(address)
            return
        words = self.box_words(address)
        at = self.dice.below(len(words))
        if at > 1 and not self.dice.once_in(4):
            words[at] = self.dice.pick((words[-1], b"0", b"65535", b"\\e", b"100:By:256", b"a:1296000000:0", b"a:0:0"))
        self.say(*words)

    def call_nobody(self) -> None:
        """A call to an address without a station, or with one of the other kind."""
        address = self.dice.pick(tuple(self.others) + tuple(self.boxes) + tuple(self.catalogues))
        packet = lines.encode(packets.discovery_request())
        calls = [(b"look", address, 0), (b"handle", address, 1, packet), (b"owner-write", address, 100, b"By", 1)]
        if self.with_catalogues:
            calls += [(b"counts", address), (b"discover", address), (b"poll", address, 0, 0), (b"enlist", address, 1),
                      (b"discovered", address, packet), (b"receive", address, 1, packet),
                      (b"open-read", address, 0, 0, 100), (b"open-write", address, 0, 0, b"100=1")]
        if self.may_withdraw:
            calls.append((b"withdraw", address, 0))
        self.say(*self.dice.pick(calls))

    # ---- what happens next ----------------------------------------------------------------------

    def plan(self) -> list[Callable[[], None]]:
        often = {self.stranger_asks: 56 if not self.catalogues else 32 if len(self.strangers) > 3 else 8,
                 self.deliver_damaged: 5, self.deliver_changed: 2, self.deliver_astray: 2, self.deliver_any: 2,
                 self.forge_answer: 4, self.spoil_line: 1, self.make_again: 1, self.call_nobody: 1}
        return super().plan() + [call for call, count in often.items() for _ in range(count)]

    def plan_of_catalogues(self) -> list[Callable[[], None]]:
        return super().plan_of_catalogues() if self.catalogues else []


def lines_without_end(dice: Dice, level: str) -> Iterator[bytes]:
    """The lines of one rough world after the other, all for one run of the console."""
    console = Console(level)
    while True:
        world = RoughWorld(dice, console, level)
        world.live(dice.between(*LENGTHS))
        yield from world.script
