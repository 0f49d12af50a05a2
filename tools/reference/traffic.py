"""Worlds of stations, by chance: what one station gives is handed to another, late, twice or never.

A world has boxes and catalogues, packets in the air, and dice that say what happens next. Each line is
answered by the reference at once, because the packets that stations give are needed later on; nothing here
says what the right answer is.

These worlds are *honest*: the air only loses, delays and repeats packets, each station is made once, and
every packet comes from where the transport says. `histories.py` keeps what they do, call by call. The rough
worlds of `mischief.py` are built on them.
"""

from __future__ import annotations

from typing import Callable, Iterator, NamedTuple, Optional

import levels
import lines
import packet_texts
import packets
import texts
import values
from box import Box
from catalogue import LATEST_TIME, LONGEST_INTERVAL, Catalogue
from console import Console
from dice import Dice
from memory import ROWS
from packets import DISCOVERY
from refusals import Refused
from stores import HouseRecord, Joined, Shelf, StarRows, Store
from texts import word_for
from values import KINDS

ADDRESSES = tuple(range(0, 16)) + (77, 255, 256, 8384, 65535, 65536, 2147483648, 4294967294, 4294967295)

# How many packets are in the air at most, and how many are held back to come much later.
MOST_IN_THE_AIR = 40
MOST_HELD = 24

# How many lines an honest world has, least and greatest, and one with a crowd of catalogues.
LENGTHS = (200, 900)
LENGTHS_OF_CROWDS = (600, 1200)


class Flight(NamedTuple):
    """A packet in the air."""

    sender: int
    to: int
    packet: bytes


def spots(store: Store) -> list[int]:
    """Indices that matter to a store: its elements, or some of them, and the neighbours of its limits."""
    if isinstance(store, Joined):
        return spots(store.lower) + spots(store.upper)
    if isinstance(store, Shelf):
        inside = list(store.elements)
    elif isinstance(store, HouseRecord):
        inside = [0, 1, 2, 3, 4]
    else:
        assert isinstance(store, StarRows)
        inside = [100, 101, 102, store.limits()[1]]
    low, high = store.limits()
    return inside + [index for index in (low, low - 1, high, high + 1) if 0 <= index <= 65535]


def changeable(store: Store) -> list[int]:
    """The indices of the elements that are not fixed."""
    return [index for index in dict.fromkeys(spots(store)) if is_changeable(store, index)]


def is_changeable(store: Store, index: int) -> bool:
    element = store.element(index)
    return element is not None and not element.fixed


def is_discovery(packet: bytes) -> bool:
    """Whether this is a well-formed packet with command 3."""
    try:
        return packets.read(packet).command == DISCOVERY
    except Refused:
        return False


class World:
    """Stations, packets in the air, and the lines that have been said so far."""

    def __init__(self, dice: Dice, console: Console, level: str) -> None:
        self.dice = dice
        self.console = console
        self.may_withdraw = levels.knows(level, "catalogue")
        self.script: list[bytes] = []
        self.answers: list[bytes] = []
        self.air: list[Flight] = []
        self.held: list[Flight] = []
        self.boxes, self.catalogues, self.others = self.people()
        for address in self.boxes:
            self.make_box(address)
        for address in self.catalogues:
            self.make_catalogue(address)
        for address in self.catalogues:
            self.enlist_some(address)
            if self.dice.once_in(2):
                self.discover_all(address)

    def people(self) -> tuple[list[int], list[int], list[int]]:
        """The addresses of boxes, of catalogues, and some others without a station. At times there are more
        catalogues than a box has records, or more addresses than a catalogue takes."""
        dice = self.dice
        boxes, catalogues, others = dice.between(1, 3), dice.between(1, 3), dice.between(0, 2)
        style = dice.below(7)
        if style == 0:
            boxes, catalogues = 1, dice.between(ROWS + 2, ROWS + 5)
        elif style == 1:
            others = dice.between(ROWS - 4, ROWS)
        free = list(ADDRESSES)
        some = [free.pop(dice.below(len(free))) for _ in range(boxes + catalogues + others)]
        return some[:boxes], some[boxes : boxes + catalogues], some[boxes + catalogues :]

    def is_crowd(self) -> bool:
        """Whether there are more catalogues than a box has records."""
        return len(self.catalogues) > ROWS

    # ---- saying a line ------------------------------------------------------------------------

    def say(self, *words: object) -> bytes:
        """Puts a line into the script, and tells what the reference answers."""
        line = b" ".join(word if isinstance(word, bytes) else str(word).encode() for word in words)
        answer = self.console.answer(line)
        self.script.append(line)
        self.answers.append(answer if answer is not None else b"")
        return self.answers[-1]

    def logic_at(self, address: int, kind: type) -> Optional[Box | Catalogue]:
        """The box or catalogue at an address, if there is one."""
        station = self.console.stations.get(address)
        return station.logic if station is not None and isinstance(station.logic, kind) else None

    def packet_in(self, answer: bytes) -> Optional[bytes]:
        """The packet that a station gave in an answer."""
        words = answer.split(b" ")
        if words[0] in (b"sent", b"again", b"reply"):
            return lines.decode(words[-1])
        return None

    def fly(self, sender: int, to: int, packet: Optional[bytes]) -> None:
        """Puts a packet in the air, and at times holds a copy back, most often of a request. Where there are too
        many, one is lost."""
        if packet is None:
            return
        self.air.append(Flight(sender, to, packet))
        if len(self.air) > MOST_IN_THE_AIR:
            self.air.pop(self.dice.below(len(self.air)))
        if self.dice.once_in(4 if to in self.boxes else 12):
            self.held.append(Flight(sender, to, packet))
            if len(self.held) > MOST_HELD:
                self.held.pop(self.dice.below(len(self.held)))

    # ---- making stations ----------------------------------------------------------------------

    def some_item(self, index: int) -> bytes:
        kind, text = packet_texts.sound_value(self.dice)
        fixed = b":fixed" if self.dice.once_in(6) else b""
        return b"%d:%s:%s%s" % (index, kind.encode(), lines.encode(text).replace(b":", b"\\x3a"), fixed)

    def shelf_words(self, least: int) -> list[bytes]:
        """LOW HIGH ITEM .. of a shelf that begins at this index or above."""
        low = least + self.dice.pick((0, 0, 0, 1, 20, 1000))
        high = low + self.dice.pick((0, 3, 5, 9, 9, 99, 4000))
        some = sorted({self.dice.between(low, min(high, low + 12)) for _ in range(self.dice.between(1, 9))} | {low})
        return [b"%d" % low, b"%d" % high] + [self.some_item(index) for index in some]

    def star_words(self) -> list[bytes]:
        result = []
        for _ in range(self.dice.between(1, 4)):
            name = packet_texts.sound_text(self.dice)
            angle = self.dice.pick((0, 1295999999, self.dice.below(1296000000)))
            height = self.dice.pick((-324000000, 324000000, self.dice.between(-324000000, 324000000)))
            result.append(b"%s:%d:%d" % (lines.encode(name).replace(b":", b"\\x3a"), angle, height))
        return result

    def box_words(self, address: int) -> list[bytes]:
        """The words of a making of some box."""
        kind = self.dice.pick((b"mount", b"mount", b"mount", b"library", b"dome", b"bare"))
        house = [word_for(self.dice, packet_texts.sound_text(self.dice)) for _ in range(2)]
        head = [kind, b"%d" % address]
        if kind == b"bare":
            return head + self.shelf_words(self.dice.pick((0, 1, 2, 3, 99, 100, 60000)))
        if kind == b"mount":
            return head + house + self.shelf_words(100)
        stars = self.star_words()
        return head + house + stars + ([b"/"] + self.shelf_words(100 + 3 * len(stars)) if kind == b"dome" else [])

    def make_box(self, address: int) -> None:
        self.say(*self.box_words(address))

    def make_catalogue(self, address: int) -> None:
        first = self.dice.pick((1000, 1000, 1001, 3000, 37500, 60000, self.dice.between(1000, 60000)))
        longest = first * self.dice.pick((1, 2, 2, 4, 8, 16, 512)) + self.dice.pick((-1, 0, 0, 0, 1, 500))
        repeats = self.dice.pick((0, 1, 2, 3, 9, 20, 20))
        self.say(b"catalogue", address, first, max(first, min(LONGEST_INTERVAL, longest)), repeats)

    def enlist_some(self, address: int) -> None:
        """Enlists most of the boxes, the others, and now and then a catalogue, itself perhaps, or a box again."""
        some = [box for box in self.boxes if self.is_crowd() or not self.dice.once_in(8)] + self.others
        some += [self.dice.pick(self.catalogues)] if self.dice.once_in(8) else []
        some += [self.dice.pick(self.boxes)] if self.dice.once_in(4) else []
        while some:
            self.say(b"enlist", address, some.pop(self.dice.below(len(some))))

    # ---- what to ask for ----------------------------------------------------------------------

    def some_index(self, store: Optional[Store]) -> int:
        if store is None or self.dice.once_in(12):
            return self.dice.pick((0, 1, 2, 3, 99, 100, 101, 65535, self.dice.below(65536)))
        open_ones = changeable(store)
        return self.dice.pick(open_ones) if open_ones and not self.dice.once_in(3) else self.dice.pick(spots(store))

    def some_text(self, store: Optional[Store], index: int) -> bytes:
        """A value text, mostly one that reads as the type of the element."""
        kind = store.kind_at(index) if store is not None else None
        if kind is None or self.dice.once_in(8):
            return packet_texts.sound_text(self.dice)
        for _ in range(6):
            text = texts.some_for(self.dice, kind)
            if values.read(kind, text) is not None:
                return text
        return packet_texts.sound_text(self.dice)

    def some_count(self) -> int:
        return self.dice.pick((1, 1, 1, 1, 2, 2, 3, 10))

    def store_at(self, address: int) -> Optional[Store]:
        box = self.logic_at(address, Box)
        return None if box is None else box.store

    # ---- boxes --------------------------------------------------------------------------------

    def look_around(self, address: int) -> None:
        """Looks at some of the elements of a box that can change."""
        store = self.store_at(address)
        for index in changeable(store) if store is not None else ():
            if self.dice.once_in(4):
                self.say(b"look", address, index)

    def look_everywhere(self) -> None:
        """Looks at all indices that matter, at each box."""
        for address in self.boxes:
            store = self.store_at(address)
            for index in dict.fromkeys(spots(store)) if store is not None else ():
                self.say(b"look", address, index)

    def hand_to_box(self, flight: Flight) -> None:
        answer = self.say(b"handle", flight.to, flight.sender, word_for(self.dice, flight.packet))
        self.fly(flight.to, flight.sender, self.packet_in(answer))
        if self.dice.once_in(2):
            self.look_around(flight.to)

    def look(self) -> None:
        address = self.dice.pick(self.boxes)
        self.say(b"look", address, self.some_index(self.store_at(address)))

    def owner_write(self) -> None:
        address = self.dice.pick(self.boxes)
        store = self.store_at(address)
        index = self.some_index(store)
        kind = (store.kind_at(index) if store is not None else None) or "By"
        if self.dice.once_in(6):
            kind = self.dice.pick(KINDS)
        text = self.some_text(store, index) if not self.dice.once_in(6) else texts.some_for(self.dice, kind)
        self.say(b"owner-write", address, index, kind, word_for(self.dice, text))
        self.look_around(address)

    # ---- catalogues ---------------------------------------------------------------------------

    def some_time(self, catalogue: Catalogue, partner: int) -> int:
        """A time near the clock, or near the deadline of what waits."""
        dice = self.dice
        clock = catalogue.clock or 0
        waiting = catalogue.partners[partner].waiting if partner < len(catalogue.partners) else None
        if dice.once_in(15):
            return max(0, clock + dice.pick((-1, -1, -1000, -catalogue.first)))
        if dice.once_in(400):
            return dice.pick((LATEST_TIME - 1, LATEST_TIME, LATEST_TIME + 1, 2 * LATEST_TIME, 2**64 - 1))
        if waiting is not None and not dice.once_in(3):
            return max(clock, waiting.deadline + dice.pick((-1, -1, 0, 0, 0, 0, 1, 1000)))
        return clock + dice.pick((0, 0, 1, 1, 100, catalogue.first - 1, catalogue.first))

    def some_partner(self, catalogue: Catalogue) -> int:
        count = len(catalogue.partners)
        if count == 0 or self.dice.once_in(25):
            return self.dice.pick((count, count + 1, 16, 4294967295))
        return self.dice.below(count)

    def at_a_catalogue(self, say: Callable[[int, Catalogue], None]) -> None:
        address = self.dice.pick(self.catalogues)
        catalogue = self.logic_at(address, Catalogue)
        if catalogue is not None:
            say(address, catalogue)

    def free_partner(self, catalogue: Catalogue) -> int:
        """A partner where nothing waits, if there is one; most often a box."""
        free = [at for at, partner in enumerate(catalogue.partners) if partner.waiting is None]
        boxes = [at for at in free if catalogue.partners[at].address in self.boxes]
        if boxes and not self.dice.once_in(4):
            return self.dice.pick(boxes)
        return self.dice.pick(free) if free else self.some_partner(catalogue)

    def open_one(self, address: int, catalogue: Catalogue) -> None:
        partner = self.some_partner(catalogue) if self.dice.once_in(4) else self.free_partner(catalogue)
        time = self.some_time(catalogue, 16 if self.dice.once_in(2) else partner)
        to = catalogue.partners[partner].address if partner < len(catalogue.partners) else None
        store = self.store_at(to) if to is not None else None
        count = self.some_count() if not self.dice.once_in(30) else self.dice.pick((0, 11, 12))
        indices = [self.some_index(store) for _ in range(count)]
        if self.dice.once_in(3):
            answer = self.say(b"open-read", address, time, partner, *indices)
        else:
            answer = self.say(b"open-write", address, time, partner, *[self.pair(store, index) for index in indices])
        self.fly(address, to, self.packet_in(answer))

    def pair(self, store: Optional[Store], index: int) -> bytes:
        """I=TEXT, at times with a text that is no value text."""
        bad = self.dice.once_in(60)
        text = self.dice.pick((b"", b"a" * 41, b"a:b", b"{", b"\xff")) if bad else self.some_text(store, index)
        return b"%d=%s" % (index, word_for(self.dice, text))

    def poll_at(self, address: int, catalogue: Catalogue, time: int, partner: int) -> None:
        answer = self.say(b"poll", address, time, partner)
        if partner < len(catalogue.partners):
            self.fly(address, catalogue.partners[partner].address, self.packet_in(answer))

    def poll_one(self, address: int, catalogue: Catalogue) -> None:
        partner = self.some_partner(catalogue)
        self.poll_at(address, catalogue, self.some_time(catalogue, partner), partner)

    def wait_out(self, address: int, catalogue: Catalogue) -> None:
        """Polls a partner at its deadlines, and just before them, until it is given up or the dice say so."""
        busy = [at for at, partner in enumerate(catalogue.partners) if partner.waiting is not None]
        partner = self.dice.pick(busy) if busy else self.some_partner(catalogue)
        while busy and catalogue.partners[partner].waiting is not None and not self.dice.once_in(20):
            early = 1 if self.dice.once_in(3) else 0
            time = max(catalogue.clock or 0, catalogue.partners[partner].waiting.deadline - early)
            self.poll_at(address, catalogue, time, partner)

    def withdraw_one(self, address: int, catalogue: Catalogue) -> None:
        self.say(b"withdraw", address, self.some_partner(catalogue))

    def enlist_one(self, address: int, _: Catalogue) -> None:
        self.say(b"enlist", address, self.dice.pick(self.boxes if self.dice.once_in(2) else ADDRESSES))

    def count_up(self, address: int, _: Catalogue) -> None:
        self.say(b"counts", address)

    def discover_all(self, address: int, _: Optional[Catalogue] = None) -> None:
        """A Discovery request to all boxes and to some catalogue, itself perhaps; some are lost at once."""
        packet = self.packet_in(self.say(b"discover", address))
        for to in self.boxes + [self.dice.pick(self.catalogues)]:
            if not self.dice.once_in(3):
                self.fly(address, to, packet)

    def hand_to_catalogue(self, flight: Flight) -> None:
        """A packet is received; one about Discovery is often read as such."""
        word = word_for(self.dice, flight.packet)
        if (is_discovery(flight.packet) and self.dice.once_in(2)) or self.dice.once_in(40):
            self.say(b"discovered", flight.to, word)
        else:
            self.say(b"receive", flight.to, flight.sender, word)
            if self.dice.once_in(4):
                self.say(b"counts", flight.to)

    # ---- the air ------------------------------------------------------------------------------

    def hand_over(self, flight: Flight) -> None:
        if flight.to in self.boxes:
            self.hand_to_box(flight)
        elif flight.to in self.catalogues:
            self.hand_to_catalogue(flight)

    def take_from_air(self) -> Optional[Flight]:
        """The oldest packet, the newest or any. At times it stays in the air, to come again."""
        if not self.air:
            return None
        style = self.dice.below(6)
        at = len(self.air) - 1 if style < 2 else 0 if style < 4 else self.dice.below(len(self.air))
        return self.air[at] if self.dice.once_in(3) else self.air.pop(at)

    def deliver(self) -> None:
        flight = self.take_from_air()
        if flight is not None:
            self.hand_over(flight)

    def deliver_held(self) -> None:
        """A copy that was held back, perhaps for long. It may come again."""
        if self.held:
            self.hand_over(self.dice.pick(self.held))

    def lose(self) -> None:
        if self.air:
            self.air.pop(self.dice.below(len(self.air)))

    # ---- what happens next ----------------------------------------------------------------------

    def plan_of_catalogues(self) -> list[Callable[[], None]]:
        """What may happen at catalogues, each as often as it is likely."""
        often = {self.open_one: 36, self.poll_one: 20, self.wait_out: 2, self.count_up: 4, self.discover_all: 3,
                 self.enlist_one: 1, self.withdraw_one: 6 if self.may_withdraw else 0}
        return [lambda call=call: self.at_a_catalogue(call) for call, count in often.items() for _ in range(count)]

    def plan(self) -> list[Callable[[], None]]:
        """What may happen, each as often as it is likely."""
        often = {self.deliver: 80, self.deliver_held: 14, self.lose: 4, self.look: 2, self.owner_write: 8}
        return [call for call, count in often.items() for _ in range(count)] + self.plan_of_catalogues()

    def live(self, count: int) -> None:
        """Goes on until there are this many lines; then the counts are told and the boxes looked at."""
        plan = self.plan()
        while len(self.script) < count:
            self.dice.pick(plan)()
        for address in self.catalogues:
            self.say(b"counts", address)
        self.look_everywhere()


def history(seed: int, level: str = "all", start: Callable[[str], Console] = Console) -> World:
    """An honest world that has lived, in a new run of the console."""
    named = levels.named(level)
    if not levels.knows(named, "transactions"):
        raise SystemExit(f"there are no histories at the level {named}: they need catalogues")
    dice = Dice(seed)
    world = World(dice, start(named), named)
    world.live(dice.between(*LENGTHS_OF_CROWDS if world.is_crowd() else LENGTHS))
    return world


def histories(seed: int, count: int, level: str = "all",
              start: Callable[[str], Console] = Console) -> Iterator[tuple[int, World]]:
    """Honest worlds with their seeds, from this seed on, until they have so many lines together."""
    while count > 0:
        world = history(seed, level, start)
        yield seed, world
        seed, count = seed + 1, count - len(world.script)
