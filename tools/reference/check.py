#!/usr/bin/env python3
"""Checks what must hold of every history, on honest worlds made by chance (traffic.py).

    python3 tools/reference/check.py [--level NAME] [LINES] [SEED]

checks whole histories that have about LINES lines together (100000 unless given), the first of them made from
SEED, the next from the number after it; SEED is taken from the clock unless given. Ends with status 1 and the
seed, the line and what is wrong as soon as something does not hold:

  - A transaction waits from its opening until it is settled. None is settled twice, and each settling settles
    one that waits. Each count told is the number of past calls of its kind, and they balance. Withdrawing gets
    16 exactly where the partner exists and none waits there; where one waits, it would be accepted.
  - What is settled as answered was carried out by its box exactly once, and is told as the box replied, group
    by group. Nothing is carried out twice. What is carried out was opened by that sender with that box.
  - None is carried out after a later one between the same two stations. Each element from index 100 up holds
    the value of its last accepted write, the first of which is the making of its box.

All of this is worked out from the calls, their answers and the contents of stores (histories.py), never from
the inside of a station.
"""

from __future__ import annotations

import sys
import time
from collections import Counter
from dataclasses import dataclass, field
from pathlib import Path
from typing import Iterable, NamedTuple, Optional

sys.path.insert(0, str(Path(__file__).resolve().parent))

import histories  # noqa: E402
import levels  # noqa: E402
import lines  # noqa: E402
import packets  # noqa: E402
import values  # noqa: E402
from histories import Contents, Event, History  # noqa: E402
from packet_calls import group_words  # noqa: E402
from packets import DISCOVERY, DONE, WRITE, Message  # noqa: E402
from refusals import NONE_WAITS, Refused  # noqa: E402
from values import Value  # noqa: E402

LINES = 100_000

# The elements of stations themselves lie below this index.
FIRST_INDEX = 100

ANSWERED, FAILED, WITHDRAWN = "answered", "failed", "withdrawn"
OPENED, REPEATED, WAITING = "opened", "repeated", "waiting"

# The calls that are events of a history. The others make a station or change none.
LISTED = (b"enlist", b"open-read", b"open-write", b"poll", b"withdraw", b"receive", b"discover", b"handle",
          b"owner-write")


class Found(Exception):
    """Something is wrong with a history at some event."""


class Broken(Found):
    """Something that must hold of every history does not."""


class NotHonest(Found):
    """This is no history of an honest world: whoever made it is at fault, and no station."""


class Violation(Exception):
    """Where something was found, and what."""

    def __init__(self, history: History, event: Event, found: Found) -> None:
        super().__init__(f"in the history of seed {history.seed}, line {event.line}: {found}")
        self.history, self.event, self.found = history, event, found


# ---- what the calls have said so far ----------------------------------------------------------


class Carrying(NamedTuple):
    """A carrying out by a box: its line, the number of the request, and the reply."""

    line: int
    number: int
    reply: bytes


@dataclass
class Transaction:
    """What an accepted opening opened. It waits until it is settled."""

    line: int
    sender: int
    partner: int
    box: int
    number: int
    settled: Optional[str] = None
    carrying: Optional[Carrying] = None

    def __str__(self) -> str:
        return f"transaction {self.number} of {self.sender} with {self.box}, opened in line {self.line},"


@dataclass
class Account:
    """What the calls of one catalogue have said: the address of each partner, what waits there, and counts."""

    partners: dict[int, int] = field(default_factory=dict)
    waiting: dict[int, list[Transaction]] = field(default_factory=dict)
    counts: Counter[str] = field(default_factory=Counter)

    def address_of(self, partner: int) -> int:
        """The address of a partner to whom a packet goes."""
        if partner not in self.partners:
            raise Broken(f"a packet is sent to partner {partner}, who was never enlisted")
        return self.partners[partner]

    def oldest(self, partner: int) -> Optional[Transaction]:
        """What has waited longest at a partner, or None."""
        return next(iter(self.waiting.get(partner, ())), None)

    def balance(self) -> dict[str, int]:
        """The counts that should be told."""
        told = {name: self.counts[name] for name in (OPENED, ANSWERED, FAILED, WITHDRAWN, REPEATED)}
        return {**told, WAITING: sum(map(len, self.waiting.values()))}


class Write(NamedTuple):
    """An accepted write: its line, and the value."""

    line: int
    value: Value


@dataclass
class Record:
    """What the calls of one box have said: the last write of each element, and the carryings out for each sender."""

    writes: dict[int, Write]
    carryings: dict[int, Carrying] = field(default_factory=dict)
    latest: dict[int, Transaction] = field(default_factory=dict)

    def kind_at(self, index: int) -> Optional[str]:
        """The type of an element; it never changes."""
        return self.writes[index].value.kind if index in self.writes else None


def refusal(answer: list[bytes]) -> Optional[int]:
    """The number of a refusal, or None if it is another answer."""
    return int(answer[1]) if answer[0] == b"refused" else None


def message_in(packet: bytes) -> Message:
    """What a packet says that a station wrote."""
    try:
        return packets.read(packet)
    except Refused as refused:
        raise Broken(f"a station wrote a packet that is refused by {refused.number}") from refused


def told(words: list[bytes]) -> str:
    return b" ".join(words).decode()


def shown(value: Optional[Value]) -> str:
    return "nothing" if value is None else f"{value.kind} {lines.encode(values.spell(value)).decode()}"


# ---- the laws ---------------------------------------------------------------------------------


class Checker:
    """Goes along a history, event by event, and raises `Broken` where something does not hold."""

    def __init__(self) -> None:
        self.accounts: dict[int, Account] = {}
        self.records: dict[int, Record] = {}
        self.sent: set[tuple[int, Optional[int], bytes]] = set()
        self.bound: set[tuple[Optional[int], bytes]] = set()
        self.opened: dict[tuple[int, int, int], Transaction] = {}
        self.tally: Counter[str] = Counter()
        self.refusals: Counter[int] = Counter()

    def see(self, event: Event) -> None:
        """One more event."""
        if event.answer == [b"error"]:
            raise NotHonest("the line is not understood")
        call, *words = event.words
        number = refusal(event.answer)
        self.tally["lines"] += 1
        if call in LISTED:
            self.tally["events"] += 1
        if number is not None:
            self.refusals[number] += 1
        self.check_contents(event, event.before)
        CALLS[call](self, event, *words)
        self.check_contents(event, event.after)
        self.check_withdrawals(event)

    # ---- packets ------------------------------------------------------------------------------

    def send(self, sender: int, to: Optional[int], packet: bytes) -> None:
        """A packet was sent to an address, or to everyone."""
        self.sent.add((sender, to, packet))
        self.bound.add((to, packet))

    def arrive(self, sender: int, to: int, packet: bytes) -> Message:
        """What arrives was sent there by its sender."""
        if (sender, to, packet) not in self.sent and (sender, None, packet) not in self.sent:
            raise NotHonest(f"{sender} never sent this packet to {to}")
        return message_in(packet)

    # ---- makings and partners -----------------------------------------------------------------

    def on_making_a_box(self, event: Event, address: bytes, *_: bytes) -> None:
        if self.is_made(event, int(address)):
            first = {index: Write(event.line, element.value) for index, element in event.after.items()}
            self.records[int(address)] = Record(first)

    def on_catalogue(self, event: Event, address: bytes, *_: bytes) -> None:
        if self.is_made(event, int(address)):
            self.accounts[int(address)] = Account()

    def is_made(self, event: Event, address: int) -> bool:
        """Whether a station is made; there is no other at its address."""
        if address in self.records or address in self.accounts:
            raise NotHonest(f"a second station is made at {address}")
        return event.answer == [b"made"]

    def on_enlist(self, event: Event, address: bytes, partner: bytes) -> None:
        if event.answer[0] == b"partner":
            account = self.accounts[int(address)]
            account.partners[int(event.answer[1])] = int(partner)
            account.waiting[int(event.answer[1])] = []

    # ---- transactions -------------------------------------------------------------------------

    def on_open(self, event: Event, address: bytes, _: bytes, partner: bytes, *__: bytes) -> None:
        if event.answer[0] != b"sent":
            return
        account, at = self.accounts[int(address)], int(partner)
        opened = Transaction(event.line, int(address), at, account.address_of(at), int(event.answer[1]))
        account.waiting[at].append(opened)
        account.counts[OPENED] += 1
        self.tally[OPENED] += 1
        self.opened[opened.sender, opened.box, opened.number] = opened
        self.send(opened.sender, opened.box, lines.decode(event.answer[2]))

    def settle(self, account: Account, transaction: Optional[Transaction], how: str) -> Transaction:
        """A settling settles one that waits."""
        if transaction is None:
            raise Broken(f"something is settled as {how}, but no such transaction waits")
        if transaction.settled is not None:
            raise Broken(f"{transaction} is settled as {how}, but was settled as {transaction.settled} already")
        transaction.settled = how
        account.waiting[transaction.partner].remove(transaction)
        account.counts[how] += 1
        self.tally[how] += 1
        return transaction

    def check_number(self, transaction: Transaction, told: bytes) -> None:
        if int(told) != transaction.number:
            raise Broken(f"{transaction} is settled, but the number {int(told)} is told")

    def on_poll(self, event: Event, address: bytes, _: bytes, partner: bytes) -> None:
        account, at = self.accounts[int(address)], int(partner)
        if event.answer[0] == b"again":
            account.counts[REPEATED] += 1
            self.tally[REPEATED] += 1
            self.send(int(address), account.address_of(at), lines.decode(event.answer[1]))
        elif event.answer[0] == b"failed":
            self.check_number(self.settle(account, account.oldest(at), FAILED), event.answer[1])

    def on_withdraw(self, event: Event, address: bytes, partner: bytes) -> None:
        account, at = self.accounts[int(address)], int(partner)
        self.check_withdrawal(account, at, event.answer, "is")
        if event.answer[0] == b"withdrawn":
            self.settle(account, account.oldest(at), WITHDRAWN)

    def check_withdrawal(self, account: Account, at: int, answer: list[bytes], mood: str) -> None:
        """Withdrawing gets 16 exactly where the partner exists and none waits; where one waits, it is accepted."""
        number, oldest = refusal(answer), account.oldest(at)
        if oldest is not None and number is not None:
            raise Broken(f"{oldest} waits, but withdrawing it {mood} refused by {number}")
        if oldest is not None:
            self.check_number(oldest, answer[1])
        elif at in account.partners and number != NONE_WAITS:
            raise Broken(f"none waits at partner {at}, but withdrawing there {mood} answered by {told(answer)}")
        elif at not in account.partners and number in (None, NONE_WAITS):
            raise Broken(f"there is no partner {at}, but withdrawing there {mood} answered by {told(answer)}")

    def check_withdrawals(self, event: Event) -> None:
        """What withdrawing at each partner would answer now."""
        for at, answer in enumerate(event.withdrawals):
            self.check_withdrawal(self.accounts[int(event.words[1])], at, answer, "would be")

    def on_receive(self, event: Event, address: bytes, sender: bytes, packet: bytes) -> None:
        message = self.arrive(int(sender), int(address), lines.decode(packet))
        if event.answer[0] != b"answered":
            return
        latest = self.opened.get((int(address), int(sender), message.number))
        transaction = self.settle(self.accounts[int(address)], latest, ANSWERED)
        self.check_number(transaction, event.answer[1])
        if transaction.carrying is None:
            raise Broken(f"{transaction} is settled as answered, but its box never carried it out")
        reply = group_words(message_in(transaction.carrying.reply).groups)
        if event.answer[2:] != reply:
            raise Broken(f"{transaction} is told otherwise than its box replied in line {transaction.carrying.line}")

    def on_counts(self, event: Event, address: bytes) -> None:
        counts = dict(zip(map(bytes.decode, event.answer[::2]), map(int, event.answer[1::2])))
        if counts[OPENED] != sum(counts[name] for name in (ANSWERED, FAILED, WITHDRAWN, WAITING)):
            raise Broken("the counts do not balance")
        for name, wanted in self.accounts[int(address)].balance().items():
            if counts[name] != wanted:
                raise Broken(f"{counts[name]} {name} are told, but there were {wanted}")

    def on_discover(self, event: Event, address: bytes) -> None:
        self.send(int(address), None, lines.decode(event.answer[2]))

    def on_discovered(self, _: Event, address: bytes, packet: bytes) -> None:
        some, to = lines.decode(packet), int(address)
        if (to, some) not in self.bound and (None, some) not in self.bound:
            raise NotHonest(f"nobody sent this packet to {to}")

    # ---- boxes --------------------------------------------------------------------------------

    def on_handle(self, event: Event, address: bytes, sender: bytes, packet: bytes) -> None:
        at, asker = int(address), int(sender)
        request = self.arrive(asker, at, lines.decode(packet))
        if event.answer[0] != b"reply":
            return
        reply = lines.decode(event.answer[1])
        self.send(at, asker, reply)
        if request.command == DISCOVERY:
            return
        last = self.records[at].carryings.get(asker)
        stays = event.before == event.after
        if stays and last is not None and (last.number, last.reply) == (request.number, reply):
            self.tally["repeats"] += 1
        else:
            self.carry_out(self.opened.get((asker, at, request.number)), event, at, asker, request, reply)

    def carry_out(self, transaction: Optional[Transaction], event: Event, box: int, sender: int, request: Message,
                  reply: bytes) -> None:
        """Each is carried out once, after no later one, and was opened by that sender with that box."""
        record = self.records[box]
        if transaction is None:
            raise Broken(f"{box} carries out number {request.number} of {sender}, which {sender} never opened with it")
        if transaction.carrying is not None:
            raise Broken(f"{transaction} is carried out again; it was in line {transaction.carrying.line}")
        later = record.latest.get(sender, transaction)
        if later.line > transaction.line:
            raise Broken(f"{transaction} is carried out after the later one that was opened in line {later.line}")
        record.latest[sender] = transaction
        transaction.carrying = record.carryings[sender] = Carrying(event.line, request.number, reply)
        self.tally["carried out"] += 1
        if request.command == WRITE:
            for put, done in zip(request.groups, message_in(reply).groups):
                if done.code == DONE:
                    self.write(event, box, put.index, record.kind_at(put.index), put.text)

    def on_owner_write(self, event: Event, address: bytes, index: bytes, kind: bytes, text: bytes) -> None:
        if event.answer == [b"code", b"%d" % DONE]:
            self.write(event, int(address), int(index), kind.decode(), lines.decode(text))

    def write(self, event: Event, box: int, index: int, kind: Optional[str], text: bytes) -> None:
        """A write is accepted."""
        value = None if kind is None else values.read(kind, text)
        if value is None:
            raise Broken(f"a write to element {index} is accepted, but it has no value")
        self.tally["accepted writes"] += 1
        self.records[box].writes[index] = Write(event.line, value)

    def check_contents(self, event: Event, contents: Optional[Contents]) -> None:
        """Each element holds the value of its last accepted write."""
        record = self.records.get(int(event.words[1]))
        if contents is None or record is None:
            return
        for index, element in contents.items():
            self.check_element(record, index, element.value)
        for index in record.writes.keys() - contents.keys():
            self.check_element(record, index, None)

    def check_element(self, record: Record, index: int, value: Optional[Value]) -> None:
        write = record.writes.get(index)
        if index < FIRST_INDEX or (write.value if write else None) == value:
            return
        if write is None:
            raise Broken(f"element {index} holds {shown(value)}, but there was none")
        raise Broken(f"element {index} holds {shown(value)}, but {shown(write.value)} was written in line {write.line}")

    def on_look(self, event: Event, address: bytes, index: bytes) -> None:
        value = None
        if event.answer[0] == b"%d" % DONE:
            value = values.read(event.answer[1].decode(), lines.decode(event.answer[2]))
        self.check_element(self.records[int(address)], int(index), value)

    # ---- the end ------------------------------------------------------------------------------

    def finish(self) -> None:
        """What is left when the history ends."""
        self.tally["histories"] += 1
        self.tally[WAITING] += sum(account.balance()[WAITING] for account in self.accounts.values())


CALLS = {
    b"mount": Checker.on_making_a_box,
    b"library": Checker.on_making_a_box,
    b"dome": Checker.on_making_a_box,
    b"bare": Checker.on_making_a_box,
    b"handle": Checker.on_handle,
    b"owner-write": Checker.on_owner_write,
    b"look": Checker.on_look,
    b"catalogue": Checker.on_catalogue,
    b"enlist": Checker.on_enlist,
    b"open-read": Checker.on_open,
    b"open-write": Checker.on_open,
    b"poll": Checker.on_poll,
    b"withdraw": Checker.on_withdraw,
    b"receive": Checker.on_receive,
    b"counts": Checker.on_counts,
    b"discover": Checker.on_discover,
    b"discovered": Checker.on_discovered,
}


# ---- the program ------------------------------------------------------------------------------


def check(history: History) -> Checker:
    """What a history has in it, if all holds."""
    checker = Checker()
    for event in history.events:
        try:
            checker.see(event)
        except Found as found:
            raise Violation(history, event, found) from found
    checker.finish()
    return checker


def report(tally: Counter[str], refusals: Counter[int]) -> None:
    """What was seen."""
    print(f"{tally['histories']} histories, {tally['lines']} lines, {tally['events']} events")
    settled = ", ".join(f"{tally[name]} {name}" for name in (OPENED, ANSWERED, FAILED, WITHDRAWN))
    print(f"transactions: {settled}, {tally[WAITING]} {WAITING} at the end; {tally[REPEATED]} sent again")
    print(f"at boxes: {tally['carried out']} carried out, {tally['repeats']} repeats,"
          f" {tally['accepted writes']} accepted writes")
    print("refusals: " + ", ".join(f"{count} by {number}" for number, count in sorted(refusals.items())))


def check_all(all_histories: Iterable[History], level: str) -> int:
    """Checks each history of a level and reports. Tells the status with which the program ends."""
    tally: Counter[str] = Counter()
    refusals: Counter[int] = Counter()
    for history in all_histories:
        try:
            checker = check(history)
        except Violation as violation:
            print(f"BROKEN {violation}")
            print(f"  {told(violation.event.words)}\n  {told(violation.event.answer)}")
            print(f"its lines: python3 tools/reference/random_lines.py --level {level} --histories {history.seed} 1")
            return 1
        tally += checker.tally
        refusals += checker.refusals
    report(tally, refusals)
    print("all of it holds")
    return 0


def main() -> int:
    level, rest = levels.chosen(sys.argv[1:], "all")
    if len(rest) > 2 or not all(word.isdecimal() for word in rest):
        sys.exit("usage: check.py [--level NAME] [LINES] [SEED]")
    count, seed = [int(word) for word in rest] + [LINES, time.time_ns()][len(rest) :]
    again = f"python3 tools/reference/check.py --level {level} {count} {seed}"
    print(f"histories of {count} lines, seed {seed} (to check them again: {again})")
    return check_all(histories.recorded(seed, count, level), level)


if __name__ == "__main__":
    sys.exit(main())
