#!/usr/bin/env python3
"""Tests of check.py: it passes what the reference does, and finds each fault that is planted into a station."""

import contextlib
import io
import sys
import unittest
from collections import Counter
from pathlib import Path
from unittest import mock

sys.path.insert(0, str(Path(__file__).resolve().parent))

import box_calls  # noqa: E402
import catalogue_calls  # noqa: E402
import check  # noqa: E402
import console  # noqa: E402
import histories  # noqa: E402
import random_lines  # noqa: E402
import traffic  # noqa: E402
from box import Box, Record  # noqa: E402
from catalogue import Answered, Catalogue, Counts, Failed, Partner, read_answer  # noqa: E402
from check import Broken, NotHonest, Violation  # noqa: E402
from histories import History, Recorder  # noqa: E402
from lines import lines_of  # noqa: E402
from memory import ROWS, SLAB, Part  # noqa: E402
from packets import WRITE, Done  # noqa: E402
from refusals import ENLISTED, NO_MATCH, NONE_WAITS, STILL_WAITS, UNKNOWN, Refused  # noqa: E402
from stores import Shelf  # noqa: E402

# Within so many lines each planted fault is found.
ENOUGH = 8000


# ---- faults of a catalogue --------------------------------------------------------------------


class ByNumberAlone(Catalogue):
    """An answer from anyone settles what waits with its number."""

    def receive(self, sender, packet):
        message = read_answer(packet)
        for partner in self.partners:
            if partner.waiting is not None and partner.waiting.number == message.number:
                return taken(self, partner, message)
        raise Refused(NO_MATCH)


class AnyCommand(Catalogue):
    """The command of an answer is not compared, so that one to Discovery can settle a transaction."""

    def receive(self, sender, packet):
        message = read_answer(packet)
        for partner in self.partners:
            waiting = partner.waiting
            if partner.address == sender and waiting is not None:
                if (waiting.number, waiting.count) == (message.number, len(message.groups)):
                    return taken(self, partner, message)
        return super().receive(sender, packet)


def taken(catalogue, partner, message):
    """The answer is taken for what waits at the partner."""
    partner.waiting = None
    catalogue.counts.answered += 1
    return Answered(message.number, message.groups)


class AnswersTakenTwice(Catalogue):
    """The answer to what was settled last is accepted once more."""

    def receive(self, sender, packet):
        message = read_answer(packet)
        settled = vars(self).setdefault("settled", {})
        if settled.get(sender) == message.number:
            return taken(self, Partner(sender), message)
        answered = super().receive(sender, packet)
        settled[sender] = answered.number
        return answered


class FirstGroupForAll(Catalogue):
    """The first group of an answer is told for each."""

    def receive(self, sender, packet):
        number, groups = super().receive(sender, packet)
        return Answered(number, groups[:1] * len(groups))


class GivesUpTooLate(Catalogue):
    """A newer one can be opened when the older has run out of time; giving up the older then clears the newer."""

    def open(self, number, time, slab, command, groups):
        overdue = vars(self).setdefault("overdue", {})
        partner = self.partners[number] if number < len(self.partners) else Partner(0)
        older = partner.waiting
        if older is not None and time >= older.deadline and number not in overdue:
            partner.waiting = None
        try:
            opened = super().open(number, time, slab, command, groups)
        except Refused:
            partner.waiting = older
            raise
        if older is not None:
            overdue[number] = older
        return opened

    def poll(self, number, time):
        polled = super().poll(number, time)
        older = vars(self).setdefault("overdue", {}).pop(number, None)
        if older is None or isinstance(polled, Failed):
            return polled
        self.partners[number].waiting = None
        self.counts.failed += 1
        return Failed(older.number)


class ClearsLater(Catalogue):
    """The place of what failed is cleared at the next poll as well, whatever waits there by then."""

    def poll(self, number, time):
        late = vars(self).setdefault("late", set())
        polled = super().poll(number, time)
        if isinstance(polled, Failed):
            late.add(number)
        elif number in late:
            late.remove(number)
            self.partners[number].waiting = None
        return polled


class FailedStillWaits(Catalogue):
    """Giving up leaves the transaction where it is."""

    def poll(self, number, time):
        waiting = self.partners[number].waiting if number < len(self.partners) else None
        polled = super().poll(number, time)
        if isinstance(polled, Failed):
            self.partners[number].waiting = waiting
        return polled


class WithdrawnStillWaits(Catalogue):
    """Withdrawing leaves the transaction where it is."""

    def withdraw(self, number):
        waiting = self.partner(number).waiting
        withdrawn = super().withdraw(number)
        self.partners[number].waiting = waiting
        return withdrawn


class NotWithdrawnOnceRepeated(Catalogue):
    """What was sent again cannot be withdrawn."""

    def withdraw(self, number):
        waiting = self.partner(number).waiting
        if waiting is not None and waiting.repeats:
            raise Refused(NONE_WAITS)
        return super().withdraw(number)


class NobodyWaitsAnywhere(Catalogue):
    """Withdrawing at a partner who is not there is refused by 16."""

    def withdraw(self, number):
        if number >= len(self.partners):
            raise Refused(NONE_WAITS)
        return super().withdraw(number)


class UnknownWhereNoneWaits(Catalogue):
    """Withdrawing at a partner where none waits is refused by 10."""

    def withdraw(self, number):
        if self.partner(number).waiting is None:
            raise Refused(UNKNOWN)
        return super().withdraw(number)


class NumbersTakenAgain(Catalogue):
    """The number of a withdrawn transaction goes to the next one."""

    def withdraw(self, number):
        withdrawn = super().withdraw(number)
        self.partners[number].next_number -= 1
        return withdrawn


class OpensOverWhatWaits(Catalogue):
    """A newer transaction takes the place of the one that waits."""

    def open(self, number, time, slab, command, groups):
        try:
            return super().open(number, time, slab, command, groups)
        except Refused as refused:
            if refused.number != STILL_WAITS:
                raise
        self.partners[number].waiting = None
        return super().open(number, time, slab, command, groups)


class EnlistsTwice(Catalogue):
    """A partner can be enlisted again."""

    def enlist(self, address):
        if len(self.partners) == ROWS:
            raise Refused(ENLISTED)
        self.partners.append(Partner(address))
        return len(self.partners) - 1


class StuckCounts(Counts):
    """Counts of which one is not kept."""

    stuck = None

    def __setattr__(self, name, value):
        super().__setattr__(name, 0 if name == self.stuck else value)


def forgets(name):
    """A catalogue that does not keep one of its counts."""
    stuck = type("Stuck", (StuckCounts,), {"stuck": name})

    def make(self, *settings):
        Catalogue.__init__(self, *settings)
        self.counts = stuck()

    return type("Forgets", (Catalogue,), {"__init__": make})


class CountsPartners(Catalogue):
    """All partners are counted as waiting."""

    def waiting(self):
        return len(self.partners)


# ---- faults of a box --------------------------------------------------------------------------


class RepeatCarriedOut(Box):
    """The same number is carried out again."""

    def serve(self, sender, message, slab):
        row = self.record_of(sender)
        if row is not None and message.number == self.records[row].newest:
            return self.carry_out(row, sender, message, slab)
        return super().serve(sender, message, slab)


class LowerCarriedOut(Box):
    """A lower number is carried out."""

    def serve(self, sender, message, slab):
        row = self.record_of(sender)
        if row is not None and message.number < self.records[row].newest:
            return self.carry_out(row, sender, message, slab)
        return super().serve(sender, message, slab)


class RefusedButDone(Box):
    """A lower number is refused, but written all the same."""

    def serve(self, sender, message, slab):
        row = self.record_of(sender)
        if row is not None and message.number < self.records[row].newest and message.command == WRITE:
            self.write_groups(message)
        return super().serve(sender, message, slab)


class RecordTakenOver(Box):
    """A seventeenth sender takes over the record of the first, who is forgotten."""

    def serve(self, sender, message, slab):
        if self.record_of(sender) is None and len(self.records) == ROWS:
            self.records[0] = Record(sender, -1, 0)
        return super().serve(sender, message, slab)


class OneNumberForAll(Box):
    """All senders share the first record."""

    def record_of(self, sender):
        return 0 if self.records else None


class ReplyOfAnother(Box):
    """A repeat gets the kept reply of the first record."""

    def serve(self, sender, message, slab):
        part = super().serve(sender, message, slab)
        row = self.record_of(sender)
        repeated = vars(self).get("last") == (sender, message.number)
        self.last = (sender, message.number)
        return Part(SLAB, 0, self.records[0].length) if repeated and row else part


class DiscoveryTakesNumbers(Box):
    """Discovery is served like a read, with record and number."""

    def handle(self, sender, packet, slab, buffer):
        return super().handle(sender, packet.replace(b":3:2:3}", b":1:2:3}"), slab, buffer)


class NothingWritten(Box):
    """The store is never written to, and each code is 0."""

    def write_groups(self, message):
        return [Done(0) for _ in message.groups]


class FirstCodeForAll(Box):
    """The first group is carried out, and its code is copied to the others."""

    def write_groups(self, message):
        first = super().write_groups(message._replace(groups=message.groups[:1]))
        return first * len(message.groups)


class NotToldAll(Box):
    """All groups are written, but code 2 is told for the last of several."""

    def write_groups(self, message):
        groups = super().write_groups(message)
        return groups[:-1] + [Done(2)] if len(groups) > 1 else groups


def forgetful(self, index, value):
    """A write to an element that was written before is lost."""
    written = vars(self).setdefault("written", set())
    if index not in written:
        self.elements[index] = self.elements[index]._replace(value=value)
    written.add(index)


def sloppy(self, index, value):
    """A write changes the next element of that type too."""
    for at, element in self.elements.items():
        if at in (index, index + 1) and element.value.kind == value.kind:
            self.elements[at] = element._replace(value=value)


# ---- finding them -----------------------------------------------------------------------------


def in_catalogues(fault):
    return mock.patch.object(catalogue_calls, "Catalogue", fault)


def in_boxes(fault):
    return mock.patch.object(box_calls, "Box", fault)


def in_shelves(fault):
    return mock.patch.object(Shelf, "replace", fault)


FAULTS = {
    in_catalogues: [
        ByNumberAlone, AnyCommand, AnswersTakenTwice, FirstGroupForAll, GivesUpTooLate, ClearsLater,
        FailedStillWaits, WithdrawnStillWaits, NotWithdrawnOnceRepeated, NobodyWaitsAnywhere, UnknownWhereNoneWaits,
        NumbersTakenAgain, OpensOverWhatWaits, EnlistsTwice, CountsPartners, *map(forgets, vars(Counts()))],
    in_boxes: [
        RepeatCarriedOut, LowerCarriedOut, RefusedButDone, RecordTakenOver, OneNumberForAll, ReplyOfAnother,
        DiscoveryTakesNumbers, NothingWritten, FirstCodeForAll, NotToldAll],
    in_shelves: [forgetful, sloppy],
}


def first_violation(count=ENOUGH, seed=1, level="all"):
    """What is found first, and how many lines it took."""
    lines = 0
    for history in histories.recorded(seed, count, level):
        try:
            check.check(history)
        except Violation as violation:
            return violation, lines + violation.event.line
        lines += len(history.events)
    return None, lines


class Worlds(unittest.TestCase):
    def test_what_the_reference_does_holds(self):
        violation, lines = first_violation(seed=20261118)
        self.assertIsNone(violation)
        self.assertGreaterEqual(lines, ENOUGH)

    def test_worlds_are_rich(self):
        checkers = [check.check(history) for history in histories.recorded(20261119, 20000)]
        tally = sum((checker.tally for checker in checkers), Counter())
        refusals = sum((checker.refusals for checker in checkers), Counter())
        for name in ("opened", "answered", "failed", "withdrawn", "repeated", "waiting", "carried out", "repeats",
                     "accepted writes"):
            self.assertGreaterEqual(tally[name], 200, name)
        self.assertEqual(tally["opened"], sum(tally[name] for name in ("answered", "failed", "withdrawn", "waiting")))
        self.assertEqual(sorted(refusals), [1, 9, 10, 11, 12, 13, 14, 15, 16])
        full = sum(event.words[0] == b"handle" and event.answer == [b"refused", b"10"]
                   for history in histories.recorded(20261119, 20000) for event in history.events)
        self.assertGreaterEqual(full, 10)

    def test_histories_as_lines(self):
        script = random_lines.histories(77, 3000)
        worlds = [world for _, world in traffic.histories(77, 3000)]
        self.assertEqual([line for line in lines_of(script) if not line.startswith(b"#")],
                         [line for world in worlds for line in world.script])
        self.assertEqual(lines_of(console.run(script, "all")), [answer for world in worlds for answer in world.answers])
        recorded = [history.events for history in histories.recorded(77, 3000)]
        self.assertEqual([b" ".join(event.words) for events in recorded for event in events],
                         [line for world in worlds for line in world.script])

    def test_histories_without_withdrawing(self):
        self.assertNotIn(b"withdraw", random_lines.histories(5, 5000, "transactions"))
        for history in histories.recorded(5, 5000, "transactions"):
            self.assertNotIn("withdrawn", check.check(history).tally)
        self.assertRaises(SystemExit, random_lines.histories, 5, 5000, "box")


class Planted(unittest.TestCase):
    def test_each_fault_is_found(self):
        for place, faults in FAULTS.items():
            for fault in faults:
                with self.subTest(fault=fault.__name__), place(fault):
                    violation, _ = first_violation()
                    self.assertIsNotNone(violation)
                    self.assertIsInstance(violation.found, Broken)

    def test_most_are_found_from_the_calls_that_were_made(self):
        """Without asking what withdrawing would answer."""
        for fault in (ByNumberAlone, GivesUpTooLate, ClearsLater, FailedStillWaits, WithdrawnStillWaits):
            with self.subTest(fault=fault.__name__), in_catalogues(fault):
                with mock.patch.object(Recorder, "withdrawals_at", lambda *_: ()):
                    violation, _ = first_violation()
                    self.assertIsInstance(violation.found, Broken)

    def test_counts_alone_show_what_is_lost(self):
        """Where withdrawing is not known."""
        for fault in (OpensOverWhatWaits, ClearsLater, *map(forgets, ("opened", "answered", "failed", "repeated"))):
            with self.subTest(fault=fault.__name__), in_catalogues(fault):
                violation, _ = first_violation(level="transactions")
                self.assertIsInstance(violation.found, Broken)


# A history, and what its lines are answered.
SMALL = [
    ("mount 9 S1 M1 100 199 100:St:Vega 101:Si:84.830", "made"),
    ("catalogue 1 3000 24000 1", "made"),
    ("enlist 1 9", "partner 0"),
    ("open-write 1 0 0 101=90.50", "sent 0 {1.1:R:0:2:101:90.50}"),
    ("handle 9 1 {1.1:R:0:2:101:90.50}", "reply {1.1:A:0:2:0}"),
    ("handle 9 1 {1.1:R:0:2:101:90.50}", "reply {1.1:A:0:2:0}"),
    ("receive 1 9 {1.1:A:0:2:0}", "answered 0 0"),
    ("receive 1 9 {1.1:A:0:2:0}", "refused 12"),
    ("open-read 1 0 0 101 4", "sent 1 {1.1:R:1:1:101:4}"),
    ("withdraw 1 0", "withdrawn 1"),
    ("withdraw 1 0", "refused 16"),
    ("withdraw 1 1", "refused 10"),
    ("handle 9 1 {1.1:R:1:1:101:4}", "reply {1.1:A:1:1:0:Si:90.5:1:Nil:0}"),
    ("handle 9 1 {1.1:R:0:2:101:90.50}", "refused 11"),
    ("receive 1 9 {1.1:A:1:1:0:Si:90.5:1:Nil:0}", "refused 12"),
    ("owner-write 9 101 Si 5.0", "code 0"),
    ("look 9 101", "0 Si 5"),
    ("handle 9 1 {1.1:R:1:1:101:4}", "reply {1.1:A:1:1:0:Si:90.5:1:Nil:0}"),
    ("open-write 1 0 0 101=7", "sent 2 {1.1:R:2:2:101:7}"),
    ("counts 1", "opened 3 answered 1 failed 0 withdrawn 1 repeated 0 waiting 1"),
    ("poll 1 3000 0", "again {1.1:R:2:2:101:7}"),
    ("poll 1 9000 0", "failed 2"),
    ("discover 1", "sent 0 {1.1:R:0:3:2:3}"),
    ("handle 9 1 {1.1:R:0:3:2:3}", "reply {1.1:A:0:3:0:St:M1:0:By:0}"),
    ("discovered 1 {1.1:A:0:3:0:St:M1:0:By:0}", "found 0:St:M1 0:By:0"),
    ("receive 1 1 {1.1:R:0:3:2:3}", "refused 9"),
    ("counts 1", "opened 3 answered 1 failed 1 withdrawn 1 repeated 1 waiting 0"),
]


def small(lies=(), lines=SMALL):
    """The history of these lines, with some answers replaced by lies."""
    recorder = Recorder("all")
    for line, _ in lines:
        recorder.answer(line.encode())
    lies = dict(lies)
    events = [event._replace(answer=lies.get(event.line, b" ".join(event.answer).decode()).encode().split(b" "))
              for event in recorder.events]
    return History(0, events)


class Small(unittest.TestCase):
    def assert_found(self, kind, line, words, history):
        with self.assertRaises(Violation) as caught:
            check.check(history)
        self.assertIsInstance(caught.exception.found, kind)
        self.assertEqual(caught.exception.event.line, line, caught.exception)
        self.assertIn(words, str(caught.exception))

    def test_it_holds(self):
        history = small()
        self.assertEqual([b" ".join(event.answer).decode() for event in history.events], [told for _, told in SMALL])
        checker = check.check(history)
        self.assertEqual(checker.tally, Counter({
            "lines": 27, "events": 21, "histories": 1, "opened": 3, "answered": 1, "failed": 1, "withdrawn": 1,
            "repeated": 1, "waiting": 0, "carried out": 2, "repeats": 2, "accepted writes": 2}))
        self.assertEqual(checker.refusals, Counter({12: 2, 16: 1, 10: 1, 11: 1, 9: 1}))

    def test_lies_are_found(self):
        for line, lie, words in [
            (5, "refused 10", "element 101 holds Si 90.5, but Si 84.83 was written in line 1"),
            (5, "reply {1.1:A:0:2:2}", "element 101 holds Si 90.5"),
            (5, "reply {1.1:A:0:2:4}", "a station wrote a packet that is refused by 8"),
            (6, "reply {1.1:A:0:2:1}", "carried out again; it was in line 5"),
            (7, "answered 0 2", "told otherwise than its box replied in line 5"),
            (7, "answered 1 0", "the number 1 is told"),
            (7, "refused 12", "waits, but withdrawing it would be refused by 16"),
            (8, "answered 0 0", "was settled as answered already"),
            (9, "refused 15", "none waits at partner 0, but withdrawing there would be answered by withdrawn 1"),
            (10, "refused 16", "waits, but withdrawing it is refused by 16"),
            (10, "withdrawn 0", "the number 0 is told"),
            (11, "withdrawn 1", "none waits at partner 0, but withdrawing there is answered by withdrawn 1"),
            (11, "refused 10", "none waits at partner 0"),
            (12, "refused 16", "there is no partner 1"),
            (14, "reply {1.1:A:0:2:0}", "carried out again; it was in line 5"),
            (15, "answered 1 0:Si:90.5 1:Nil:0", "was settled as withdrawn already"),
            (16, "code 2", "element 101 holds Si 5, but Si 90.5 was written in line 5"),
            (17, "0 Si 90.5", "element 101 holds Si 90.5, but Si 5 was written in line 16"),
            (17, "0 Do 5", "element 101 holds Do 5"),
            (17, "code 1", "element 101 holds nothing"),
            (18, "reply {1.1:A:1:1:0:Si:5:1:Nil:0}", "carried out again; it was in line 13"),
            (20, "opened 3 answered 1 failed 0 withdrawn 2 repeated 0 waiting 0", "2 withdrawn are told"),
            (20, "opened 3 answered 1 failed 0 withdrawn 1 repeated 1 waiting 1", "1 repeated are told"),
            (20, "opened 4 answered 1 failed 0 withdrawn 1 repeated 0 waiting 1", "the counts do not balance"),
            (20, "opened 3 answered 1 failed 0 withdrawn 1 repeated 0 waiting 2", "the counts do not balance"),
            (21, "failed 2", "none waits at partner 0, but withdrawing there would be answered by withdrawn 2"),
            (22, "failed 1", "the number 1 is told"),
            (22, "nothing due", "waits, but withdrawing it would be refused by 16"),
        ]:
            with self.subTest(line=line, lie=lie):
                self.assert_found(Broken, line, words, small({line: lie}))

    def test_lies_about_what_is_not_there(self):
        for line, lie, words in [
            ("poll 1 0 0", "failed 0", "no such transaction waits"),
            ("poll 1 0 5", "again {1.1:R:0:2:101:90.50}", "partner 5, who was never enlisted"),
            ("open-read 1 0 5 100", "sent 0 {1.1:R:0:1:100}", "partner 5, who was never enlisted"),
            ("owner-write 9 150 By x", "code 0", "a write to element 150 is accepted, but it has no value"),
        ]:
            with self.subTest(lie=lie):
                self.assert_found(Broken, 4, words, small({4: lie}, SMALL[:3] + [(line, "")]))

    def test_a_write_to_what_is_not_there(self):
        lines = SMALL[:3] + [("open-write 1 0 0 150=1", ""), ("handle 9 1 {1.1:R:0:2:150:1}", "")]
        check.check(small(lines=lines))
        self.assert_found(Broken, 5, "a write to element 150 is accepted", small({5: "reply {1.1:A:0:2:0}"}, lines))

    def test_what_was_never_carried_out(self):
        """The box takes the Discovery request for the write, and answers it without a carrying out."""
        lines = SMALL[:4] + [("discover 1", ""), ("handle 9 1 {1.1:R:0:3:2:3}", ""), ("receive 1 9 {1.1:A:0:2:0}", "")]
        self.assert_found(Broken, 7, "its box never carried it out", small({6: "reply {1.1:A:0:2:0}"}, lines))

    def test_a_later_one_came_first(self):
        lines = SMALL[:4] + [("withdraw 1 0", ""), ("open-write 1 0 0 101=7", ""), ("handle 9 1 {1.1:R:1:2:101:7}", ""),
                             ("handle 9 1 {1.1:R:0:2:101:90.50}", "")]
        check.check(small(lines=lines))
        self.assert_found(Broken, 8, "carried out after the later one that was opened in line 6",
                          small({8: "reply {1.1:A:0:2:0}"}, lines))

    def test_what_was_never_opened(self):
        lines = SMALL[:4] + [("catalogue 2 1000 1000 0", ""), ("discover 2", ""), ("handle 9 2 {1.1:R:0:3:2:3}", "")]
        history = small(lines=lines)
        check.check(history)
        forged = history.events[-1]._replace(words=[b"handle", b"9", b"2", b"{1.1:R:0:2:101:90.50}"])
        sent = history.events[-2]._replace(answer=[b"sent", b"0", b"{1.1:R:0:2:101:90.50}"])
        self.assert_found(Broken, 7, "which 2 never opened with it", History(0, history.events[:-2] + [sent, forged]))

    def test_contents_that_change_between_calls(self):
        events = small().events
        other = {**events[16].before, 100: events[16].before[101]}
        events[16] = events[16]._replace(before=other)
        self.assert_found(Broken, 17, "element 100 holds Si 5, but St Vega was written in line 1", History(0, events))

    def test_contents_that_come_from_nowhere(self):
        events = small().events
        events[13] = events[13]._replace(after={**events[13].after, 150: events[13].after[101]})
        self.assert_found(Broken, 14, "element 150 holds Si 90.5, but there was none", History(0, events))

    def test_histories_that_are_not_honest(self):
        for lines, words in [
            (SMALL[:4] + [("handle 9 1 {1.1:R:0:2:101:91}", "")], "1 never sent this packet to 9"),
            (SMALL[:4] + [("handle 9 2 {1.1:R:0:2:101:90.50}", "")], "2 never sent this packet to 9"),
            (SMALL[:4] + [("receive 1 9 {1.1:A:0:2:0}", "")], "9 never sent this packet to 1"),
            (SMALL[:4] + [("discovered 1 {1.1:A:0:3:0:St:M1:0:By:0}", "")], "nobody sent this packet to 1"),
            (SMALL[:4] + [("bare 9 100 199 100:By:0", "")], "a second station is made at 9"),
            (SMALL[:4] + [("catalogue 9 1000 1000 0", "")], "a second station is made at 9"),
            (SMALL[:4] + [("counts 9", "")], "the line is not understood"),
        ]:
            with self.subTest(words=words):
                self.assert_found(NotHonest, 5, words, small(lines=lines))


class Program(unittest.TestCase):
    def printed(self, all_histories):
        output = io.StringIO()
        with contextlib.redirect_stdout(output):
            status = check.check_all(all_histories, "all")
        return status, output.getvalue()

    def test_what_it_prints(self):
        status, output = self.printed([small(), small()])
        self.assertEqual((status, output.splitlines()), (0, [
            "2 histories, 54 lines, 42 events",
            "transactions: 6 opened, 2 answered, 2 failed, 2 withdrawn, 0 waiting at the end; 2 sent again",
            "at boxes: 4 carried out, 4 repeats, 4 accepted writes",
            "refusals: 2 by 9, 2 by 10, 2 by 11, 4 by 12, 2 by 16",
            "all of it holds"]))

    def test_what_it_prints_of_a_violation(self):
        status, output = self.printed([small(), small({8: "answered 0 0"})])
        self.assertEqual((status, output.splitlines()), (1, [
            "BROKEN in the history of seed 0, line 8: transaction 0 of 1 with 9, opened in line 4,"
            " is settled as answered, but was settled as answered already",
            "  receive 1 9 {1.1:A:0:2:0}", "  answered 0 0",
            "its lines: python3 tools/reference/random_lines.py --level all --histories 0 1"]))


if __name__ == "__main__":
    unittest.main()
