#!/usr/bin/env python3
"""Tests of stores.py: examples worked out by hand, and what a store of any kind promises."""

import sys
import unittest
from pathlib import Path

sys.path.insert(0, str(Path(__file__).resolve().parent))

from dice import Dice  # noqa: E402
from refusals import Refused  # noqa: E402
from stores import (HouseRecord, Item, Joined, Shelf, Star, StarRows, contents, joined, owner_write,  # noqa: E402
                    write_text)
from values import KINDS, Value, read, spell  # noqa: E402

VEGA = Star(b"Vega", 1005324000, 139621000)


def shown(store, index):
    """The code, and with code 0 the type and the spelling."""
    code, value = store.read(index)
    return (code,) if value is None else (code, value.kind, spell(value))


def small_shelf():
    return Shelf(100, 199, [Item(100, "St", b"Vega"), Item(101, "Si", b"84.830"), Item(150, "By", b"7", fixed=True)])


class Making(unittest.TestCase):
    def assert_refused(self, making):
        with self.assertRaises(Refused) as caught:
            making()
        self.assertEqual((caught.exception.number, caught.exception.field), (13, None))

    def test_shelves(self):
        one = [Item(100, "By", b"0")]
        many = [Item(index, "By", b"0") for index in range(1000, 1257)]
        Shelf(100, 100, one)
        Shelf(0, 65535, many[:256])
        Shelf(0, 65535, [Item(0, "By", b"0"), Item(65535, "By", b"0")])
        for low, high, items in [
            (101, 100, one), (101, 200, one), (0, 99, one), (0, 65535, []), (0, 65535, many),
            (0, 65535, one + one), (0, 65535, [Item(101, "By", b"0")] + one),
            (0, 65535, [Item(100, "By", b"256")]), (0, 65535, [Item(100, "St", b"")]),
            (0, 65535, [Item(100, "In", b"x")]),
        ]:
            self.assert_refused(lambda: Shelf(low, high, items))

    def test_house_records(self):
        HouseRecord(b"a" * 40, "α".encode())
        for serial, identifier in [(b"", b"a"), (b"a", b""), (b"a" * 41, b"a"), (b"a", b"a:b"), (b"\xff", b"a")]:
            self.assert_refused(lambda: HouseRecord(serial, identifier))

    def test_star_rows(self):
        StarRows([Star(b"a", 0, -324000000), Star(b"b", 1295999999, 324000000)])
        self.assertEqual(StarRows([VEGA] * 20000).limits(), (100, 60099))
        for stars in [[], [VEGA] * 20001, [Star(b"", 0, 0)], [Star(b"a", -1, 0)], [Star(b"a", 1296000000, 0)],
                      [Star(b"a", 0, -324000001)], [VEGA, Star(b"a", 0, 324000001)], [Star(b"a" * 41, 0, 0)]]:
            self.assert_refused(lambda: StarRows(stars))

    def test_joined_stores(self):
        house = HouseRecord(b"S", b"M")
        Joined(house, Shelf(100, 100, [Item(100, "By", b"0")]))
        self.assert_refused(lambda: Joined(house, Shelf(99, 100, [Item(100, "By", b"0")])))
        self.assert_refused(lambda: Joined(small_shelf(), house))
        self.assert_refused(lambda: Joined(house, house))
        self.assert_refused(lambda: joined([house, StarRows([VEGA]), Shelf(102, 200, [Item(150, "By", b"0")])]))


class Questions(unittest.TestCase):
    def test_a_shelf(self):
        store = small_shelf()
        self.assertEqual(store.limits(), (100, 199))
        self.assertEqual([shown(store, index) for index in (99, 100, 101, 102, 150, 199, 200)],
                         [(3,), (0, "St", b"Vega"), (0, "Si", b"84.83"), (1,), (0, "By", b"7"), (1,), (3,)])
        self.assertEqual([store.kind_at(index) for index in (99, 100, 102, 150, 200)], [None, "St", None, "By", None])

    def test_a_house_record(self):
        store = HouseRecord(b"S1", b"M1")
        self.assertEqual([shown(store, index) for index in (0, 1, 2, 3, 4, 99, 100)],
                         [(0, "By", b"0"), (0, "St", b"S1"), (0, "St", b"M1"), (0, "By", b"0"), (1,), (1,), (3,)])
        self.assertTrue(all(store.element(index).fixed for index in range(4)))

    def test_star_rows(self):
        store = StarRows([VEGA, Star(b"Deneb", 5, -6)])
        self.assertEqual(store.limits(), (100, 105))
        self.assertEqual([shown(store, index) for index in (99, 100, 101, 102, 103, 104, 105, 106)],
                         [(3,), (0, "St", b"Vega"), (0, "In", b"1005324000"), (0, "In", b"139621000"),
                          (0, "St", b"Deneb"), (0, "In", b"5"), (0, "In", b"-6"), (3,)])

    def test_a_gap(self):
        store = joined([HouseRecord(b"S", b"M"), StarRows([VEGA]), Shelf(200, 300, [Item(250, "Bo", b"True")])])
        self.assertEqual(store.limits(), (0, 300))
        self.assertEqual([shown(store, index)[0] for index in (4, 99, 102, 103, 199, 200, 250, 300, 301)],
                         [1, 1, 0, 1, 1, 1, 0, 1, 3])
        self.assertEqual(write_text(store, 150, b"1"), 1)


class Writing(unittest.TestCase):
    def test_by_value(self):
        store = small_shelf()
        self.assertEqual([store.write(index, Value("By", 9)) for index in (99, 102, 100, 150)], [3, 1, 2, 2])
        self.assertEqual(shown(store, 150), (0, "By", b"7"))
        self.assertEqual(store.write(101, read("Si", b"90.50")), 0)
        self.assertEqual(store.write(101, read("Do", b"1")), 2)
        self.assertEqual(shown(store, 101), (0, "Si", b"90.5"))
        self.assertEqual(shown(store, 100), (0, "St", b"Vega"))

    def test_by_text(self):
        store = small_shelf()
        self.assertEqual([write_text(store, index, b"x") for index in (99, 102, 101, 150, 100)], [3, 1, 2, 2, 0])
        self.assertEqual([write_text(store, 150, b"7"), write_text(store, 101, b"1E2")], [2, 0])
        self.assertEqual([shown(store, index) for index in (100, 101)], [(0, "St", b"x"), (0, "Si", b"100")])

    def test_by_the_owner(self):
        store = small_shelf()
        self.assertEqual([owner_write(store, index, "Si", b"x") for index in (99, 102, 101, 150)], [3, 1, 2, 2])
        self.assertEqual(owner_write(store, 101, "Do", b"1"), 2)
        self.assertEqual(owner_write(store, 150, "By", b"7"), 2)
        self.assertEqual(owner_write(store, 101, "Si", b"007"), 0)
        self.assertEqual(shown(store, 101), (0, "Si", b"7"))


def elements_at(store, indices):
    return {index: store.element(index) for index in indices}


class Always(unittest.TestCase):
    """What a store of any kind promises, tried with many writes."""

    def test_a_write_changes_one_element_or_nothing(self):
        dice = Dice(5)
        sound = {"Bo": b"False", "St": b"x"}
        items = [Item(200 + 2 * at, kind, sound.get(kind, b"1"), dice.once_in(4)) for at, kind in enumerate(KINDS * 3)]
        house, stars = HouseRecord(b"S", b"M"), StarRows([VEGA] * 3)
        done = 0
        for store in (Shelf(190, 260, items), Joined(house, stars), joined([house, stars, Shelf(190, 260, items)])):
            for _ in range(800):
                index = dice.between(180, 270) if dice.once_in(2) else dice.below(120)
                kind = dice.pick(KINDS) if dice.once_in(2) else store.kind_at(index) or "By"
                value = read(kind, dice.pick((b"True", b"1", b"2", b"x", b"0.5"))) or Value("By", 3)
                before = elements_at(store, range(300))
                code = store.write(index, value)
                after = elements_at(store, range(300))
                changed = [at for at in before if before[at] != after[at]]
                self.assertLessEqual(set(changed), {index} if code == 0 else set())
                if code == 0:
                    done += 1
                    self.assertEqual(after[index].value, value)
                    self.assertEqual(after[index].fixed, False)
                    self.assertEqual(before[index].value.kind, value.kind)
        self.assertGreater(done, 50)


class Contents(unittest.TestCase):
    def test_all_elements_and_no_others(self):
        shelf = Shelf(200, 299, [Item(250, "By", b"7", fixed=True)])
        store = joined([HouseRecord(b"S", b"M"), StarRows([VEGA]), shelf])
        held = contents(store)
        self.assertEqual(list(held), [0, 1, 2, 3, 100, 101, 102, 250])
        for index in range(0, 400):
            self.assertEqual(held.get(index), store.element(index))


if __name__ == "__main__":
    unittest.main()
