#!/usr/bin/env python3
"""Tests of values.py: examples worked out by hand, and what holds of every text.

    python3 -m unittest discover -s tools/reference
"""

import decimal
import itertools
import sys
import unittest
from pathlib import Path

sys.path.insert(0, str(Path(__file__).resolve().parent))

import texts  # noqa: E402
from dice import Dice  # noqa: E402
from values import REAL_RANGES, Real, Value, is_utf8, read, spell  # noqa: E402

NONE = None

# Type, text, and its spelling.
EXAMPLES = [
    ("Bo", "True", "True"), ("Bo", "False", "False"), ("Bo", "true", NONE), ("Bo", "1", NONE), ("Bo", "True ", NONE),
    ("By", "0", "0"), ("By", "255", "255"), ("By", "256", NONE), ("By", "-1", NONE), ("By", "-0", NONE),
    ("By", "00", NONE),
    ("USh", "65535", "65535"), ("USh", "65536", NONE), ("USh", "-1", NONE), ("USh", "+1", NONE),
    ("Sh", "-32768", "-32768"), ("Sh", "-32769", NONE), ("Sh", "32767", "32767"), ("Sh", "32768", NONE),
    ("Sh", "007", NONE),
    ("In", "-2147483648", "-2147483648"), ("In", "-2147483649", NONE), ("In", "2147483647", "2147483647"),
    ("In", "2147483648", NONE),
    ("In", "-0", NONE), ("In", "-", NONE), ("In", "", NONE), ("In", "1.0", NONE), ("In", "1E3", NONE),
    ("In", "-324000000", "-324000000"), ("In", "1295999999", "1295999999"),
    ("Lo", "-922337236854775808", "-922337236854775808"), ("Lo", "-922337236854775809", NONE),
    ("Lo", "922337236854775807", "922337236854775807"), ("Lo", "922337236854775808", NONE),
    ("Lo", "9223372036854775807", NONE),
    ("Si", "-0", "0"), ("Si", "0E999", "0"), ("Si", "-0.000E-999", "0"), ("Si", "0E1000", NONE), ("Si", "1E", NONE),
    ("Si", "3.4028235E+38", "3.4028235E+38"), ("Si", "3.4028236E+38", NONE), ("Si", "3.40282350000000001E+38", NONE),
    ("Si", "34028235" + 31 * "0", "3.4028235E+38"), ("Si", "-3.4028235E38", "-3.4028235E+38"),
    ("Si", "1.401298E-45", "1.401298E-45"), ("Si", "1.401297E-45", NONE), ("Si", "1.40129799999999999E-45", NONE),
    ("Si", "1.40129800000000001E-45", "1.40129800000000001E-45"), ("Si", "1E-46", NONE), ("Do", "1E-46", "1E-46"),
    ("Do", "4.94065645841246544E-324", "4.94065645841246544E-324"), ("Do", "4.94065645841246543E-324", NONE),
    ("Do", "5E-324", "5E-324"),
    ("Do", "1.79769313486231570E+308", "1.7976931348623157E+308"), ("Do", "1.79769313486231571E+308", NONE),
    ("Do", "1E309", NONE),
    ("Do", "0.0001E+312", "1E+308"), ("Do", "0.1E-323", NONE),
    ("Do", "2.2E17", "2.2E+17"), ("Do", "220000000000000000", "2.2E+17"),
    ("Do", "0.000135569887426", "0.000135569887426"),
    ("Do", "0.00001", "1E-05"), ("Do", "0.0000125", "1.25E-05"), ("Do", "0.0001", "0.0001"),
    ("Do", "1.25E-4", "0.000125"),
    ("Do", "5E-1", "0.5"), ("Do", "00.50", "0.5"), ("Do", "1.0", "1"), ("Do", "10E-1", "1"), ("Do", "84.830", "84.83"),
    ("Do", "-12.5E2", "-1250"), ("Do", "1E9", "1000000000"), ("Do", "1234567890.5", "1234567890.5"),
    ("Do", "10000000000", "1E+10"),
    ("Do", "12345678901", "1.2345678901E+10"), ("Do", "1E-99", "1E-99"), ("Do", "1E+100", "1E+100"),
    ("Do", "1E-100", "1E-100"),
    ("Do", "123456789012345678", "1.23456789012345678E+17"), ("Do", "1234567890123456780", "1.23456789012345678E+18"),
    ("Do", "1234567890123456789", NONE), ("Do", "1.000000000000000001", NONE), ("Do", "1.00000000000000000", "1"),
    ("Do", "100000000000000000001", NONE), ("Do", 39 * "0" + "1", "1"), ("Do", 40 * "0" + "1", NONE),
    ("Do", "0." + 38 * "0", "0"), ("Do", "0." + 39 * "0", NONE),
    ("Do", "+1", NONE), ("Do", ".5", NONE), ("Do", "5.", NONE), ("Do", "1e5", NONE), ("Do", "1E1234", NONE),
    ("Do", "1E0005", NONE),
    ("Do", "1E005", "100000"), ("Do", "1E+05", "100000"), ("Do", "1E+000", "1"), ("Do", "--1", NONE),
    ("Do", "NaN", NONE),
    ("St", "Vega", "Vega"), ("St", "α Lyr", "α Lyr"), ("St", "", NONE), ("St", " ", " "), ("St", "\0", "\0"),
    ("St", "0", "0"),
    ("St", 40 * "a", 40 * "a"), ("St", 41 * "a", NONE), ("St", 20 * "é", 20 * "é"), ("St", 21 * "é", NONE),
    ("St", 38 * "a" + "α", 38 * "a" + "α"), ("St", 39 * "a" + "α", NONE), ("St", "a:b", NONE),
    ("St", "{", NONE), ("St", "x}", NONE),
    ("Nil", "0", NONE),
]

# The table of section 1.8: for each first byte, the ranges of the bytes behind it.
TAIL = (0x80, 0xBF)
UTF8_TABLE = [
    ((0x00, 0x7F), []), ((0xC2, 0xDF), [TAIL]),
    ((0xE0, 0xE0), [(0xA0, 0xBF), TAIL]), ((0xE1, 0xEC), [TAIL, TAIL]), ((0xED, 0xED), [(0x80, 0x9F), TAIL]),
    ((0xEE, 0xEF), [TAIL, TAIL]),
    ((0xF0, 0xF0), [(0x90, 0xBF), TAIL, TAIL]), ((0xF1, 0xF3), [TAIL, TAIL, TAIL]),
    ((0xF4, 0xF4), [(0x80, 0x8F), TAIL, TAIL]),
]


def utf8_by_table(run: bytes) -> bool:
    while run:
        for (low, high), tail in UTF8_TABLE:
            if low <= run[0] <= high and len(run) > len(tail) and all(a <= b <= c for (a, c), b in zip(tail, run[1:])):
                run = run[1 + len(tail):]
                break
        else:
            return False
    return True


REAL_ENDS = {
    "Si": (decimal.Decimal("1.401298E-45"), decimal.Decimal("3.4028235E+38")),
    "Do": (decimal.Decimal("4.94065645841246544E-324"), decimal.Decimal("1.79769313486231570E+308")),
}


def are_digits(text: str) -> bool:
    return text != "" and set(text) <= set("0123456789")


def real_by_decimal(kind: str, text: bytes):
    """A second reading of a real, by cutting the text at its marks and asking the library."""
    if len(text) > 40 or not text.isascii():
        return None
    mantissa, mark, exponent = text.decode().removeprefix("-").partition("E")
    before, point, behind = mantissa.partition(".")
    exponent = exponent[1:] if exponent[:1] in ("+", "-") else exponent
    if not are_digits(before) or point and not are_digits(behind):
        return None
    if mark and not (are_digits(exponent) and len(exponent) <= 3):
        return None
    number = decimal.Decimal(text.decode())
    if number == 0:
        return decimal.Decimal(0)
    least, greatest = REAL_ENDS[kind]
    digits = "".join(map(str, number.as_tuple().digits)).strip("0")
    return number if len(digits) <= 18 and least <= number.copy_abs() <= greatest else None


def value_of(real: Real) -> decimal.Decimal:
    return decimal.Decimal((int(real.negative), tuple(map(int, str(real.c))), real.e))


class Examples(unittest.TestCase):
    def test_examples(self):
        for kind, text, wanted in EXAMPLES:
            with self.subTest(kind=kind, text=text):
                value = read(kind, text.encode())
                self.assertEqual(value and spell(value).decode(), wanted)

    def test_forms(self):
        self.assertEqual(read("Do", b"-1.50E3"), Value("Do", Real(True, 15, 2)))
        self.assertEqual(read("Do", b"0.00120"), Value("Do", Real(False, 12, -4)))
        self.assertEqual(read("Si", b"-0.0"), Value("Si", Real(False, 0, 0)))
        self.assertEqual(read("Bo", b"False"), Value("Bo", False))
        self.assertEqual(read("By", b"7"), Value("By", 7))

    def test_no_such_type(self):
        self.assertRaises(ValueError, read, "Int", b"1")


class Always(unittest.TestCase):
    """What holds of every text, tried on many."""

    COUNT = 30000

    def cases(self):
        dice = Dice(7)
        for _ in range(self.COUNT):
            yield texts.some_value(dice)

    def test_a_spelling_reads_back_and_is_its_own(self):
        longest = 0
        for kind, text in self.cases():
            value = read(kind, text)
            if value is not None:
                spelling = spell(value)
                self.assertEqual(read(kind, spelling), value, text)
                self.assertLessEqual(len(spelling), 25 if kind in REAL_RANGES else 40)
                if kind not in REAL_RANGES:
                    self.assertEqual(spelling, text)
                else:
                    longest = max(longest, len(spelling))
        self.assertEqual(longest, 25)

    def test_reals_are_exact(self):
        """Against the library's decimals, which hold any number of digits and compare exactly."""
        count = 0
        for kind, text in self.cases():
            if kind in REAL_ENDS:
                wanted = real_by_decimal(kind, text)
                value = read(kind, text)
                self.assertEqual(value is None, wanted is None, text)
                if value is not None:
                    self.assertEqual(value_of(value.content), wanted, text)
                    self.check_spelling(spell(value).decode(), wanted)
                    count += 1
        self.assertGreater(count, 5000)

    def check_spelling(self, spelling, number):
        """The shape of a spelling, told in another way than by building it."""
        self.assertEqual(decimal.Decimal(spelling), number)
        mantissa, mark, exponent = spelling.removeprefix("-").partition("E")
        before, point, behind = mantissa.partition(".")
        self.assertEqual(spelling.startswith("-"), number < 0)
        self.assertFalse(behind.endswith("0") or point and not behind, spelling)
        self.assertTrue(before == "0" or not before.startswith("0"), spelling)
        self.assertEqual(bool(mark), number != 0 and not -4 <= number.adjusted() <= 9, spelling)
        if mark:
            self.assertEqual(len(before), 1)
            self.assertEqual(exponent, "%+03d" % number.adjusted())

    def test_utf8(self):
        sharp = [0x00, 0x3A, 0x7F, 0x80, 0x8F, 0x90, 0x9F, 0xA0, 0xBF, 0xC0, 0xC1, 0xC2, 0xDF, 0xE0, 0xE1,
                 0xEC, 0xED, 0xEE, 0xEF, 0xF0, 0xF1, 0xF3, 0xF4, 0xF5, 0xFF]
        for length in range(5):
            for run in itertools.product(sharp if length > 2 else range(256), repeat=min(length, 3)):
                run = bytes(run)
                for whole in (run, run + b"\x80", run + b"\xbf") if length == 4 else (run,):
                    self.assertEqual(is_utf8(whole), utf8_by_table(whole), whole)


if __name__ == "__main__":
    unittest.main()
