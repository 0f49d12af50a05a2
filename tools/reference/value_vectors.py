"""Lines about values for the console's sample: texts near every limit of every type, on both sides."""

from __future__ import annotations

from typing import Iterator

import lines
import texts
from dice import Dice
from values import KINDS, LONGEST_TEXT, REAL_RANGES, WHOLE_RANGES

REALS = tuple(REAL_RANGES)
WHOLES = tuple(WHOLE_RANGES)

RANDOM_COUNT = 600

Case = tuple[str, bytes]


def for_each(kinds: tuple[str, ...], items: list[bytes]) -> Iterator[Case]:
    for text in items:
        for kind in kinds:
            yield kind, text


def odd_texts() -> Iterator[Case]:
    """Texts that a careless reader takes, or stumbles over; each as every type."""
    yield from for_each(KINDS, [
        b"", b"0", b"1", b"-1", b"-", b"--1", b"-0", b"00", b"-00", b"01", b"-01", b"+1", b"+0", b"+", b"1-", b"1+",
        b"1.", b".5", b"-.5", b".", b"0.", b"0.0", b"-0.0", b"1.0", b"1..0", b"1.0.0", b"1,5", b"1_000",
        b"1e5", b"1E5", b"1E", b"1E+", b"1E-", b"E5", b"E", b"-E5", b"1E1234", b"1E+1234", b"1E-1234",
        b"1E0005", b"1E+-5",
        b"1E5.0", b"1.E5", b"1.5E", b"1E 5", b"1 E5", b"1EE5", b"1E5E5", b"0E0", b"0E999", b"-0E-999", b"0x10",
        b"1f", b"1d0",
        b" 1", b"1 ", b" ", b"\t", b"1\n", b"1\r", b"\n", b"1\x00", b"\x00", b"\x00" * 40, b"\x7f",
        b"NaN", b"nan", b"inf", b"Infinity", b"-Infinity", b"Nil", b"nil", b"null",
        b"True", b"False", b"true", b"false", b"TRUE", b"FALSE", b"Tru", b"Truee", b"T", b" True", b"True ",
        b"True\x00", b"False\n",
        b"{", b"}", b":", b"{1}", b"1:", b":1", b"1}", b"{0", b"12:30", b"True:", b"Vega", b"a b", b"\\",
        b"\\e", b"\\x41",
        b"\xff", b"1\xff", b"\xd9\xa1", b"\xef\xbc\x91", b"\xe2\x88\x921", b"\xef\xbb\xbf1",
        b"0" * 40, b"0" * 41, b"1" * 40, b"1" * 41, b"1" * 1000, b"0" * 1000, b"a" * 40, b"a" * 41, b"a" * 1000,
        b"0" * 39 + b"1", b"0" * 40 + b"1", b"-" + b"0" * 38 + b"1", b"-" + b"0" * 39 + b"1",
        b"1" + b"0" * 38, b"1" + b"0" * 39, b"1" + b"0" * 40, b"0." + b"0" * 37 + b"1", b"0." + b"0" * 38 + b"1",
    ])


def whole_ends() -> Iterator[Case]:
    """Both ends of each type of whole number and their neighbours, as each of these types and as Do."""
    numbers = {end + step for ends in WHOLE_RANGES.values() for end in ends for step in (-2, -1, 0, 1, 2)}
    numbers |= {10**k + step for k in range(21) for step in (-1, 0)} | {-(10**k) for k in range(21)}
    numbers |= {sign * (2**63 + step) for sign in (1, -1) for step in (-1, 0, 1)}
    numbers |= {2**64 - 1, 2**64, 2**127, -(2**127), 2**128}
    yield from for_each(WHOLES + ("Do",), [b"%d" % number for number in sorted(numbers)])
    for kind, ends in WHOLE_RANGES.items():
        for end in ends:
            text = b"%d" % end
            sign, digits = (b"-", text[1:]) if end < 0 else (b"", text)
            yield from for_each((kind,), [
                sign + b"0" + digits, sign + b"00" + digits, b"+" + digits, b"--" + digits, digits + b"-",
                sign + digits + b"0", sign + digits[:-1], digits[1:], text + b".", text + b".0", text + b"E0",
                text + b" ", b" " + text, text + b"\x00", b"-" + text, sign + digits[:1] + b"_" + digits[1:],
            ])


def spread(digits: bytes, e: int) -> list[bytes]:
    """Several texts for digits × 10^e."""
    result = []
    for cut in sorted({1, 2, len(digits) // 2 + 1, len(digits)}):
        behind = digits[cut:]
        x = e + len(behind)
        point = b"." + behind if behind else b""
        result += [digits[:cut] + point + b"E%d" % x, digits[:cut] + point + b"E%+d" % x]
    result.append(b"0." + digits + b"E%d" % (e + len(digits)))
    result.append(b"0.000" + digits + b"E%d" % (e + len(digits) + 3))
    result.append(b"000" + digits + b"E%d" % e)
    result.append(digits + b".000E%d" % e)
    result.append(digits + b"0000E%d" % (e - 4))
    return result


def real_ends() -> Iterator[Case]:
    """Both ends of Si and of Do, with steps in the last digit at several counts of digits."""
    for ends in REAL_RANGES.values():
        for c, e in ends:
            for width in (0, 17, 18, 19):
                for step in (-1, 0, 1):
                    digits, scaled = texts.near_end(c, e, width, step)
                    for kind in REALS:
                        for text in spread(digits, scaled) if width in (0, 18) else spread(digits, scaled)[:2]:
                            yield kind, text
                        yield kind, b"-" + spread(digits, scaled)[0]
    yield from for_each(REALS, [
        b"34028235" + b"0" * 31, b"34028236" + b"0" * 31, b"340282350" + b"0" * 30 + b".0", b"-34028235" + b"0" * 31,
        b"34028235" + b"0" * 30 + b"1", b"0.0001E+312", b"0.0001E312", b"0.00001E313", b"1797E305", b"1798E305",
        b"0.1798E309",
        b"5E-324", b"4E-324", b"0.5E-323", b"0.4E-323", b"49E-325", b"50E-325", b"1E-45", b"2E-45", b"14E-46",
        b"15E-46",
        b"0." + b"0" * 37 + b"1E-007", b"0." + b"0" * 32 + b"14E-12", b"0." + b"0" * 32 + b"15E-12",
    ])


def exponents() -> Iterator[Case]:
    """Exponents of every length and sign, around every border that an exponent can cross."""
    sizes = (0, 1, 3, 4, 5, 9, 10, 11, 37, 38, 39, 44, 45, 46, 99, 100, 101, 307, 308, 309, 323, 324, 325,
             998, 999, 1000)
    for size in sizes:
        for sign in (b"", b"+", b"-"):
            for width in (1, 2, 3, 4):
                if width == 1 or len(str(size)) < width:
                    yield "Do", b"1E" + sign + b"%0*d" % (width, size)
            yield "Si", b"-2.5E" + sign + b"%d" % size
            yield "Do", b"12.5E" + sign + b"%d" % size
            yield "Do", b"0.0E" + sign + b"%d" % size


def coefficients() -> Iterator[Case]:
    """Coefficients of 1 to 19 digits at every power of ten where the spelling changes."""
    for p in (-6, -5, -4, -3, -1, 0, 1, 8, 9, 10, 11, 17, 18):
        for count in (1, 2, 3, 10, 11, 17, 18, 19):
            zeros_inside = b"1" + b"0" * (count - 2) + b"1" if count > 1 else b"1"
            for at, digits in enumerate(((b"123456789" * 3)[:count], b"9" * count, zeros_inside)):
                e = p - count + 1
                kind = REALS[(p + count + at) % 2]
                yield kind, texts.flat(at == 2, digits, e)
                yield kind, texts.flat(False, digits, 1 - count) + b"E%d" % p
    yield from for_each(REALS, [
        b"0.000135569887426", b"1.35569887426E-05", b"220000000000000000", b"2200000000000000000", b"2.2E17",
        b"8.936E+10",
        b"84.83", b"84.830", b"084.83", b"-84.83", b"25.6", b"8.15698563", b"0.00001", b"0.0001", b"0.00010",
        b"0.1", b"1", b"10",
        b"999999999.9", b"9999999999", b"9999999999.9", b"10000000000", b"10000000000.1",
        b"1000000000.00000001", b"1000000000.000000001",
        b"123456789012345678", b"1234567890123456780", b"1234567890123456789", b"12345678901234567800000",
        b"0.0123456789012345678",
        b"0.01234567890123456789", b"1.00000000000000000", b"1.00000000000000001", b"1.000000000000000001",
        b"1.0000000000000000000",
        b"100000000000000001", b"1000000000000000001", b"10000000000000000010", b"1000000000000000010000000000",
        b"999999999999999999", b"9999999999999999990", b"9999999999999999999", b"0.000000000000000000001",
        b"0.999999999999999999",
    ])


def characters() -> Iterator[Case]:
    """UTF-8 at its borders: each character and each bad run, alone, between letters, and at 40 bytes."""
    for character in texts.CHARACTERS:
        yield "St", character
        yield "St", b"a" + character + b"b"
        for length in range(LONGEST_TEXT - 1, LONGEST_TEXT + 2):
            if len(character) > 1:
                yield "St", b"a" * (length - len(character)) + character
        yield "St", character * (LONGEST_TEXT // len(character))
        yield "St", character * (LONGEST_TEXT // len(character) + 1)
        for cut in range(1, len(character)):
            yield "St", character[:cut]
            yield "St", b"a" * (LONGEST_TEXT - cut) + character[:cut]
    for run in texts.NOT_UTF8:
        yield "St", run
        yield "St", b"a" + run + b"b"
        yield "St", b"a" * (LONGEST_TEXT - len(run)) + run
    for byte in range(256):
        yield "St", bytes([byte])
    for byte in b"{}:":
        for at in (0, 1, 38, 39):
            yield "St", b"a" * at + bytes([byte]) + b"a" * (39 - at)
    for name in ("Vega", "α Lyr", "M 31", "ζ Ophiuchi", "Бетельгейзе", "天狼星", "🔭 dome 3",
                 "3f0c6a52-9d17-4e8b-a6f4-51c2d0b7e893",
                 "x=1", "5 > 3 & 2 < 4", "# no comment", "\"quoted\"", "O'Neill", "100%", " leading", "trailing "):
        yield "St", name.encode()
    for length in (0, 1, 2, 39, 40, 41, 42, 80, 512, 513, 1000):
        for byte in (b"a", b" ", b"\xc3", b"\\"):
            yield "St", byte * length


def all_bytes_in_numbers() -> Iterator[Case]:
    """Every byte between two digits, and in front of one or behind it."""
    for byte in range(256):
        odd = bytes([byte])
        yield REALS[byte % 2], b"1" + odd + b"2"
        yield (WHOLES + REALS)[byte % 7], odd + b"5" if byte % 2 else b"5" + odd


def random_cases() -> Iterator[Case]:
    dice = Dice(20261117)
    for _ in range(RANDOM_COUNT):
        yield texts.some_value(dice)


# Lines about lines: spaces, comments, and everything that is not understood.
ABOUT_LINES = [
    b"", b"#", b"# value Bo True", b"#value Bo True", b"## \\x and {anything}: else", b"#" + b"x" * 600,
    b" ", b"     ", b" # not a comment", b" value Bo True", b"value Bo True ", b"   value   Bo    True   ",
    b"value  Bo True",
    b"value", b"value ", b"value Bo", b"value Bo ", b"value Bo True True", b"value Bo True #", b"value St a b",
    b"value St a  b c",
    b"Value Bo True", b"VALUE Bo True", b"valu Bo True", b"values Bo True", b"value: Bo True", b"Bo True",
    b"True", b"x", b"error", b"none",
    b"\\x76alue Bo True", b"\\e Bo True", b"value \\x42o True", b"value \\e True",
    b"value Nil 0", b"value Nil \\e", b"value nil 0", b"value bo True", b"value BO True", b"value B True",
    b"value Boo True",
    b"value in 1", b"value IN 1", b"value Ush 1", b"value ush 1", b"value USH 1", b"value UInt 1",
    b"value By, 1", b"value Str a",
    b"value St \\", b"value St \\\\", b"value St a\\", b"value St \\x", b"value St \\x4", b"value St \\x4g",
    b"value St \\xg4", b"value St \\xC3\\xA9",
    b"value St \\x4A", b"value St \\X4a", b"value St \\n", b"value St \\0", b"value St \\u0041",
    b"value St \\E", b"value St \\\"",
    b"value St \\e", b"value St \\ea", b"value St a\\e", b"value St \\e\\e", b"value St \\ex41",
    b"value St \\x41\\e", b"value St \\x5ce",
    b"value St \\x5c\\x5c", b"value St \\x5cx41", b"value St \\x41", b"value St \\x56ega",
    b"value St \\x7e\\x21", b"value St \\x7b",
    b"value By \\x31\\x32", b"value Do \\x2d1\\x2e5", b"value Bo \\x54rue", b"value Bo \\e", b"value Do \\e",
    b"value In \\e",
    b"value St #", b"value St #x", b"value St ~!@$%^&*()_+", b"value St " + b"\\x61" * 40, b"value St " + b"\\x61" * 41,
    b"value St " + b"a" * 39 + b"\\xc3\\xa9", b"value St " + b"a" * 38 + b"\\xc3\\xa9",
    b"value St " + b"x" * 2000, b"value Do " + b"9" * 2000,
    b"y" * 2000, b"value " + b"S" * 2000 + b" 1",
]

# Raw bytes that no word may have.
RAW_LINES = [
    b"value Bo True\r", b"value St a\r", b"\r", b"#\r", b"value\tBo\tTrue", b"\tvalue Bo True",
    b"value Bo\tTrue", b"value St a\tb",
    b"value St \x01", b"value St a\x1fb", b"value St \x7f", b"value St \xc3\xa9", b"value St \xff", b"\xff",
    b"\xc3\xa9 St a", b"value S\xff a",
    b"value St \x00", b"\x00", b"value\x00 St a", b"# \xff \x00 \xc3\xa9",
]

PARTS = [
    ("odd texts, each as every type", odd_texts),
    ("the ends of the whole numbers", whole_ends),
    ("the ends of the reals", real_ends),
    ("exponents", exponents),
    ("coefficients and spellings", coefficients),
    ("characters", characters),
    ("every byte in numbers", all_bytes_in_numbers),
    ("any of these, by chance", random_cases),
]


def sections() -> Iterator[tuple[str, list[bytes]]]:
    """Headings, each with its lines. No case comes twice."""
    seen: set[Case] = set()
    for heading, part in PARTS:
        fresh = [case for case in part() if not (case in seen or seen.add(case))]
        yield heading, [b"value %s %s" % (kind.encode(), lines.encode(text)) for kind, text in fresh]
