"""The nine types of values: reading a text, and the one spelling of a value.

Written from docs/PROTOCOL.md, section 1, and from nothing else. All arithmetic is on Python's whole
numbers, so it is exact; there is no floating point here.
"""

from __future__ import annotations

import re
from typing import NamedTuple, Optional, Union

LONGEST_TEXT = 40
MOST_DIGITS = 18
RESERVED = b"{}:"

# The whole numbers of each type: least and greatest.
WHOLE_RANGES = {
    "By": (0, 255),
    "USh": (0, 65535),
    "Sh": (-32768, 32767),
    "In": (-2147483648, 2147483647),
    "Lo": (-922337236854775808, 922337236854775807),
}

# The sizes of the reals of each type, zero apart: least and greatest, each as c and e of c × 10^e.
REAL_RANGES = {
    "Si": ((1401298, -51), (34028235, 31)),
    "Do": ((494065645841246544, -341), (17976931348623157, 292)),
}

# The identifiers of the types that values have, in the order of the table in section 1.2.
KINDS = ("Bo", "In", "Sh", "USh", "Lo", "Si", "Do", "By", "St")

WHOLE_FORM = re.compile(rb"0|-?[1-9][0-9]*")
REAL_FORM = re.compile(rb"(-?)([0-9]+)(?:\.([0-9]+))?(?:E([+-]?[0-9]{1,3}))?")


class Real(NamedTuple):
    """sign × c × 10^e, where c does not end in the digit 0. Zero is Real(False, 0, 0)."""

    negative: bool
    c: int
    e: int


ZERO = Real(False, 0, 0)


class Value(NamedTuple):
    """A value: the identifier of its type, and what it is."""

    kind: str
    content: Union[bool, int, Real, bytes]


def read(kind: str, text: bytes) -> Optional[Value]:
    """The value that a text means as this type, or None if it is not read (section 1)."""
    if not is_value_text(text):
        return None
    if kind in WHOLE_RANGES:
        content = read_whole(text, *WHOLE_RANGES[kind])
    elif kind in REAL_RANGES:
        content = read_real(text, *REAL_RANGES[kind])
    elif kind == "Bo":
        content = {b"True": True, b"False": False}.get(text)
    elif kind == "St":
        content = text
    elif kind == "Nil":
        content = None
    else:
        raise ValueError(f"{kind!r} is no type")
    return None if content is None else Value(kind, content)


def spell(value: Value) -> bytes:
    """The one spelling of a value (section 1.10)."""
    kind, content = value
    if kind in WHOLE_RANGES:
        return b"%d" % content
    if kind in REAL_RANGES:
        return spell_real(content)
    if kind == "Bo":
        return b"True" if content else b"False"
    return content


def is_value_text(text: bytes) -> bool:
    """Whether the bytes are a value text (section 1.1)."""
    if not 1 <= len(text) <= LONGEST_TEXT:
        return False
    return is_utf8(text) and not any(byte in RESERVED for byte in text)


def is_utf8(text: bytes) -> bool:
    """Whether the bytes are UTF-8 in the sense of RFC 3629 (section 1.8)."""
    try:
        text.decode("utf-8", errors="strict")
    except UnicodeDecodeError:
        return False
    return True


def read_whole(text: bytes, least: int, greatest: int) -> Optional[int]:
    """A whole number from least to greatest (section 1.4)."""
    if not WHOLE_FORM.fullmatch(text):
        return None
    number = int(text)
    return number if least <= number <= greatest else None


def read_real(text: bytes, least: tuple[int, int], greatest: tuple[int, int]) -> Optional[Real]:
    """A real that is zero or whose size is from least to greatest (sections 1.5 to 1.7)."""
    real = decimal_of(text)
    if real is None or real == ZERO:
        return real
    size = (real.c, real.e)
    if len(str(real.c)) > MOST_DIGITS:
        return None
    return real if not_above(least, size) and not_above(size, greatest) else None


def decimal_of(text: bytes) -> Optional[Real]:
    """The decimal that a text means, with any number of digits and in no range (section 1.6)."""
    form = REAL_FORM.fullmatch(text)
    if form is None:
        return None
    minus, before, behind, exponent = form.groups()
    behind = behind or b""
    c = int(before + behind)
    e = int(exponent or b"0") - len(behind)
    if c == 0:
        return ZERO
    while c % 10 == 0:
        c //= 10
        e += 1
    return Real(minus == b"-", c, e)


def not_above(left: tuple[int, int], right: tuple[int, int]) -> bool:
    """Whether c × 10^e of the first is at most that of the second, exactly."""
    lower = min(left[1], right[1])
    return left[0] * 10 ** (left[1] - lower) <= right[0] * 10 ** (right[1] - lower)


def spell_real(real: Real) -> bytes:
    """The one spelling of a real (section 1.10)."""
    if real == ZERO:
        return b"0"
    sign = b"-" if real.negative else b""
    d = b"%d" % real.c
    p = real.e + len(d) - 1
    if -4 <= p <= -1:
        return sign + b"0." + b"0" * (-p - 1) + d
    if 0 <= p <= 9:
        if real.e >= 0:
            return sign + d + b"0" * real.e
        return sign + d[: p + 1] + b"." + d[p + 1 :]
    point = b"." if len(d) > 1 else b""
    return sign + d[:1] + point + d[1:] + (b"E-" if p < 0 else b"E+") + b"%02d" % abs(p)
