"""Texts that are likely to show a mistake in the reading of values.

`vectors.py` takes them with a fixed seed, `random_lines.py` with any. Nothing here says what the
right answer is; most texts are close to a limit, and many are damaged on purpose.
"""

from __future__ import annotations

import lines
from dice import Dice
from values import KINDS, LONGEST_TEXT, REAL_RANGES, WHOLE_RANGES

# Bytes that matter to numbers and to packets; damage prefers them.
SHARP = b"0123456789.-+Ee:{} ,_x\\\x00\x7f\x80\xff"

# Characters of one to four bytes, at the ends of each length and around the surrogates.
CHARACTERS = [chr(n).encode() for n in
              (0x00, 0x01, 0x20, 0x2B, 0x30, 0x39, 0x41, 0x5C, 0x61, 0x7A, 0x7C, 0x7E, 0x7F,
               0x80, 0xE9, 0x3B1, 0x7FF, 0x800, 0xFFF, 0x1000, 0x2603, 0xCFFF, 0xD000, 0xD7FF, 0xE000,
               0xFEFF, 0xFFFD, 0xFFFE, 0xFFFF, 0x10000, 0x1F52D, 0x3FFFF, 0x40000, 0xFFFFF, 0x100000,
               0x10FFFF)]

# Runs of bytes that are not UTF-8.
NOT_UTF8 = [bytes.fromhex(run) for run in (
    "80 bf c0 c1 f5 f8 fc fe ff "                        # bytes that never begin a character
    "c080 c1bf e08080 e09fbf f0808080 f08fbfbf "         # longer than needed
    "eda080 edafbf edb080 edbfbf "                       # surrogates
    "f4908080 f4bfbfbf f5808080 f7bfbfbf "               # above U+10FFFF
    "f888808080 fc8480808080 "                           # five and six bytes
    "c2 df e0 ef f0 f4 e0a0 e180 efbf f090 f48f f09080 f48fbf "   # cut off
    "c241 c2c2 e0a041 e18041 f0908041 ce7b ce3a "        # broken off by another character
    "c2a080 e0a08080 f090808080").split()]               # one byte too many behind


# ---- reals ------------------------------------------------------------------------------------


def written(dice: Dice, negative: bool, digits: bytes, e: int) -> bytes:
    """Some text for sign × digits × 10^e: the point and the zeros wherever they happen to fall."""
    digits = b"0" * dice.pick((0, 0, 0, 0, 1, 2, 7)) + digits
    more = dice.pick((0, 0, 0, 0, 1, 2, 9))
    digits += b"0" * more
    e -= more
    style = dice.below(4)
    if style == 0:
        before, behind = digits, b""
    elif style == 1:
        before, behind = digits[:1], digits[1:]
    elif style == 2:
        cut = dice.between(1, len(digits))
        before, behind = digits[:cut], digits[cut:]
    else:
        zeros = dice.pick((0, 0, 1, 4, 10))
        before, behind = b"0", b"0" * zeros + digits
    x = e + len(behind)
    point = b"." + behind if behind else b""
    return (b"-" if negative else b"") + before + point + exponent(dice, x)


def exponent(dice: Dice, x: int) -> bytes:
    """Some text for an exponent. It may have more than three digits if x does."""
    if x == 0 and not dice.once_in(4):
        return b""
    sign = b"-" if x < 0 else dice.pick((b"", b"+"))
    width = dice.pick((1, 1, 2, 2, 3))
    return b"E" + sign + b"%0*d" % (width, abs(x))


def flat(negative: bool, digits: bytes, e: int) -> bytes:
    """The text for sign × digits × 10^e without an exponent."""
    if e >= 0:
        text = digits + b"0" * e
    elif -e < len(digits):
        text = digits[:e] + b"." + digits[e:]
    else:
        text = b"0." + b"0" * (-e - len(digits)) + digits
    return (b"-" if negative else b"") + text


def near_end(c: int, e: int, width: int, step: int) -> tuple[bytes, int]:
    """The digits of c × 10^e, brought to this width, and moved by step in the last digit."""
    more = max(0, width - len(str(c)))
    return b"%d" % (c * 10**more + step), e - more


def some_end(dice: Dice) -> tuple[bytes, int]:
    """Digits and exponent close to an end of Si or Do."""
    c, e = dice.pick(REAL_RANGES[dice.pick(("Si", "Do"))])
    width = dice.pick((0, 8, 16, 17, 18, 18, 19))
    return near_end(c, e, width, dice.pick((-10, -2, -1, -1, 0, 0, 1, 1, 2, 10)))


def some_digits(dice: Dice) -> bytes:
    """Digits in a count that matters, often with zeros inside, and mostly with none at the end."""
    count = dice.pick((1, 1, 2, 2, 3, 5, 9, 10, 11, 16, 17, 17, 18, 18, 19, 20))
    style = dice.below(5)
    if style == 0:
        return b"9" * count
    if style == 1:
        return b"1" + b"0" * (count - 1)
    if style == 2 and count > 1:
        return b"1" + b"0" * (count - 2) + b"1"
    return bytes([0x31 + dice.below(9)]) + dice.digits(count - 1)


def some_real(dice: Dice) -> bytes:
    """A text of the form of a real, near an end, near a change of spelling, or anywhere."""
    negative = dice.once_in(3)
    style = dice.below(10)
    if style < 3:
        return written(dice, negative, *some_end(dice))
    digits = some_digits(dice)
    if style < 6:
        p = dice.pick((-6, -5, -5, -4, -4, -3, -1, -1, 0, 0, 1, 8, 9, 9, 10, 10, 11, 17, 18))
        e = p - len(digits) + 1
        return flat(negative, digits, e) if dice.once_in(2) else written(dice, negative, digits, e)
    if style < 7:
        p = dice.pick((-325, -324, -323, -101, -100, -99, -46, -45, -44, -10, -9, 37, 38, 39, 98, 99,
                       100, 101, 307, 308, 309))
        return written(dice, negative, digits, p - len(digits) + 1)
    if style < 8:
        return written(dice, negative, b"0" * dice.between(1, 20), dice.between(-999, 999))
    return written(dice, negative, digits, dice.between(-1005, 1005) if dice.once_in(4) else dice.between(-50, 40))


# ---- whole numbers ----------------------------------------------------------------------------


def some_whole(dice: Dice, kind: str) -> bytes:
    """A text of the form of a whole number, mostly near an end of the type."""
    style = dice.below(6)
    if style < 3:
        number = dice.pick(WHOLE_RANGES[kind]) + dice.pick((-10, -2, -1, -1, 0, 0, 1, 1, 2, 10))
    elif style == 3:
        number = dice.pick(WHOLE_RANGES[dice.pick(tuple(WHOLE_RANGES))]) + dice.between(-2, 2)
    elif style == 4:
        number = dice.between(*WHOLE_RANGES[kind])
    else:
        number = int(dice.digits(dice.between(1, 22))) * dice.pick((1, -1))
    text = b"%d" % number
    if dice.once_in(8):
        text = text.replace(b"-", b"") if dice.once_in(2) else b"-" + text
    if dice.once_in(8):
        text = text[:1] + b"0" * dice.pick((1, 1, 2, 30)) + text[1:]
    if dice.once_in(16):
        text = dice.pick((b"0", b"00", b"+", b"-", b" ")) + text
    if dice.once_in(16):
        text += dice.pick((b".0", b"E0", b"E+1", b" ", b"0", b".", b"\x00"))
    return text


# ---- texts and truth values -------------------------------------------------------------------


def some_characters(dice: Dice, length: int) -> bytes:
    """Characters of up to this many bytes in all, mostly just as many."""
    text = b""
    while len(text) < length:
        character = dice.pick(CHARACTERS)
        if len(text) + len(character) > length:
            character = b"a" if not dice.once_in(4) else character
        text += character
    return text


def some_text(dice: Dice) -> bytes:
    """A text for St: short or near 40 bytes, at times with bytes that do not belong."""
    length = dice.pick((0, 1, 2, 3, 5, 12, 36, 37, 38, 39, 39, 40, 40, 40, 41, 42, 60))
    style = dice.below(8)
    if style == 0:
        return dice.bytes(length)
    text = some_characters(dice, length)
    if style == 1:
        at = dice.between(0, len(text))
        return text[:at] + dice.pick(NOT_UTF8) + text[at:]
    if style == 2:
        at = dice.between(0, len(text))
        return text[:at] + dice.pick((b"{", b"}", b":")) + text[at:]
    if style == 3:
        return text[: dice.pick((39, 40))] + dice.pick(NOT_UTF8)[:1]
    return text


def some_truth(dice: Dice) -> bytes:
    word = dice.pick((b"True", b"False"))
    style = dice.below(8)
    if style == 0:
        return word.lower()
    if style == 1:
        return word.upper()
    if style == 2:
        return word[: dice.between(0, len(word))]
    if style == 3:
        return word + dice.pick((b" ", b"e", b"\x00", b"True", b"."))
    return word


# ---- any of them, and damage ------------------------------------------------------------------


def damaged(dice: Dice, text: bytes) -> bytes:
    """The text with one small change."""
    at = dice.between(0, len(text))
    style = dice.below(8)
    extra = bytes([dice.pick(SHARP) if not dice.once_in(4) else dice.below(256)])
    if style == 0:
        return text[:at] + extra + text[at:]
    if style == 1:
        return text[:at] + text[at + 1 :]
    if style == 2:
        return text[:at] + extra + text[at + 1 :]
    if style == 3:
        return text[:at] + text[at : at + 1] + text[at:]
    if style == 4:
        return text[: max(0, at - 1)] + text[at : at + 1] + text[max(0, at - 1) : at] + text[at + 1 :]
    if style == 5:
        return text[:at]
    if style == 6:
        return text[:at] + b"0" * max(0, dice.between(LONGEST_TEXT - 1, LONGEST_TEXT + 1) - len(text)) + text[at:]
    return text + text


def some_for(dice: Dice, kind: str) -> bytes:
    """A text meant for this type."""
    if kind in WHOLE_RANGES:
        return some_whole(dice, kind)
    if kind in REAL_RANGES:
        return some_real(dice)
    return some_truth(dice) if kind == "Bo" else some_text(dice)


# How often each type is taken: reals have the most rules.
WEIGHTS = ("Si",) * 8 + ("Do",) * 8 + ("In", "Sh", "USh", "Lo", "By") * 2 + ("St",) * 5 + ("Bo",)


def some_value(dice: Dice) -> tuple[str, bytes]:
    """A type and a text for it, at times one that is meant for another type, at times damaged."""
    kind = dice.pick(WEIGHTS)
    text = some_for(dice, kind if not dice.once_in(12) else dice.pick(KINDS))
    while dice.once_in(5):
        text = damaged(dice, text)
    if dice.once_in(200):
        text = text * dice.between(2, 30)
    return kind, text


def word_for(dice: Dice, text: bytes) -> bytes:
    """A word of the console's lines for these bytes. At times it escapes bytes that need no escape."""
    if text and dice.once_in(12):
        return b"".join(b"\\x%02x" % byte if dice.once_in(2) else lines.WRITTEN[byte] for byte in text)
    return lines.encode(text)
