"""Refusals: a call that cannot be done raises `Refused`, with the number of the ground.

Written from docs/PROTOCOL.md, section 3.1.
"""

from __future__ import annotations

from typing import Optional

TIME = 1
SHORT_MEMORY = 2
TOO_LONG = 3
FRAME = 4
NOT_UTF8 = 5
HEAD = 6
COMMAND = 7
PAYLOAD = 8
DIRECTION = 9
UNKNOWN = 10
OLD_NUMBER = 11
NO_MATCH = 12
LIMIT = 13
ENLISTED = 14
STILL_WAITS = 15
NONE_WAITS = 16
EXHAUSTED = 17


class Refused(Exception):
    """The call is refused. Nothing has changed. Grounds 6, 7 and 8 tell the field at fault."""

    def __init__(self, number: int, field: Optional[int] = None) -> None:
        super().__init__(number, field)
        self.number = number
        self.field = field
