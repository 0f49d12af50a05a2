"""How far the console is built: which of its calls are known.

The calls of docs/PROTOCOL.md, section 7.5, come in five families, one built on the other. A catalogue's calls
are two of them: `transactions` has all but withdrawing, which `catalogue` adds. At a level, the calls of its own
family and of those before it are known, and every other first word prints `error`.
"""

from __future__ import annotations

import os
from typing import Optional

LEVELS = ("values", "packets", "box", "transactions", "catalogue")

# The level that the program `console` has reached.
DEFAULT = "packets"

# The environment variable that names another level.
VARIABLE = "REFERENCE_LEVEL"


def named(name: str) -> str:
    """The level with this name; `all` is the last one."""
    level = LEVELS[-1] if name == "all" else name
    if level not in LEVELS:
        raise SystemExit(f"{name!r} is no level; the levels are {', '.join(LEVELS)}, all")
    return level


def present(otherwise: str = DEFAULT) -> str:
    """The level that the environment names, or else the one that the program has reached."""
    return named(os.environ.get(VARIABLE) or otherwise)


def knows(level: str, family: str) -> bool:
    """Whether the calls of a family are known at a level."""
    return family in up_to(level)


def or_present(level: Optional[str]) -> str:
    """A level that is given, or else the present one."""
    return present() if level is None else named(level)


def up_to(level: str) -> tuple[str, ...]:
    """The levels from the first to this one."""
    return LEVELS[: LEVELS.index(level) + 1]


def chosen(arguments: list[str], otherwise: str = DEFAULT) -> tuple[str, list[str]]:
    """The level that the arguments of a program choose with `--level NAME`, and the other arguments."""
    rest = list(arguments)
    if "--level" not in rest:
        return present(otherwise), rest
    at = rest.index("--level")
    if at + 1 == len(rest):
        raise SystemExit("--level wants the name of a level")
    level = named(rest[at + 1])
    del rest[at : at + 2]
    return level, rest
