"""Numbers of a text as whole numbers with decimals, so that sums and products are exact and are rounded once, at the end; and
vectors of three."""

import re
from typing import Any, Sequence, Tuple

from . import NOT_READ, Fault, _rounded

NUMBER = re.compile(rb"([-+]?)(?:(\d+)(?:\.(\d*))?|\.(\d+))(?:[eE]([-+]?\d+))?")
LONGEST = 255  # bytes of a number
FARTHEST = 128_000_000  # micrometres from 0 that a corner may have
# Powers of ten beyond these are read as these: the number is out of range all the same, or too small to be told from 0.
LARGE, SMALL = LONGEST + 40, -LONGEST - 700

Vector = Sequence[Any]  # of three numbers


def refuse_if(is_wrong: Any, text: str) -> None:
    if is_wrong:
        raise Fault(NOT_READ, text)


def number(word: bytes) -> Tuple[int, int]:
    """A number, as it is written: a whole number, and how many of its digits are decimals."""
    found = NUMBER.fullmatch(word) if len(word) <= LONGEST else None
    if not found:
        raise Fault(NOT_READ, f"{front(word)!r} is {'too long' if len(word) > LONGEST else 'not a number'}")
    sign, whole, part, only, power = found.groups(b"")
    part = part or only
    digits, decimals = int(whole + part), len(part)
    if power:
        decimals -= max(SMALL, min(int(power), LARGE))
        if decimals < 0:
            digits, decimals = digits * 10 ** -decimals, 0
    return -digits if sign == b"-" else digits, decimals


def in_micrometres(word: bytes, times: int) -> int:
    """A number in whole micrometres, of which its unit has so many."""
    digits, decimals = number(word)
    found = _rounded(2 * digits * times, 10 ** decimals)
    if abs(found) > FARTHEST:
        raise Fault(NOT_READ, f"{front(word)!r} is out of range")
    return found


def front(word: bytes) -> str:
    """As much of a word as a line tells."""
    return word[:20].decode(errors="replace")


def minus(a: Vector, b: Vector) -> Tuple[Any, Any, Any]:
    return a[0] - b[0], a[1] - b[1], a[2] - b[2]


def dot(a: Vector, b: Vector) -> Any:
    return a[0] * b[0] + a[1] * b[1] + a[2] * b[2]


def cross(a: Vector, b: Vector) -> Tuple[Any, Any, Any]:
    return a[1] * b[2] - a[2] * b[1], a[2] * b[0] - a[0] * b[2], a[0] * b[1] - a[1] * b[0]
