"""Lines of whole numbers as an array, at some nanoseconds a number."""

from collections.abc import Sequence
from typing import Any

import numpy as np
from numpy.typing import NDArray

MOST_DIGITS = 18  # of a number that 64 bits hold for sure


def whole_numbers(text: bytes, columns: int) -> NDArray[np.int64] | None:
    """The numbers of lines that each have ``columns`` of them, parted by one space and ended by a newline:
    ``(lines, columns)``. None where a line is another one, or a number has more than 18 digits.

    All numbers of up to four digits come of a few passes over the whole text: at each byte the value of the four
    digits that end there, as far as they are digits. Only longer ones are added up digit by digit.
    """
    letters = np.frombuffer(text, dtype=np.uint8)
    is_digit = letters >= 48
    ends = np.flatnonzero(letters < 48)
    lengths = ends.copy()
    lengths[1:] -= ends[:-1] + 1
    if not _well_formed(letters, ends, lengths, columns):
        return None
    digits = (letters - np.uint8(48)) * is_digit.view(np.uint8)
    values = digits.astype(np.uint16)
    values[1:] += digits[:-1] * np.uint8(10)
    values *= is_digit
    hundreds = values[:-2] * np.uint16(100)
    hundreds *= is_digit[1:-1]
    values[2:] += hundreds
    numbers = values[ends - 1].astype(np.int64)
    for place in range(4, int(lengths.max())):
        longer = np.flatnonzero(lengths > place)
        numbers[longer] += digits[ends[longer] - 1 - place].astype(np.int64) * 10**place
    return np.asarray(numbers.reshape(-1, columns))


def _well_formed(
    letters: NDArray[np.uint8], ends: NDArray[np.int64], lengths: NDArray[np.int64], columns: int
) -> bool:
    """Whether the text is such lines: digits, and behind each number one space, behind the last of a line a newline."""
    if not len(ends) or len(ends) % columns or ends[-1] != len(letters) - 1 or int(letters.max()) > 57:
        return False
    lines = len(ends) // columns
    return (
        bool(np.all(letters[ends[columns - 1 :: columns]] == 10))
        and np.count_nonzero(letters == 10) == lines
        and np.count_nonzero(letters == 32) == len(ends) - lines
        and 0 < int(lengths.min()) <= int(lengths.max()) <= MOST_DIGITS
    )


def lines_of(columns: Sequence[NDArray[Any]]) -> bytes:
    """The lines of some columns of whole numbers that aren't negative, with a blank between two of them.

    Every number is written with as many digits as the greatest of its column, and the zeros in front are left out.
    """
    if any(column.dtype == object for column in columns):
        line = "%d " * (len(columns) - 1) + "%d\n"
        return "".join(map(line.__mod__, zip(*(column.tolist() for column in columns)))).encode("ascii")
    parts = [_digits_of(column) for column in columns]
    letters = np.concatenate([part for part, _ in parts])
    letters[-1] = 10  # the end of a line is the last one's blank
    shown = np.concatenate([shown for _, shown in parts])
    return bytes(letters.T[shown.T])


def _digits_of(column: NDArray[Any]) -> tuple[NDArray[np.uint8], NDArray[np.bool_]]:
    """The digits of numbers and a blank, each a row of letters, and which of them are shown."""
    greatest = int(column.max(initial=0))
    width = len(str(greatest))
    rest = column.astype(np.uint32 if greatest < 1 << 32 else np.uint64)
    letters = np.full((width + 1, len(rest)), 32, np.uint8)
    shown = np.ones((width + 1, len(rest)), np.bool_)
    for place in range(width - 1, -1, -1):
        more = rest // rest.dtype.type(10)
        letters[place] = rest - more * rest.dtype.type(10) + rest.dtype.type(48)
        if place < width - 1:
            shown[place] = rest > 0
        rest = more
    return letters, shown
