"""What the words of the twelve record types mean: photons, markers, wraps and reserved words.

After PicoQuant's documentation of the TTTR format and its demo readers; docs/formats.md has the layouts as tables.
"""

import functools
from dataclasses import dataclass

import numpy as np
from numpy.typing import NDArray

Words = NDArray[np.uint32]
MARKER, RESERVED, WRAP = 0x80, 0x7E, 0x7F  # meanings; that of a photon is its input, 0 to 64


@dataclass(frozen=True)
class Layout:
    """The layout of the words of a record type. What a word is stands in eight of its bits, its *key*."""

    meanings: bytes  # of each key: an input, MARKER + bits, RESERVED or WRAP
    key: tuple[int, int | None]  # the byte of a word that is its key, or has its upper four bits, and the byte with the lower four
    field: int  # the bits of the time
    unit: int  # what a wrap adds to the time
    wraps_count: bool = False  # the time field of a wrap says how many units
    dtime: tuple[int, int] = (0, 0)  # by how many bits a dtime is shifted, and its bits

    @functools.cached_property
    def special(self) -> int:
        """The least word that can be a marker or a wrap."""
        least = min(key for key, meaning in enumerate(self.meanings) if meaning == WRAP or meaning & MARKER)
        return (least if self.key[1] is None else least & 0xF0) << 24

    def read(self, words: Words) -> NDArray[np.uint8]:
        """The meaning of each word, ``(n,)``."""
        each = words.astype("<u4", copy=False).view(np.uint8).reshape(-1, 4)
        high, low = self.key
        keys = each[:, high].tobytes() if low is None else (each[:, high] & 0xF0 | each[:, low] & 0x0F).tobytes()
        return np.frombuffer(keys.translate(self.meanings), dtype=np.uint8)

    def amounts(self, wraps: Words) -> NDArray[np.int64]:
        """What each of these wraps adds to the time."""
        many = np.maximum(wraps & self.field, 1) if self.wraps_count else np.ones_like(wraps)
        return many.astype(np.int64) * self.unit


def _hydra(is_t2: bool) -> bytes:
    """By the highest byte: the special bit, six bits of the channel, and one that says nothing."""

    def meaning(special: bool, channel: int) -> int:
        if not special:
            return channel + is_t2
        if channel == 63:
            return WRAP
        if 1 <= channel <= 15:
            return MARKER + channel
        return 0 if is_t2 and channel == 0 else RESERVED

    return bytes(meaning(key >= 128, key >> 1 & 63) for key in range(256))


def _pico() -> bytes:
    """By the channel, and the four bits that tell a marker from a wrap."""

    def meaning(channel: int, bits: int) -> int:
        if channel == 15:
            return MARKER + bits if bits else WRAP
        return channel if channel <= 4 else RESERVED

    return bytes(meaning(key >> 4, key & 15) for key in range(256))


PICO_T2 = Layout(_pico(), (3, 0), 0xFFFFFFF, 210698240)
PICO_T3 = Layout(_pico(), (3, 2), 0xFFFF, 65536, dtime=(16, 0xFFF))
HYDRA_T2 = Layout(_hydra(True), (3, None), 0x1FFFFFF, 1 << 25, True)
HYDRA_T3 = Layout(_hydra(False), (3, None), 1023, 1024, True, (10, 0x7FFF))
OLD_T2 = Layout(_hydra(True), (3, None), 0x1FFFFFF, 33552000)
OLD_T3 = Layout(_hydra(False), (3, None), 1023, 1024, dtime=(10, 0x7FFF))


def layout_of(record_type: str) -> Layout:
    """The layout of one of the twelve record types."""
    special = {"PicoHarpT2": PICO_T2, "PicoHarpT3": PICO_T3, "HydraHarpT2": OLD_T2, "HydraHarpT3": OLD_T3}
    return special.get(record_type, HYDRA_T2 if record_type.endswith("T2") else HYDRA_T3)
