#!/usr/bin/env python3
"""Makes a PNG of a PGM picture, each pixel a square of four by four: make_png.py < FILE.pgm > FILE.png

The picture is a plain one, with the word P2 and no comments, and has 256 shades.
"""

import struct
import sys
import zlib

TIMES = 4


def chunk(name: bytes, data: bytes) -> bytes:
    return struct.pack(">I", len(data)) + name + data + struct.pack(">I", zlib.crc32(name + data))


word, *numbers = sys.stdin.read().split()
width, height, most, *shades = map(int, numbers)
assert word == "P2" and most == 255 and len(shades) == width * height
rows = b""
for y in range(height):
    row = b"".join(bytes([shade]) * TIMES for shade in shades[y * width : (y + 1) * width])
    rows += (b"\0" + row) * TIMES
sys.stdout.buffer.write(
    b"\x89PNG\r\n\x1a\n"
    + chunk(b"IHDR", struct.pack(">IIBBBBB", width * TIMES, height * TIMES, 8, 0, 0, 0, 0))
    + chunk(b"IDAT", zlib.compress(rows, 9))
    + chunk(b"IEND", b"")
)
