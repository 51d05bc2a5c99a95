"""PNG files of one kind: red, green, blue and alpha with 8 bits each, and no interlacing."""

import struct
import zlib
from collections.abc import Iterator

SIGNATURE = b"\x89PNG\r\n\x1a\n"
BYTES = 4  # of a texel
DEPTH, COLOURS_AND_ALPHA, UNFILTERED = 8, 6, b"\0"


def chunk(kind: bytes, data: bytes) -> bytes:
    """A chunk of a file: its length, its kind, its data, and the sum of both."""
    return struct.pack(">I", len(data)) + kind + data + struct.pack(">I", zlib.crc32(kind + data))


def rows(width: int, texels: bytes, scale: int) -> Iterator[bytes]:
    """The rows of an image, with each texel repeated in both directions."""
    for at in range(0, len(texels), BYTES * width):
        row = texels[at:at + BYTES * width]
        if scale > 1:
            row = b"".join(row[texel:texel + BYTES] * scale for texel in range(0, len(row), BYTES))
        for _ in range(scale):
            yield UNFILTERED + row


def png(width: int, height: int, texels: bytes, scale: int = 1) -> bytes:
    """A file of an image that repeats each texel `scale` times in both directions."""
    size = struct.pack(">II", width * scale, height * scale)
    header = size + bytes([DEPTH, COLOURS_AND_ALPHA, 0, 0, 0])
    packer = zlib.compressobj()
    data = b"".join(map(packer.compress, rows(width, texels, scale))) + packer.flush()
    return SIGNATURE + chunk(b"IHDR", header) + chunk(b"IDAT", data) + chunk(b"IEND", b"")
