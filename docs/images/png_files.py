"""Writes PNG files of grey levels, and reads back those that it wrote. The scripts of the documents' pictures stand on it."""
import struct
import zlib


def part(word, data):
    return struct.pack(">I", len(data)) + word + data + struct.pack(">I", zlib.crc32(word + data))


def png(rows):
    """A PNG file of rows of levels from 0 to 255."""
    head = struct.pack(">IIBBBBB", len(rows[0]), len(rows), 8, 0, 0, 0, 0)
    raster = b"".join(b"\0" + bytes(row) for row in rows)
    return b"\x89PNG\r\n\x1a\n" + part(b"IHDR", head) + part(b"IDAT", zlib.compress(raster, 9)) + part(b"IEND", b"")


def raster_of(data):
    """The rows of a file that `png` wrote, whichever zlib packed them."""
    at, packed = 8, b""
    while at < len(data):
        size, word = struct.unpack(">I4s", data[at:at + 8])
        packed += data[at + 8:at + 8 + size] if word == b"IDAT" else b""
        at += 12 + size
    return zlib.decompress(packed)
