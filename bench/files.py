"""Writes the files of builds piece by piece, so that the process that writes them stays small."""
import struct


def named(kind, name, payload):
    return bytes([kind]) + struct.pack(">H", len(name)) + name.encode() + payload


def write_file(path, size, palette, cells, fields=()):
    """A schematic: width, height, length; pairs of a block and its number; how many bytes the cells
    have, and these in pieces; pieces of further fields of the root."""
    count, pieces = cells
    sides = zip(("Width", "Height", "Length"), size)
    with open(path, "wb") as file:
        file.write(named(10, "Schematic", named(3, "Version", struct.pack(">i", 2))))
        file.write(b"".join(named(2, name, struct.pack(">H", side)) for name, side in sides))
        file.write(named(10, "Palette", b""))
        for block, number in palette:
            file.write(named(3, "minecraft:" + block, struct.pack(">i", number)))
        file.write(b"\0" + named(7, "BlockData", struct.pack(">i", count)))
        for piece in pieces:
            file.write(piece)
        for field in fields:
            file.write(field)
        file.write(b"\0")


def write_build(path, size, blocks, rows, fields=()):
    """A schematic of the palette's blocks, below 128 of them, and of rows of their numbers."""
    width, height, length = size
    palette = ((block, number) for number, block in enumerate(blocks))
    write_file(path, size, palette, (width * height * length, rows), fields)
