#!/usr/bin/env python3
"""Makes a layer file from a raw image.

    tools/make_layer.py RAW LAYER [--over LOWER --parent UUID] [--uuid UUID]

RAW is the bytes of an image, a multiple of 512. Its zero runs take no room: they become zeroed rows. With --over, LOWER is
the raw image of what lies below, of the same length, and --parent is the uuid of the layer below: sectors that are the same
in both become holes. The uuid is random unless it is given, and is printed. docs/format.md has the format.
"""
import argparse
import struct
import sys
import uuid

SECTOR, BLOCK, LONGEST = 512, 4096, 16383
PIECE = 1 << 20
HOLE, ZERO, DATA = "hole", "zero", "data"


def kinds_of(piece, lower):
    """Yields what each sector of the piece is in the layer, over the same piece of the image below."""
    zeros = bytes(SECTOR)
    for at in range(0, len(piece), SECTOR):
        sector = piece[at : at + SECTOR]
        if lower is not None and sector == lower[at : at + SECTOR]:
            yield HOLE
        else:
            yield ZERO if sector == zeros else DATA


def head(flags, index_at, rows, sectors, own, parent):
    block = b"OBDLAYR1" + struct.pack("<IIQQQ", 1, flags, index_at, rows, sectors) + own.bytes + parent.bytes
    return block.ljust(BLOCK, b"\0")


def make(raw, layer, lower, own, parent):
    """Writes the layer file and answers its rows and its sectors."""
    rows, sectors, place = [], 0, BLOCK // SECTOR
    layer.write(bytes(BLOCK))
    while piece := raw.read(PIECE):
        below = lower.read(len(piece)) if lower else None
        if len(piece) % SECTOR or (lower and len(below) != len(piece)):
            sys.exit("the images are no multiple of 512 bytes, or of different lengths")
        for at, kind in enumerate(kinds_of(piece, below)):
            if kind == DATA:
                layer.write(piece[at * SECTOR : (at + 1) * SECTOR])
            if kind != HOLE:
                last = rows[-1] if rows else None
                if last and last[3] == kind and last[0] + last[1] == sectors + at and last[1] < LONGEST:
                    last[1] += 1
                else:
                    rows.append([sectors + at, 1, place if kind == DATA else 0, kind])
                place += kind == DATA
        sectors += len(piece) // SECTOR
    if not 0 < sectors <= 1 << 31 or len(rows) > 1 << 24:
        sys.exit("a layer has 1 to 2^31 sectors and at most 2^24 rows")
    index_at = place * SECTOR
    for offset, count, at, kind in rows:
        layer.write(struct.pack("<QQ", offset | count << 50, at | (kind == ZERO) << 55))
    layer.write(bytes(-(index_at + 16 * len(rows)) % BLOCK))
    layer.write(head(6, index_at, len(rows), sectors, own, parent))
    layer.seek(0)
    layer.write(head(7, index_at, len(rows), sectors, own, parent))
    return len(rows), sectors


def main():
    words = argparse.ArgumentParser(description=__doc__.split("\n")[0])
    words.add_argument("raw")
    words.add_argument("layer")
    words.add_argument("--over")
    words.add_argument("--parent", type=uuid.UUID, default=uuid.UUID(int=0))
    words.add_argument("--uuid", type=uuid.UUID, default=None)
    given = words.parse_args()
    own = given.uuid or uuid.uuid4()
    with open(given.raw, "rb") as raw, open(given.layer, "wb") as layer:
        lower = open(given.over, "rb") if given.over else None
        rows, sectors = make(raw, layer, lower, own, given.parent)
    print(f"{own} sectors {sectors} rows {rows}")


if __name__ == "__main__":
    main()
