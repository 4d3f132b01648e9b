#!/usr/bin/env python3
"""Writes the card images of crates/card/data, each page by itself from docs/FORMAT.md alone.

Run it at the top of the repository: python3 tools/make_images.py
With --new PAGES it writes nothing, and prints the CRC-32 of the image of a new card of so many pages.
"""

import argparse
import pathlib
import struct
import zlib

PAGE = 512
PAGES = 16
LEAF, BRANCH, META = 1, 2, 3


def sealed(page):
    """The page with the CRC-32 of its bytes in bytes 12-15, which are taken as zero for it."""
    blank = page[:12] + bytes(4) + page[16:]
    assert len(blank) == PAGE
    return blank[:12] + struct.pack("<I", zlib.crc32(blank)) + blank[16:]


def cells(kind, leftmost, bodies):
    """A page of cells: the first ends at the last byte, and each further one just below the one before."""
    offsets, lowest, packed = b"", PAGE, b""
    for body in bodies:
        lowest -= len(body)
        offsets += struct.pack("<H", lowest)
        packed = body + packed
    head = struct.pack("<BBHHHII", kind, 0, len(bodies), lowest, 0, leftmost, 0)
    gap = PAGE - len(head) - len(offsets) - len(packed)
    assert gap >= 0
    return sealed(head + offsets + bytes(gap) + packed)


def leaf(pairs):
    return cells(LEAF, 0, [bytes([len(k), len(v)]) + k + v for k, v in pairs])


def branch(first, rest):
    return cells(BRANCH, first, [bytes([len(s), 0]) + struct.pack("<I", p) + s for s, p in rest])


def meta(root, commit, pairs, levels, pages=PAGES):
    numbers = struct.pack("<BBHIIIQIB", META, 1, 0, pages, root, 0, commit, pairs, levels)
    return sealed(numbers + bytes(PAGE - len(numbers)))


def image(pages, count=PAGES):
    return b"".join(pages.get(i, bytes(PAGE)) for i in range(count))


def trips(numbers):
    """A pair for each trip: its number, and what was driven and paid."""
    return [(b"trip/%04d" % n, b"2026-11-16 %d.%d km %d.40 paid" % (n % 30 + 2, n % 10, n % 40 + 10)) for n in numbers]


def new_card(count=PAGES):
    """Commit 0, an empty leaf on page 2."""
    return {0: meta(2, 0, 0, 1, count), 2: leaf([])}


def root_leaf():
    """Commit 1, whose tree is one leaf on page 3; commit 0 had the empty leaf on page 2."""
    pairs = [(b"meter/serial", b"MX-20817"), (b"total/fares", b"18.40"), (b"trip/0001", b"08:12 11.3 km 18.40")]
    return {0: meta(2, 0, 0, 1), 1: meta(3, 1, 3, 1), 2: leaf([]), 3: leaf(pairs)}


def three_leaves():
    """Commit 7, whose tree is a branch on page 9 with leaves on pages 5, 6 and 8. Page 7 is the branch of commit 6,
    with the leaves on pages 5, 6 and 4, and page 3 a leaf of a commit before that."""
    left, middle, right = trips(range(400, 406)), trips(range(406, 411)), trips(range(411, 416))
    return {
        0: meta(7, 6, 15, 2),
        1: meta(9, 7, 16, 2),
        3: leaf(left[:5]),
        4: leaf(right[:4]),
        5: leaf(left),
        6: leaf(middle),
        7: branch(5, [(b"trip/0406", 6), (b"trip/0411", 4)]),
        8: leaf(right),
        9: branch(5, [(b"trip/0406", 6), (b"trip/0411", 8)]),
    }


def flipped():
    """A bit of page 6 is turned."""
    pages = three_leaves()
    page = bytearray(pages[6])
    page[500] ^= 4
    pages[6] = bytes(page)
    return pages


def misplaced():
    """The separator before page 6 is above its first key."""
    pages = three_leaves()
    pages[9] = branch(5, [(b"trip/0408", 6), (b"trip/0411", 8)])
    return pages


def without_meta():
    """No page passes the meta test: each has the commit number of the other."""
    pages = three_leaves()
    pages[0], pages[1] = pages[1], pages[0]
    return pages


def write_images():
    data = pathlib.Path("crates/card/data")
    data.mkdir(parents=True, exist_ok=True)
    images = {
        "new.img": image(new_card()),
        "leaf.img": image(root_leaf()),
        "branch.img": image(three_leaves()),
        "flipped.img": image(flipped()),
        "misplaced.img": image(misplaced()),
        "without_meta.img": image(without_meta()),
        "cut.img": image(three_leaves())[:7900],
        "fifteen.img": image(three_leaves(), 15),
    }
    for name, content in images.items():
        (data / name).write_bytes(content)


def main():
    parser = argparse.ArgumentParser(description="Writes the card images of crates/card/data.")
    parser.add_argument("--new", type=int, metavar="PAGES", help="print the CRC-32 of a new card's image, and write nothing")
    pages = parser.parse_args().new
    if pages is None:
        write_images()
    else:
        print(f"{zlib.crc32(image(new_card(pages), pages)):08x}")


if __name__ == "__main__":
    main()
