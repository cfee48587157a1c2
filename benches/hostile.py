"""Writes the files of the case `hostile`, the worst that were found for each command: hostile.py MINIMAL FOLDER

Each is within the limits, or a part of such a file from which its time can be reckoned: a number in its name says how many there are of what its
comment tells. Points are (latitude, longitude)."""

import struct
import subprocess
import sys

from records import edge, fields, from_to, head_of, node

minimal, folder = sys.argv[1:]
head = head_of(minimal)
FILE = 16_777_216


def feature(number, *pairs, identifier=None):
    """A feature that is in no place."""
    identifier = number if identifier is None else identifier
    return fields((b"FRID", struct.pack("<BIBBHHB", 100, number, 255, 2, 42, 1, 1)), (b"FOID", struct.pack("<HIH", 1, identifier, 1)), *pairs)


def partner(identifier, text=b""):
    return struct.pack("<HIHB", 1, identifier, 1, 1) + text + b"\x1f"


def overlapping(tag, rows, entries):
    """A feature record whose entries all have one and the same field."""
    identity = struct.pack("<BIBBHHB", 100, 1, 255, 2, 42, 1, 1) + b"\x1e" + struct.pack("<HIH", 1, 1, 1) + b"\x1e"
    content = rows + b"\x1e"
    directory = b"FRID0001300FOID0000913" + entries * (tag + b"%05d22" % len(content)) + b"\x1e"
    base = 24 + len(directory)
    return b"%05d D     %05d   5204" % (base + len(identity) + len(content), base) + directory + identity + content


def empty_fields(number, count):
    """A connected node with so many fields of coordinates, each of which is the end of its first field."""
    directory = b"VRID90" + count * b"SG2D18" + b"\x1e"
    base = 24 + len(directory)
    return b"%05d D     %05d   1104" % (base + 9, base) + directory + struct.pack("<BIHB", 120, number, 1, 1) + b"\x1e"


def star(count):
    """Edges between two nodes, each over a point of its own: none meets another but at the nodes."""
    yield node(1, (0, 0))
    yield node(2, (0, 2_000_000))
    yield from (from_to(k, 1, 2, [(k, 1_000_000)]) for k in range(1, count + 1))


def combs(count, points):
    """Edges that go to and fro side by side in long slanting strokes, and never meet: the boxes of all segments overlap."""
    for number in range(count):
        places = ((number * points + k, 2_000_000 * (k % 2)) for k in range(points))
        line = [(stroke + place, stroke - place) for place, stroke in places]
        yield node(2 * number + 1, line[0])
        yield node(2 * number + 2, line[-1])
        yield from_to(number + 1, 2 * number + 1, 2 * number + 2, line[1:-1])


def tile(count):
    """Nodes apart from each other in one tile of 65,536 by 65,536 units."""
    yield from (node(k + 1, (k // 512 * 64, k % 512 * 64)) for k in range(count))


def tied(edges, features):
    """Edges with these numbers, of which each begins at node 1 and ends at node 2, which has no place, so that they have no points; and features with these
    numbers, which name node 1."""
    yield node(1, (0, 0))
    yield fields((b"VRID", struct.pack("<BIHB", 120, 2, 1, 1)))
    yield from (from_to(number, 1, 2) for number in edges)
    pointer = struct.pack("<BIBBB", 120, 1, 255, 255, 255)
    for number in features:
        yield fields((b"FRID", struct.pack("<BIBBHHB", 100, number, 1, 2, 129, 1, 1)), (b"FOID", struct.pack("<HIH", 1, number, 1)), (b"FSPT", pointer))


def write_cell(name, records):
    with open(f"{folder}/{name}", "wb") as file:
        file.write(head + b"".join(records))
        assert file.tell() <= FILE, name


def write_text(name, text):
    with open(f"{folder}/{name}", "w") as file:
        file.write(text)
        assert file.tell() <= (4_194_304 if name.startswith("ORDER") else 1_048_576), name


def meeting(kind, count, bits):
    """Numbers of records that meet in a hash table of subjects."""
    return [int(word) for word in subprocess.check_output([f"{folder}/plain", str(kind), str(count), str(bits)]).split()]


# one record of 99,999 bytes with 4,539 fields of 4,545 rows each
write_cell("OVERLAPPING", [overlapping(b"FFPT", 4_545 * partner(1, b"A"), 4_539)])
write_cell("EMPTY_FIELDS", (empty_fields(k, 16_659) for k in range(1, 168)))
# as many features as a file holds that bear one identifier; and such that point to it, of which the first is to be edited
write_cell("ONE_IDENTIFIER", (feature(k, identifier=1) for k in range(1, 226_600)))
write_cell("ONE_PARTNER", (feature(k, (b"FFPT", partner(1))) for k in range(1, 180_000)))
write_text("MOVE_PARTNER", "set fe 1 2 255 2 42 1 2147483648 1\ncommit\n")
# a script of 4,096 edits for cells with nodes 1 to 4,096
write_text("MOVE_ALL", "".join(f"set vc {k} 2 p={(k - 1) // 512 * 64 + 1},{(k - 1) % 512 * 64 + 1}\n" for k in range(1, 4_097)) + "commit\n")
write_text("MOVE_100", "".join(f"set vc {k} 2 p={(k - 1) // 512 * 64 + 1},{(k - 1) % 512 * 64 + 1}\n" for k in range(1, 101)) + "commit\n")
write_text("MOVE_1", "set vc 1 2 p=1,1\ncommit\n")
write_text("NONE", "")
for count in (2_000, 4_000, 8_000):
    write_cell(f"STAR_{count}", star(count))
for count in (1, 2, 4):
    write_cell(f"COMBS_{count}", combs(count, 12_000))
for count in (4_096, 16_384, 65_536, 225_000):
    write_cell(f"TILE_{count}", tile(count))
# all edges and features of a file are touched where node 1 is; in one their numbers meet in a hash table of subjects
write_cell("TIED", tied(range(3, 100_003), range(1, 86_001)))
write_cell("TIED_MEETING", tied(meeting(2, 100_000, 15), meeting(3, 86_000, 15)))
# commits of 16 sessions, as many as scripts hold: each moves a node of the session's own
for session in range(1, 17):
    write_text(f"COMMITS_{session}", "".join(f"set vc {session} 2 p={k},{session}\ncommit\n" for k in range(1, 1_001)))
    write_text(f"FULL_COMMITS_{session}", 25_000 * f"set vc {session} 2 p=1,{session}\ncommit\n")
# nodes for these, each in a tile of its own; and 21 findings with long lines, of which as many are listed as may be
write_cell("APART", (node(k, (0, 100_000 * k)) for k in range(1, 17)))
write_cell("LONG_NAMES", (node(4_294_967_295 - k, (0, 0)) for k in range(7)))
write_text("LISTS", 50_000 * "list 20\n")
write_text("VIEWS", 50_000 * "view\n")
for count in (0, 1):
    write_text(f"ORDER_{count}", "order" + count * " 1" + "\n")
write_text("ORDER_COMMITS", "order" + 1_000 * "".join(f" {k}" for k in range(1, 17)) + "\n")
write_text("ORDER_FULL", "order" + 25_000 * "".join(f" {k}" for k in range(1, 17)) + "\n")
