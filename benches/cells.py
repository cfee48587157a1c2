"""Writes the cell files, scripts and orders of the runs of the whole program: cells.py MINIMAL FOLDER

The cells have the head records of the minimal cell file. Points are (latitude, longitude). A script's name is beside what it does below;
ORDER_n is the order of n shared commands of one session."""

import struct
import sys

from records import edge, fields, from_to, head_of, node

STROKE = 2_000_000
minimal, folder = sys.argv[1:]
head = head_of(minimal)


def bare_node(number):
    """A node without a position."""
    return fields((b"VRID", struct.pack("<BIHB", 120, number, 1, 1)))


def dangling_line(number):
    """A coastline that names as many edges as a record can, none of which is there."""
    pointers = b"".join(struct.pack("<BIBBB", 130, k, 1, 255, 255) for k in range(1, 12_401))
    return fields((b"FRID", struct.pack("<BIBBHHB", 100, number, 2, 2, 30, 1, 1)), (b"FOID", struct.pack("<HIH", 550, number, 1)), (b"FSPT", pointers))


def area(edges):
    """A depth area whose outer boundary goes forward along edges."""
    pointers = b"".join(struct.pack("<BIBBB", 130, number, 1, 1, 255) for number in edges)
    return fields((b"FRID", struct.pack("<BIBBHHB", 100, 1, 3, 1, 42, 1, 1)), (b"FOID", struct.pack("<HIH", 550, 1, 1)), (b"FSPT", pointers))


def line(number, points):
    """An edge along points, with the nodes at its two ends."""
    first = 2 * number - 1
    return [node(first, points[0]), node(first + 1, points[-1]), from_to(number, first, first + 1, points[1:-1])]


def shape(name, size, by=(0, 0)):
    """Points in short steps, or to and fro in long strokes, none of whose segments meet, moved by so much."""

    def point(place):
        step, stroke, bend = 100 * place, STROKE * (place % 2), 30 * (place % 2)
        return {
            "STAIRS": (step, step + bend),
            "NORTH_SOUTH": (stroke, step),
            "EAST_WEST": (step, stroke),
            "SLANTING": (stroke + step, stroke - step),
        }[name]

    return [(latitude + by[0], longitude + by[1]) for latitude, longitude in map(point, range(size))]


def corner(place, count):
    """A point of a flat ring of so many points."""
    north, steps = (5_000, place) if place < count // 2 else (0, count - place)
    return north + 30 * (place % 2), 100 * steps


def ring(nodes):
    """Nodes, and an edge from each to the next."""
    count = len(nodes)
    yield from (node(k + 1, point) for k, point in enumerate(nodes))
    yield from (from_to(k, k, k % count + 1) for k in range(1, count + 1))


def snake(count, columns=32, apart=10_000):
    """Nodes in rows from west to east and back in turn, and a ring of edges of four segments each along them."""

    def place(k):
        row, column = divmod(k, columns)
        return row * apart, (columns - 1 - column if row % 2 else column) * apart

    def quarters(one, other):
        for k in (1, 2, 3):
            yield tuple(a + (b - a) // 4 * k + 100 * (k == 2) for a, b in zip(one, other))

    yield from (node(k + 1, place(k)) for k in range(count))
    yield from (from_to(k, k, k + 1, quarters(place(k - 1), place(k))) for k in range(1, count))
    north = place(count - 1)[0] + 20_000
    yield from_to(count, count, 1, [(north, place(count - 1)[1]), (north, -20_000), (0, -20_000)])


def far_apart(number):
    return tuple(number * step % 2_000_000_000 - 1_000_000_000 for step in (7919, 104729))


def moved_node(rows, turn, session=0, sessions=1):
    """The line that moves a node of a generated cell a little: another one each turn, of those that the session has to itself."""
    nodes = (rows + 1) ** 2
    number = session + sessions * (turn * 7_919 % (nodes // sessions))
    row, column = divmod(number, rows + 1)
    return f"set vc {number + 1} 2 p={40_000 * row + turn % 50},{40_000 * column + turn % 37}\n"


def doubled_area(rows, turn):
    """A second depth area, of number 20,000, on a square of a generated cell."""
    row, column = divmod(turn * 7_919 % rows**2, rows)
    south, west = 1 + row * rows + column, 1 + rows * (rows + 1) + row * (rows + 1) + column
    pointers = ((west, 1), (south + rows, 1), (west + 1, 2), (south, 2))
    return "fe 20000 1 3 1 42 1 20000 1" + "".join(f" s=ve:{edge}:{way}:1:255" for edge, way in pointers) + "\n"


def write_cell(name, records):
    with open(f"{folder}/{name}", "wb") as file:
        file.write(head + b"".join(records))


def write_text(name, text):
    with open(f"{folder}/{name}", "w") as file:
        file.write(text)


MOVES = {
    "STAIRS": (396_000, 396_060),
    "NORTH_SOUTH": (500_000, 0),
    "EAST_WEST": (0, 500_000),
    "SLANTING": (500_000, 500_000),
}
def named_again(tag, content, first):
    """A record whose directory names the same field as often as 99,999 bytes allow, behind the fields that come first."""
    fields = [*first, (tag, content + b"\x1e")]
    lengths = [len(content) for _, content in fields]
    places = [sum(lengths[:k]) for k in range(len(fields))]
    entries = [b"%s%05d%02d" % (tag, length, place) for (tag, _), length, place in zip(fields, lengths, places)]
    more = (99_999 - 25 - 11 * len(entries) - sum(lengths)) // 11
    directory = b"".join([*entries, *more * entries[-1:]]) + b"\x1e"
    base = 24 + len(directory)
    return b"%05d D     %05d   5204" % (base + sum(lengths), base) + directory + b"".join(content for _, content in fields)


for name, by in MOVES.items():
    write_cell(f"EDGE_{name}", line(1, shape(name, 8_000)))
    write_cell(f"PAIR_{name}", line(1, shape(name, 4_000)) + line(2, shape(name, 4_000, by)))
write_cell("EDGE_KNOTTED", line(1, [*shape("NORTH_SOUTH", 7_999), (1_000_000, -1_000)]))
write_cell("EDGE_ENDS", [node(1, (0, 0)), edge(1, 11_000 * [(1, 1)])])
write_cell("PAIR_CROSSED", line(1, shape("NORTH_SOUTH", 4_000)) + line(2, shape("NORTH_SOUTH", 4_000, (0, 50))))
write_cell("AREA_RING", [*ring([corner(k, 12_000) for k in range(12_000)]), area(range(1, 12_001))])
write_cell("AREA_CLOSED", [node(1, corner(0, 8_000)), from_to(1, 1, 1, [corner(k, 8_000) for k in range(1, 8_000)]), area(12_000 * [1])])
IDENTIFIERS = [(b"FRID", struct.pack("<BIBBHHB", 100, 1, 255, 2, 42, 1, 1) + b"\x1e"), (b"FOID", struct.pack("<HIH", 550, 1, 1) + b"\x1e")]
write_cell("NAMED_FFPT", [named_again(b"FFPT", 4_545 * (struct.pack("<HIHB", 550, 1, 1, 1) + b"\x1f"), IDENTIFIERS)])
write_cell("NAMED_SG3D", [named_again(b"SG3D", 4_160 * struct.pack("<iii", 0, 0, 0), [(b"VRID", struct.pack("<BIHB", 110, 1, 1, 1) + b"\x1e")])])
write_cell("SNAKE", snake(1_000))
write_cell("RING", ring([(k, k) for k in range(1, 501)]))
for count in (10_000, 20_000, 40_000, 80_000):
    write_cell(f"PLACED_{count}", (node(k, far_apart(k)) for k in range(1, count + 1)))
for count in (724, 240_000):
    write_cell(f"HEAP_{count}", (node(k, (0, 0)) for k in range(1, count + 1)))
# 240,000 nodes, and 262,144 of which 44,144 have no position, in a file near its limit
write_cell("SPREAD", (node(k, far_apart(k)) for k in range(1, 240_001)))
write_cell("FULL", [*(node(k, far_apart(k)) for k in range(1, 218_001)), *(bare_node(k) for k in range(218_001, 262_145))])
# 260,400 findings, 12,400 on each record
write_cell("DANGLING", (dangling_line(k) for k in range(1, 22)))
# 4,096 more nodes at the place of a heap, in one commit
write_text("ADDED", "".join(f"add vc {k} 1 p=0,0\n" for k in range(1_000, 5_096)) + "commit\n")
# one node of the ring moved in each of 2,000 commits, and the cell viewed before each
write_text("MOVES", "".join(f"set vc {k % 500 + 1} 2 p={k},{k}\nview\ncommit\n" for k in range(2_000)))
# 1,600 commits shared out among so many sessions: each moves a node by one unit, so that the ring stays a ring in whatever order they come
for sessions in (1, 2, 4, 8, 16):
    for session in range(sessions):
        moves = range(session, 1_600, sessions)
        commits = (f"set vc {k % 500 + 1} 2 p={k % 500 + 1},{k % 500 + 1 + k // 500 % 2}\nview\ncommit\n" for k in moves)
        write_text(f"PART_{sessions}_{session + 1}", "".join(commits))
# 50,000 commands, and 1,048,576 bytes
write_text("DELETIONS", 50_000 * "del vc 4294967295\n")
write_text("EDGES", "".join("add ve 1 1" + points * " p=-500000,400000" + "\n" for points in [*20 * [3_000], 1_667]) + "#end.\n")
# scripts for the cells that `make` generates: nothing, and commits that are all accepted
write_text("NONE", "")
for rows in (25, 50, 100):
    write_text(f"MOVED_{rows}", "".join(f"{moved_node(rows, k)}commit\n" for k in range(5_000)))
write_text("FEATURES", "".join(f"add {doubled_area(100, k)}commit\ndel fe 20000\ncommit\n" for k in range(2_500)))
write_text("HEADS", "".join(f"set head edtn=1 updn={k} uadt=20260101 isdt=20260101 aall=0 comt=\ncommit\n" for k in range(1, 101)))
write_text("LARGE", 3 * ("".join(moved_node(100, k) for k in range(4_000)) + "commit\n"))
# 8,000 commits shared out among so many sessions, each of which has nodes of its own
for sessions in (1, 4, 8, 16):
    for session in range(sessions):
        commits = (f"{moved_node(100, k, session, sessions)}commit\n" for k in range(8_000 // sessions))
        write_text(f"SHARE_{sessions}_{session + 1}", "".join(commits))
for count in (0, 1, 3, 100, 4_000, 5_000):
    write_text(f"ORDER_{count}", "order" + count * " 1" + "\n")
