"""Records of cell files, as bytes. Points are (latitude, longitude)."""

import struct


def head_of(minimal):
    """The head records of the minimal cell file."""
    with open(minimal, "rb") as file:
        return file.read(1785)


def record(fields):
    lengths = [len(content) for _, content in fields]
    places = [sum(lengths[:k]) for k in range(len(fields))]
    length_digits, place_digits = len(str(max(lengths))), len(str(max(places)))
    entries = (b"%s%0*d%0*d" % (tag, length_digits, length, place_digits, place) for (tag, _), length, place in zip(fields, lengths, places))
    directory = b"".join(entries) + b"\x1e"
    base = 24 + len(directory)
    leader = b"%05d D     %05d   %d%d04" % (base + sum(lengths), base, length_digits, place_digits)
    return leader + directory + b"".join(content for _, content in fields)


def fields(*pairs):
    return record([(b"0001", b"\x00\x00\x1e"), *((tag, content + b"\x1e") for tag, content in pairs if content)])


def plane(points):
    return b"".join(struct.pack("<ii", *point) for point in points)


def node(number, point):
    return fields((b"VRID", struct.pack("<BIHB", 120, number, 1, 1)), (b"SG2D", plane([point])))


def edge(number, ends, points=()):
    """An edge with pointers to nodes, given by their numbers and TOPI, and points between its nodes."""
    pointers = b"".join(struct.pack("<BIBBBB", 120, to, 255, 255, topi, 255) for to, topi in ends)
    return fields((b"VRID", struct.pack("<BIHB", 130, number, 1, 1)), (b"VRPT", pointers), (b"SG2D", plane(points)))


def from_to(number, first, last, points=()):
    return edge(number, [(first, 1), (last, 2)], points)
