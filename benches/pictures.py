"""Works a picture out apart from the program, and compares each element of it: pictures.py CELL REPORT PICTURE

CELL is a cell file, REPORT what `enc_cell check CELL` prints, PICTURE what `enc_draw CELL` prints. It takes nothing of the program's code: a file's
records are read here, and where they and the findings stand on the page follows docs/DECISIONS.md and the definitions in specs/ of `picture_places`
and `cell_picture`. It prints what differs, and ends with 1 where anything does. Points are (latitude, longitude)."""

import re
import struct
import sys
import xml.etree.ElementTree as ElementTree
from fractions import Fraction

GROUP1 = {42, 46, 57, 65, 71, 95, 154}
KINDS = {100: "fe", 110: "vi", 120: "vc", 130: "ve"}
LEFT, TOP, SIDE = 600, 900, 10_790
AT_PLACE, CONTACTS = {"BadCodes", "OpenRing", "MixedRing", "WrongTurn"}, {"Cross", "Touch", "Coincide"}


def records_of(data):
    """The fields of each record by their tags."""
    place = 0
    while place < len(data):
        length, base = int(data[place : place + 5]), int(data[place + 12 : place + 17])
        of_length, of_place = int(data[place + 20 : place + 21]), int(data[place + 21 : place + 22])
        found, at, step = {}, place + 24, 4 + of_length + of_place
        while at + step < place + base:
            size, start = int(data[at + 4 : at + 4 + of_length]), int(data[at + 4 + of_length : at + step])
            found[data[at : at + 4].decode()] = data[place + base + start : place + base + start + size - 1]
            at += step
        yield found
        place += length


def rows(form, content):
    return list(struct.iter_unpack("<" + form, content))


class Vector:
    def __init__(self, found):
        kind, number, _, _ = struct.unpack("<BIHB", found["VRID"])
        self.name = (KINDS[kind], number)
        self.ends = [((KINDS[kind], number), topi) for kind, number, _, _, topi, _ in rows("BIBBBB", found.get("VRPT", b""))]
        self.plane = rows("ii", found.get("SG2D", b""))
        self.soundings = [deep[:2] for deep in rows("iii", found.get("SG3D", b""))]


class Feature:
    def __init__(self, found):
        _, number, self.prim, _, self.objl, _, _ = struct.unpack("<BIBBHHB", found["FRID"])
        self.name = ("fe", number)
        self.spots = [((KINDS[kind], number), ornt) for kind, number, ornt, _, _ in rows("BIBBB", found.get("FSPT", b""))]
        texts = found.get("ATTF", b"").split(b"\x1f") if 302 == self.objl else []
        self.covered = any(text == b"\x12\x001" for text in texts)

    def filled(self):
        """How the feature is filled, if it is."""
        if self.prim != 3:
            return None
        return "group1" if self.objl in GROUP1 else "coverage" if self.objl == 302 and self.covered else None


class Cell:
    def __init__(self, data):
        found = list(records_of(data))[1:]
        self.title = next(r["DSID"][7:].split(b"\x1f")[0].decode() for r in found if "DSID" in r)
        self.lists = {kind: [] for kind in KINDS.values()}
        for record in (Vector(r) if "VRID" in r else Feature(r) for r in found if "VRID" in r or "FRID" in r):
            self.lists[record.name[0]].append(record)
        self.by_name = {record.name: record for kind in self.lists.values() for record in kind}
        places = [p for kind in ("vi", "vc", "ve") for v in self.lists[kind] for p in v.plane + v.soundings] or [(0, 0)]
        (self.south, self.north), (self.west, self.east) = ((min(one), max(one)) for one in zip(*places))

    def on_page(self, point):
        """North up, east to the right, in whole units, rounded down."""
        across, along = max(self.east - self.west, 1), max(self.north - self.south, 1)
        return LEFT + (point[1] - self.west) * SIDE // across, TOP + (self.north - point[0]) * SIDE // along

    def stroke(self, points):
        return [self.on_page(point) for point in points]

    def line(self, name):
        """The beginning node, the end node and the points of an edge that has one of each, each with one position."""
        edge = self.by_name.get(name)
        if name[0] != "ve" or edge is None:
            return None
        nodes = [[to for to, topi in edge.ends if topi == wanted] for wanted in (1, 2)]
        if [len(some) for some in nodes] != [1, 1]:
            return None
        first, last = (self.by_name.get(some[0]) if some[0][0] == "vc" else None for some in nodes)
        if first is None or last is None or len(first.plane) != 1 or len(last.plane) != 1:
            return None
        return first.name, last.name, first.plane + edge.plane + last.plane

    def strokes(self, name):
        """What is drawn of a record; of a feature, of the nodes and edges that it names."""
        record = self.by_name.get(name)
        if isinstance(record, Feature):
            return [stroke for to, _ in record.spots if to[0] != "fe" for stroke in self.strokes(to)]
        if record is None:
            return []
        if name[0] == "ve":
            line = self.line(name)
            return [self.stroke(line[2] if line else record.plane)]
        return [self.stroke([point]) for point in record.plane + record.soundings]

    def loops(self, feature):
        """The closed loops of a boundary one after the other, or nothing where it isn't such."""
        loops, open_loop = [], []
        for to, ornt in feature.spots:
            line = self.line(to)
            if line is None:
                continue
            first, last, points = line if ornt != 2 else (line[1], line[0], line[2][::-1])
            if open_loop and open_loop[-1][1] != first:
                return []
            open_loop.append((first, last, points))
            if last == open_loop[0][0]:
                loops.append([point for _, _, some in open_loop for point in some])
                open_loop = []
        return [] if open_loop else [self.stroke(loop) for loop in loops]

    def segment(self, name, number):
        line = self.line(name)
        return line[2][number - 1 : number + 1] if line else []

    def contact(self, first, second):
        """The common point of two segments, which is worked out on the page."""
        if len(first) != 2 or len(second) != 2:
            return []
        (p, q), (r, s) = first, second

        def turn(w):
            return (s[1] - r[1]) * (w[0] - r[0]) - (s[0] - r[0]) * (w[1] - r[1])

        def within(w):
            return turn(w) == 0 and min(r, s) <= w <= max(r, s)

        away = abs(turn(p)), abs(turn(q))
        if sum(away) == 0:
            return [self.stroke([p if within(p) else q if within(q) else r])]
        share = Fraction(away[0], sum(away))
        return [[tuple(int(a + (b - a) * share) for a, b in zip(self.on_page(p), self.on_page(q)))]]

    def place(self, line):
        """Where the finding of a line of the report is."""
        words = line.split()
        if words[0] == "ident":
            return []
        pair = words[0] == "pair"
        names = [(words[k], int(words[k + 1])) for k in ((1, 3) if pair else (1,))]
        kind, *numbers = words[2 * len(names) + 1 :]
        numbers = [int(number) for number in numbers]
        if kind == "Stacked":
            return [self.stroke(self.segment(names[0], numbers[0]))]
        if kind == "SelfMeet" or kind in CONTACTS:
            return self.contact(self.segment(names[0], numbers[0]), self.segment(names[-1], numbers[1]))
        if kind in AT_PLACE:
            return self.strokes(self.by_name[names[0]].spots[numbers[0] - 1][0])
        return self.strokes(names[0])


def middle(strokes):
    """Half way between the two middle points of the first stroke that has points."""
    for stroke in filter(None, strokes):
        return tuple((a + b) // 2 for a, b in zip(stroke[(len(stroke) - 1) // 2], stroke[len(stroke) // 2]))
    return None


def free_field(taken, point):
    """The first free field behind that of a point, of 27 by 40 fields in rows that run to and fro, and its middle."""
    order = [(row, column) for row in range(40) for column in (range(27) if row % 2 == 0 else range(26, -1, -1))]
    home = order.index((min((point[1] - TOP) // 270, 39), min((point[0] - LEFT) // 400, 26)))
    row, column = next(field for field in order[home + 1 :] + order[: home + 1] if field not in taken)
    taken.add((row, column))
    return LEFT + column * 400 + 200, TOP + row * 270 + 135


def drawn(cell, findings):
    """What is to be drawn: each element as its class, its title, its strokes or its place, and its text."""
    for feature in cell.lists["fe"]:
        if feature.filled():
            yield feature.filled(), f"rec fe {feature.name[1]}", cell.loops(feature), ""
    for kind, word in (("ve", "edge"), ("vc", "node"), ("vi", None)):
        for vector in cell.lists[kind]:
            yield word or ("sounding" if vector.soundings else "isolated"), f"rec {kind} {vector.name[1]}", cell.strokes(vector.name), ""
    taken = set()
    for number, line in enumerate(findings, 1):
        strokes = cell.place(line)
        at = middle(strokes)
        if at is None:
            continue
        if len(findings) > 500:
            yield "spot", line, [[at]], ""
            continue
        label = free_field(taken, at)
        yield "mark", line, strokes, ""
        yield "lead", line, [[at, label]], ""
        yield "label", line, label, str(number)
    for number, line in enumerate(findings, 1):
        yield "row", "", (600, 12_290 + 200 * number), f"{number} {line}"


def strokes_in(path):
    """The strokes of a path: each moves to its first point, and ends with a step of no length."""
    assert re.fullmatch(r"(M( \d+ \d+)+h0)*", path), path
    numbers = [[int(word) for word in part.split()] for part in path.replace("h0", "").split("M")[1:]]
    return [list(zip(some[::2], some[1::2])) for some in numbers]


def in_picture(root):
    """The elements of a picture behind its key and its frame, in the same form."""
    space = "{http://www.w3.org/2000/svg}"

    def parts(node, title):
        kind = node.get("class")
        if node.tag == space + "path":
            yield kind, title, strokes_in(node.get("d")), ""
        elif node.tag == space + "text":
            place = re.fullmatch(r"translate\( (\d+) (\d+)\)", node.get("transform"))
            yield kind, title, tuple(map(int, place.groups())), node.text.rstrip("\n")
        elif node.tag == space + "g":
            for part in list(node)[1:]:
                yield from parts(part, title)

    children = list(root)
    behind = max(k for k, node in enumerate(children) if node.get("class") == "corner")
    for node in children[behind + 1 :]:
        title = node.find(space + "title")
        yield from parts(node, "" if title is None else title.text.rstrip("\n"))


def around(cell, root, total):
    """What stands around the picture, and what is to stand there."""
    space = "{http://www.w3.org/2000/svg}"
    height = 12_290 + 200 * (total + 2)
    counted = f"{cell.title} " + " ".join(f"{kind} {len(cell.lists[kind])}" for kind in ("vi", "vc", "ve", "fe")) + f" findings {total}"
    corners = [node.text for node in root.iter(space + "text") if node.get("class") == "corner"]
    heading = [node.text for node in root.iter(space + "text") if node.get("class") == "heading"]
    sides = f" north {cell.north} west {cell.west}", f" south {cell.south} east {cell.east}"
    frame = [node.get("d") for node in root.iter(space + "path") if node.get("class") == "frame"]
    yield root.get("viewBox"), f"0 0 12000 {height}"
    yield (root.get("width"), root.get("height")), ("1200", str(height // 10))
    yield (root.find(space + "title").text, heading), (counted, [counted])
    yield corners[:2], list(sides)
    yield root.find(space + "desc").text.split(":")[1].split(".")[0], sides[0] + sides[1]
    yield frame, [f"M {LEFT} {TOP} {LEFT + SIDE} {TOP} {LEFT + SIDE} {TOP + SIDE} {LEFT} {TOP + SIDE}z"]


def main(cell_file, report_file, picture_file):
    with open(cell_file, "rb") as file:
        cell = Cell(file.read())
    with open(report_file, encoding="ascii") as file:
        lines = file.read().splitlines()
    findings = lines[2:-1]
    assert lines[1] == f"findings {len(findings)}" and lines[-1] == "end"
    root = ElementTree.parse(picture_file).getroot()
    wanted, found = list(drawn(cell, findings)), list(in_picture(root))
    pairs = [*around(cell, root, len(findings)), (len(found), len(wanted)), *zip(found, wanted)]
    differ = [pair for pair in pairs if pair[0] != pair[1]]
    for is_so, is_to_be in differ[:20]:
        print(f"{is_so}\n  is to be {is_to_be}")
    points = sum(len(stroke) for _, _, strokes, _ in wanted if isinstance(strokes, list) for stroke in strokes)
    print(f"{len(wanted)} elements, {points} points of strokes, {len(differ)} differ")
    return 1 if differ else 0


if __name__ == "__main__":
    sys.exit(main(*sys.argv[1:]))
