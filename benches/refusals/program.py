"""Refuses each allocation of runs of `enc_cell` in turn, one a run, and prints how the runs ended: program.py PROGRAM REFUSE

REFUSE is the library that `refuse.rs` makes. The runs are those of RUNS below, on small cells. OUT is there before each run. A run is well where it ends
as one of these:

- out of memory, with nothing put and OUT as it was;
- a read fault, with nothing put and OUT as it was;
- a write fault, with a beginning of the report put and OUT as it was, or with the whole report put and OUT as it was or a beginning of its file;
- done, with the whole report put and OUT its file: the allocation decides nothing.

The status is 1 where one ended otherwise."""

import collections
import os
import subprocess
import sys
import tempfile
from pathlib import Path

program, refuse = (str(Path(it).resolve()) for it in sys.argv[1:])
BEFORE = b"what OUT was before\n"
AREA = "add fe 3 1 3 1 42 1 3 1 s=ve:3:1:1:255 s=ve:2:1:1:255 s=ve:4:2:1:255 s=ve:1:2:1:255\n"
CLOSED = "add ve 1 1 e=vc:1:255:255:1:255 e=vc:1:255:255:2:255"
TEXTS = {
    "NONE": "",
    "ORDER_0": "order\n",
    "ORDER_1": "order 1\n",
    "ORDER_2": "order 1 2 2 1\n",
    # an edge from a node to itself
    "CLOSED": f"add vc 1 1 p=0,0\n{CLOSED} p=0,100 p=100,0\ncommit\n",
    # a node is moved, and an area is added
    "MOVED": "view\nset vc 1 2 p=1,1\ncommit\n",
    "ADDED": f"view\n{AREA}commit\n",
    # a fault of form, a conflict with nothing, refusals by the cell, findings that are shown, a draft that is dropped, an edit of the head
    "EVERY": "commit\nadd vc 1 1 p=0,0\ncommit\nguard vc 2\ndel vc 9\ncommit\nset vc 1 2 p=50000,50000\ncommit\nlist 20\ndel ve 1\ndrop\nview\n"
    "set head edtn=2 updn=0 uadt=20240101 isdt=20240102 aall=1 comt=\ncommit\n",
    "ORDER_6": "order 1 1 1 1 1 1\n",
}
RUNS = [
    "check HEAD",
    "check SQUARE",
    "replay HEAD OUT ORDER_1 CLOSED",
    "replay SQUARE OUT ORDER_2 MOVED ADDED",
    "replay SQUARE OUT ORDER_6 EVERY",
    "room SQUARE OUT EVERY",
    "room SQUARE OUT MOVED ADDED",
    "make 1 OUT",
    "drill 1 2",
    "split BENT OUT 1 2 9 9",
    "join CUT OUT 1 9",
]


def run(words, number=0):
    """A run in which the allocation of a number is refused, or none: its status, what it put, what it said, and OUT behind it."""
    out = Path("OUT")
    out.write_bytes(BEFORE)
    refused = {"LD_PRELOAD": refuse, "REFUSE": str(number)} if number else {}
    try:
        it = subprocess.run([program, *words.split()], env=os.environ | refused, capture_output=True, timeout=60)
    except subprocess.TimeoutExpired:
        return "it didn't end", b"", b"refused\n", b""
    return it.returncode, it.stdout, it.stderr, out.read_bytes()


def in_order(words, text):
    """The words with which one thread does what `room` did, in the order that its report tells."""
    _, cell, out, *scripts = words.split()
    Path("ORDER").write_bytes(text.partition(b"\n")[0] + b"\n")
    return " ".join(["replay", cell, out, "ORDER", *scripts])


def expected(words, text, kept={}):
    """What a run puts and leaves where no memory is refused. For a room it is what one thread puts in the order that is told; where none is told,
    any beginning of nothing will do."""
    if words.startswith("room") and text:
        words = in_order(words, text)
        order = Path("ORDER").read_bytes()
    else:
        order = b""
    if (words, order) not in kept:
        status, put, said, left = run(words)
        assert status == 0, (words, status, said)
        kept[words, order] = put, left
    return kept[words, order]


def judged(words, status, text, out):
    """How a run ended, in words, and whether that is well."""
    whole, file = expected(words, text)
    same = out == BEFORE
    if status == 9 or status == 6:
        name = "out of memory" if status == 9 else "read fault"
        return name, not text and same
    if status == 7:
        if text != whole:
            return "write fault of the report", whole.startswith(text) and same
        return "write fault of the file", same or file.startswith(out)
    if status == 0:
        return "done", text == whole and out == file
    return f"status {status}", False


def refuse_all(words):
    """Refuses the allocations of a run in turn. Answers how many didn't end well."""
    ends = collections.Counter()
    bad = number = 0
    while True:
        number += 1
        status, text, said, out = run(words, number)
        if b"refused\n" not in said:
            break
        how, is_well = judged(words, status, text, out)
        ends[how] += 1
        if not is_well:
            bad += 1
            if bad <= 5:
                print(f"{words}: allocation {number}: {how}, put {len(text)} bytes, OUT {len(out)} bytes")
    print(f"{words}: {number - 1} allocations:", ", ".join(f"{count} {how}" for how, count in ends.most_common()), flush=True)
    return bad


def write_files():
    for name, text in TEXTS.items():
        Path(name).write_text(text)
    for words, name in (("make 1 OUT", "SQUARE"), ("replay SQUARE OUT ORDER_1 BEND", "BENT"), ("split BENT OUT 1 2 9 9", "CUT")):
        Path("BEND").write_text("set ve 1 2 e=vc:1:255:255:1:255 e=vc:2:255:255:2:255 p=0,100\ncommit\n")
        status, _, said, left = run(words)
        assert status == 0, (words, status, said)
        Path(name).write_bytes(left)
    Path("HEAD").write_bytes(Path("SQUARE").read_bytes()[:1785])


with tempfile.TemporaryDirectory() as folder:
    os.chdir(folder)
    write_files()
    bad = sum(refuse_all(words) for words in RUNS)
print(f"{bad} runs ended otherwise than they may")
sys.exit(bad > 0)
