"""Kills the program at any moment while it keeps commits in a journal, and opens what is left: killed.py ENC_CELL CELL TIMES

Each time a call of `keep` with twenty commits is killed after a part of the time that such a call takes, and then `keep` with an empty script must end with
status 0 and tell no fewer commits than before, and at most twenty more. Every third call isn't killed, and must have all its commits. It ends with status 1 at
the first journal that doesn't. A killed process leaves what it wrote; what a power cut leaves is the disk model's business, and isn't tried here."""

import random
import subprocess
import sys
import tempfile
import time
from pathlib import Path

program, cell, times = Path(sys.argv[1]).resolve(), Path(sys.argv[2]).resolve(), int(sys.argv[3])
COMMITS = 20


def kept(folder, script):
    """How many commits the journal had, by a call that isn't killed."""
    ended = subprocess.run([program, "keep", cell, "OUT", "journal", script], cwd=folder, capture_output=True)
    if ended.returncode != 0:
        sys.exit(f"status {ended.returncode}: {ended.stderr.decode().strip()}")
    return int(ended.stdout.split(b"\n", 1)[0].removeprefix(b"kept "))


with tempfile.TemporaryDirectory() as name:
    folder = Path(name)
    (folder / "empty").write_bytes(b"")
    (folder / "moves").write_text("".join(f"add vi {k} 1 d={k},{k},1\ncommit\ndel vi {k}\ncommit\n" for k in range(1, COMMITS // 2 + 1)))
    begun = time.monotonic()
    count = kept(folder, "moves") + COMMITS
    length = time.monotonic() - begun
    partial = 0
    for k in range(times):
        running = subprocess.Popen([program, "keep", cell, "OUT", "journal", "moves"], cwd=folder, stdout=subprocess.DEVNULL)
        whole = k % 3 == 2
        if not whole:
            time.sleep(random.uniform(0, 1.1 * length))
            running.kill()
        running.wait()
        now = kept(folder, "empty")
        if not (count + COMMITS if whole else count) <= now <= count + COMMITS:
            sys.exit(f"{now} commits behind {count}")
        partial += count < now < count + COMMITS
        # a journal that was left between two commits may end with half of a pair, which the next call finds refused
        if (now - count) % 2:
            (folder / "journal").unlink()
            now = 0
        count = now
    print(f"{times} calls, {partial} of them killed between two of their commits")
