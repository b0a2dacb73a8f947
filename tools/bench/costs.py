"""What one run of a program costs: instructions by callgrind, and the peak of its memory; and how costs grow."""
import json
import os
import re
import subprocess
import threading
from collections import namedtuple

READ, REFUSED, SLOW = 0, (1, 2), -9
SECONDS = 120  # that one run may take
Cost = namedtuple("Cost", "instructions status memory")


def instructions(words, text):
    """Returns (instructions, status); None where the run took too long."""
    command = ["valgrind", "--tool=callgrind", "--callgrind-out-file=" + os.devnull, *words]
    try:
        with open(text, "rb") as given:
            how = {"stdin": given, "stdout": subprocess.DEVNULL, "stderr": subprocess.PIPE}
            ran = subprocess.run(command, timeout=SECONDS, **how)
    except subprocess.TimeoutExpired:
        return None, SLOW
    found = re.search(rb"Collected : (\d+)", ran.stderr)
    return (int(found[1]) if found else None), ran.returncode


def peak(meter, words, text):
    """The least peak of memory in three runs, in bytes, the pages of files left out."""
    command = [meter, text, str(SECONDS), *words]
    kilobytes = [int(subprocess.check_output(command).split()[1]) for _ in range(3)]
    return min(kilobytes) * 1024


class Meter:
    """Counts what programs cost, and keeps the counts of the peers for as long as program and text stay the same."""

    def __init__(self, out):
        self.meter, self.file = os.path.join(out, "meter"), os.path.join(out, "counts.json")
        self.lock, self.counts = threading.Lock(), {}
        if os.path.exists(self.file):
            with open(self.file) as kept:
                self.counts = json.load(kept)

    def cost(self, words, text, is_peer):
        if not is_peer:
            return Cost(*instructions(words, text), peak(self.meter, words, text))
        key = " ".join(map(os.path.basename, [*words, text]))
        stamp = [os.stat(words[0]).st_mtime_ns, 0 if text == os.devnull else os.stat(text).st_mtime_ns]
        if self.counts.get(key, [None])[0] != stamp:
            self.keep(key, [stamp, *instructions(words, text), peak(self.meter, words, text)])
        return Cost(*self.counts[key][1:])

    def keep(self, key, count):
        with self.lock:
            self.counts[key] = count
            with open(self.file + ".new", "w") as new:
                json.dump(self.counts, new, indent=0)
            os.replace(self.file + ".new", self.file)


def slope(points):
    """Of the line through these points that fits best."""
    middle_x, middle_y = (sum(values) / len(points) for values in zip(*points))
    return sum((x - middle_x) * (y - middle_y) for x, y in points) / sum((x - middle_x) ** 2 for x, _ in points)
