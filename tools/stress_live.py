#!/usr/bin/env python3
"""Runs `ndnlive live` many times, and replays the journals of each run.

    python3 tools/stress_live.py [--program FILE] [--runs N] [--members N] [--objects N] [--jobs N] [--seed N]
                                 [--seconds N]

Each run has an input of its own, drawn from the seed and the run's number: so many members, and objects of 1 to 6
segments, which members publish. A run fails where the program doesn't end in time or with status 0, or where
`check_journals.py` finds a journal that doesn't replay or a catalogue that isn't the join of all lists; its input and
output are kept then. In the end it tells how long runs took, and over all of them how many publications were told to
how many members and how many of these news were not heard, how many claims found no part, and how many entries were
refused.
"""
import argparse
import contextlib
import io
import os
import random
import subprocess
import sys
import tempfile
import time
from concurrent.futures import ProcessPoolExecutor

import check_journals


def drawn(seed, number, members, objects):
    """The lines of the input of a run."""
    draw = random.Random(seed * 1_000_003 + number)
    yield "group /stress/group"
    for m in range(members):
        yield f"member m{m} /stress/m{m} {draw.getrandbits(128):032x}"
    for n in range(objects):
        yield f"publish m{draw.randrange(members)} /stress/o/{n} 16 fill:{draw.randint(1, 96)}:{draw.randrange(256)}"


class Counts:
    """What came of runs."""

    def __init__(self):
        self.seconds, self.told, self.heard, self.idle, self.refused, self.entries = [], 0, 0, 0, 0, 0

    def of(self, printed, seconds, members, objects):
        """Of one run. A settle lets each member hear each other once more."""
        lines = printed.split("\n")
        self.seconds.append(seconds)
        self.told += objects * (members - 1)
        self.heard += sum(line.startswith("hear ") for line in lines) - members * (members - 1)
        self.idle += sum(line.startswith("claim ") and line.endswith(" none") for line in lines)
        self.refused += sum(line.endswith(" refused") for line in lines)
        self.entries += sum(int(line.split()[2]) for line in lines if line.startswith("journal "))
        return self

    def add(self, other):
        self.seconds += other.seconds
        self.told += other.told
        self.heard += other.heard
        self.idle += other.idle
        self.refused += other.refused
        self.entries += other.entries


def run(given, number):
    """One run: its counts, or why it failed."""
    text = "".join(f"{line}\n" for line in drawn(given.seed, number, given.members, given.objects))
    begun = time.monotonic()
    try:
        ended = subprocess.run([given.program, "live"], input=text.encode(), capture_output=True, timeout=given.seconds)
    except subprocess.TimeoutExpired:
        return None, kept(number, text, b"", f"no end within {given.seconds} s")
    seconds = time.monotonic() - begun
    if ended.returncode != 0:
        return None, kept(number, text, ended.stdout, f"status {ended.returncode}")
    try:
        with contextlib.redirect_stdout(io.StringIO()):
            check_journals.check(check_journals.Input(text.encode()), check_journals.printed_lines(ended.stdout))
    except check_journals.Wrong as why:
        return None, kept(number, text, ended.stdout, str(why))
    return Counts().of(ended.stdout.decode("ascii"), seconds, given.members, given.objects), None


def kept(number, text, printed, why):
    folder = tempfile.mkdtemp(prefix=f"stress-live-{number}-")
    with open(f"{folder}/input", "w", encoding="ascii") as it:
        it.write(text)
    with open(f"{folder}/printed", "wb") as it:
        it.write(printed)
    return f"run {number}: {why}; see {folder}"


def main():
    words = argparse.ArgumentParser(description=__doc__, formatter_class=argparse.RawDescriptionHelpFormatter)
    words.add_argument("--program", default=os.path.join(os.path.dirname(__file__), "../crates/ndnlive/out/ndnlive"))
    for word, number in (("runs", 1000), ("members", 16), ("objects", 200), ("jobs", 1), ("seed", 1), ("seconds", 120)):
        words.add_argument(f"--{word}", type=int, default=number)
    given = words.parse_args()
    counts, failed = Counts(), 0
    with ProcessPoolExecutor(given.jobs) as pool:
        for one, why in pool.map(run, [given] * given.runs, range(1, given.runs + 1)):
            if why:
                failed += 1
                print(why, flush=True)
            else:
                counts.add(one)
    seconds = sorted(counts.seconds)
    if seconds:
        middle = seconds[len(seconds) // 2]
        print(f"{len(seconds)} runs ended as they must; seconds: least {seconds[0]:.2f}, middle {middle:.2f}, most {seconds[-1]:.2f}")
        print(f"{counts.entries} entries replay; of {counts.told} news {counts.told - counts.heard} were not heard;"
              f" {counts.idle} claims found no part, and {counts.refused} entries were refused")
    sys.exit(f"{failed} runs failed" if failed else 0)


if __name__ == "__main__":
    main()
