#!/usr/bin/env python3
"""Measures what each kind of line costs at the limits of a script, and how that grows.

    python3 tools/costs.py [--program FILE] [--seconds N] [--list] [KIND ..]
    python3 tools/costs.py --write N KIND

For each kind it writes the costliest script that the limits allow, and runs the program on a sixteenth of its size, on
a quarter and on the whole. A size is left out where it would take more than N seconds (100 by default) if time went on
to grow as before; the row then says how many of how many were run, and what the whole would take. A row has the user
and system time of the whole run, the greatest memory, and the growth: how many times the time of the quarter that is.
What is linear takes 4 times as much, and what goes by the square 16 times. A run must end with the status that its kind
has. With --write the script of a kind is written, of the size that is named, and nothing is run. It wants Linux, and a
program that was built (`cd crates/ndnrepo && rt run`). All kinds take about five minutes on one processor.
"""
import argparse
import os
import sys
import tempfile

sys.dont_write_bytecode = True
import client_costs  # noqa: F401 (they enter their kinds)
import measured
import member_costs  # noqa: F401
import mirror_costs  # noqa: F401
import settle_costs  # noqa: F401
from cost_kinds import KINDS

HEADS = ("kind", "what", "number", "time", "greatest memory", "growth", "the whole")


def once(name, n, program, seconds):
    """The least of up to three runs of a kind of this size: what takes more than half a second is run once."""
    _, _, words, wanted, make = KINDS[name]
    with tempfile.TemporaryDirectory() as room:
        script = os.path.join(room, "script")
        lines, octets = measured.lines_into(make(n), script)
        if lines > 100_000 or octets > 16_777_216:
            sys.exit(f"{name}: a script of {lines} lines and {octets} octets")
        took = measured.least(program, [words], script, seconds=3 * seconds + 5)
        if took.status != wanted:
            print(f"{name}: a run of {n} ended with {took.status} after {took.time():.2f} s", file=sys.stderr)
        return took


def measure(name, program, seconds):
    """The cells of a row."""
    what, size = KINDS[name][:2]
    before, took, grows, n = None, None, 4.0, 0
    for share in (16, 4, 1):
        if took and took.time() * max(grows, 4.0) > seconds:
            break
        n, before = max(size // share, 1), took
        took = once(name, n, program, seconds)
        grows = took.time() / max(before.time(), 0.001) if before else 4.0
    is_sure = before is not None and before.time() >= 0.01
    left = {size: 0}.get(n, 1 if n >= size // 4 else 2)
    return (f"`{name}`", what, f"{n:,}" if n == size else f"{n:,} of {size:,}", f"{took.time():.2f} s",
            f"{took.memory:.0f} MB", f"{grows:.1f}" if is_sure else "-",
            f"{took.time() * max(grows, 4.0) ** left:,.0f} s" if left else "")


def row(cells):
    return f"| {' | '.join(cells)} |"


def rows(program, seconds, names=()):
    """The rows of a table of these kinds, or of all."""
    yield row(HEADS)
    yield "|---" * len(HEADS) + "|"
    for name in names or KINDS:
        yield row(measure(name, program, seconds))


def main():
    asked = argparse.ArgumentParser(description=__doc__, formatter_class=argparse.RawDescriptionHelpFormatter)
    asked.add_argument("--program", default=measured.PROGRAM)
    asked.add_argument("--seconds", type=float, default=100)
    asked.add_argument("--list", action="store_true", help="name the kinds")
    asked.add_argument("--write", type=int, metavar="N", help="write the script of one kind, of this size")
    asked.add_argument("kinds", nargs="*")
    given = asked.parse_args()
    for name in given.kinds:
        if name not in KINDS:
            asked.error(f"no kind {name}; --list names them")
    if given.list:
        for name in given.kinds or KINDS:
            print(f"{name:20} {KINDS[name][1]:8,} {KINDS[name][0]}")
    elif given.write is not None:
        if len(given.kinds) != 1:
            asked.error("--write wants one kind")
        for line in KINDS[given.kinds[0]][-1](given.write):
            print(line)
    else:
        for line in rows(given.program, given.seconds, given.kinds):
            print(line, flush=True)


if __name__ == "__main__":
    main()
