#!/usr/bin/env python3
"""Types scripts into `ndnlab transcript` and `ndnlab trace`, and sees that each line is answered before the next one is
given.

    python3 tools/typed.py PROGRAM FILE ..

A file is NAME.transcript or NAME.trace. The program's input stays open. After each line of the script this waits until
the program has written that line and the notes that stand after it in the file, at most 60 seconds.
"""
import os
import select
import subprocess
import sys
import time

SECONDS = 60


def read_exactly(pipe, octets):
    """So many octets of a pipe, or fewer where they don't come in time."""
    ends = time.monotonic() + SECONDS
    came = b""
    while len(came) < octets and select.select([pipe], [], [], max(0, ends - time.monotonic()))[0]:
        more = os.read(pipe.fileno(), octets - len(came))
        if not more:
            break
        came += more
    return came


def answers(written):
    """Each line of the script, and what is to be written of it: the line and its notes."""
    parts = []
    for line in written.splitlines(keepends=True):
        if line.startswith((b"#> ", b"#= ")):
            parts[-1][1] += line
        else:
            parts.append([line, line])
    return parts


def type_in(program, path):
    with open(path, "rb") as file:
        parts = answers(file.read())
    form = path.rpartition(".")[2]
    with subprocess.Popen([program, form], stdin=subprocess.PIPE, stdout=subprocess.PIPE, bufsize=0) as run:
        for line, wanted in parts:
            run.stdin.write(line)
            came = read_exactly(run.stdout, len(wanted))
            if came != wanted:
                run.kill()
                raise SystemExit(f"{path}: {line!r} was answered by {came!r}, and not by {wanted!r}")
        run.stdin.close()
        if run.stdout.read():
            raise SystemExit(f"{path}: more was written after the last line")


def main(program, paths):
    for path in paths:
        type_in(program, path)
    print(f"typed: {len(paths)} scripts were answered line by line")


main(sys.argv[1], sys.argv[2:])
