#!/usr/bin/env python3
"""Shrinks a script over which two programs print different reports, or over which one fails, to a small one.

    python3 tools/shrink.py [--program 'FILE run'] [--against 'OTHER run'] [--alone] [--seconds 60] [--out FILE] SCRIPT
    python3 tools/shrink.py --inspect .. DIGITS

It says at which line the two differ first, and what each prints there. Then it drops lines, shortens contents, names
and octets and reduces numbers for as long as the same difference stays, and writes what is left to FILE, by default
SCRIPT.small. Differences are the same where the lines that differ have the same words, whatever their numbers, labels,
names and octets are. The program is the one that `rt run` has built, and the other is tools/model.py; `model` names
that one too. With --alone the program is compared with nothing, and the failure is that it ends otherwise than a script
may. The exit status is 0 where a difference was found, and 1 where there is none. It takes some seconds where both are
quick, and stops shrinking after a minute or so many seconds.
"""
import argparse
import os
import re
import shlex
import subprocess
import sys
import time
import traceback
from collections import namedtuple

sys.dont_write_bytecode = True
import model

BUILT = os.path.join(os.path.dirname(os.path.dirname(os.path.abspath(__file__))), "crates/ndnrepo/out/ndnrepo")


# ---- programs, and what they differ in

def program_of(command, word):
    """A function that gives the exit status, the output and the standard error of a command over an input."""
    if command == "model":
        return lambda octets: modelled(word, octets)
    words = shlex.split(command) if command else [BUILT, word]
    if not command and not os.path.exists(BUILT):
        sys.exit(f"there is no {BUILT}: build it by (cd crates/ndnrepo && rt run), or name another by --program")

    def ran(octets):
        it = subprocess.run(words, input=octets, stdout=subprocess.PIPE, stderr=subprocess.PIPE)
        return it.returncode, it.stdout, it.stderr
    return ran


def modelled(word, octets):
    """The same of tools/model.py, within this process."""
    out = []
    try:
        status = {"run": model.run, "inspect": model.inspect}[word](octets, out.append)
    except Exception:
        return 1, "".join(out).encode(), traceback.format_exc().encode()
    return status, "".join(out).encode(), b""


Difference = namedtuple("Difference", "at ours theirs")


def difference(program, against, octets):
    """The number of the first line of the reports that differs and what each program prints there, or None; without
    another program how the program ends, where it may not."""
    status, out, err = program(octets)
    if against is None:
        is_well = status in (0, 2, 6) and not (status == 0 and err)
        return None if is_well else Difference(out.count(b"\n") + 1, f"(it ends with {status})", "(it ends as it may)")
    status_there, out_there, _ = against(octets)
    if (status, out) == (status_there, out_there):
        return None
    ours = out.decode("latin-1").split("\n")[:-1] + [f"(it ends with {status})"]
    theirs = out_there.decode("latin-1").split("\n")[:-1] + [f"(it ends with {status_there})"]
    at = next(i for i in range(min(len(ours), len(theirs))) if ours[i] != theirs[i])
    return Difference(at + 1, ours[at], theirs[at])


def form(line):
    """A line of a report without what differs from run to run: numbers, labels, names and octets."""
    words = line.split()
    if words[:1] == ["vector"]:
        return "vector"
    codes = words[:1] and words[0] in ("insert", "block", "status", "delete", "order")
    return " ".join(word if codes and i == 2 else re.sub(r"^[0-9a-f]{8,}$|^[mc]?\d+$|^/.*", "_", word)
                    for i, word in enumerate(words))


def first_line(differs, lines):
    """How many of the first lines it takes to differ."""
    least, most = 1, len(lines)
    while least < most:
        middle = (least + most) // 2
        least, most = (least, middle) if differs(lines[:middle]) else (middle + 1, most)
    return least


# ---- shrinking

class Shrinking:
    """A list of lines over which the difference stays, and the time that is left for a smaller one."""

    def __init__(self, lines, differs, seconds):
        self.lines, self.differs, self.end = lines, differs, time.monotonic() + seconds

    def takes(self, lines):
        """Takes these lines where the difference stays."""
        if time.monotonic() > self.end or lines == self.lines or not self.differs(lines):
            return False
        self.lines = lines
        return True

    def drop(self):
        """Drops runs of lines, half of all first and single ones last."""
        size = len(self.lines) // 2
        while size:
            for at in range(len(self.lines) - size, -1, -size):
                rest = self.lines[:at], self.lines[at + size:]
                takes = self.takes(rest[0] + rest[1])
                if not takes and size == 1:
                    # Without a line that sent sync Interests, those after it have lesser numbers.
                    any(self.takes(rest[0] + [renumbered(line, n) for line in rest[1]]) for n in (1, 2, 3, 4, 5))
            size //= 2

    def shorten(self):
        """Shortens names wherever they stand, and then each word."""
        for name in sorted({word for line in self.lines for word in line.split(b" ")[1:] if word.startswith(b"/")}):
            for other in shorter(name):
                if self.takes([replaced(line, name, other) for line in self.lines]):
                    name = other
        for i in reversed(range(len(self.lines))):
            j = 1
            while j < len(self.lines[i].split(b" ")):
                words = self.lines[i].split(b" ")
                tries = ([*words[:j], other, *words[j + 1:]] for other in shorter(words[j]))
                if not any(self.takes([*self.lines[:i], b" ".join(it), *self.lines[i + 1:]]) for it in tries):
                    j += 1


def replaced(line, word, other):
    first, *words = line.split(b" ")
    return b" ".join([first] + [other if it == word else it for it in words])


def renumbered(line, fewer):
    words = line.split(b" ")
    if words[0] in (b"deliver", b"mdeliver", b"sync") and len(words) > 1 and words[1].isdigit():
        words[1] = b"%d" % max(int(words[1]) - fewer, 1)
    return b" ".join(words)


def lesser(n):
    """Numbers below one, the least first: few, and among them some close to it."""
    return sorted({k for k in [0, 1, 2, *(n - (n >> i) for i in range(1, n.bit_length() + 1))] if 0 <= k < n})


def shorter(word):
    """Words that may stand in place of a word and are shorter or less, the least first."""
    form, colon, content = word.partition(b":")
    if form == b"fill" and re.fullmatch(rb"[0-9]{1,9}:[0-9]+", content):
        count, octet = content.split(b":")
        return [b"text:", b"text:a"] + [b"fill:%d:%b" % (k, octet) for k in lesser(int(count))]
    if colon and form in (b"text", b"hex"):
        octet = 2 if form == b"hex" else 1
        cuts = [b"text:", b"text:a"] + [b"%b:%b" % (form, content[:octet * k]) for k in lesser(len(content) // octet)]
        return [it for it in cuts if len(it) < len(word)]
    if word.startswith(b"/"):
        parts = word[1:].split(b"/")
        fewer = [b"/" + b"/".join(parts[:i] + parts[i + 1:]) for i in range(len(parts)) if len(parts) > 1]
        cuts = [word[:k] for k in lesser(len(word)) if k > 1]
        return [it for it in [b"/", b"/a", *fewer, *cuts] if len(it) < len(word)]
    others = []
    if re.fullmatch(rb"(?:[0-9A-Fa-f]{2}){2,}", word):
        others = [b"00"] + [word[:2 * k] for k in lesser(len(word) // 2) if k]
    if re.fullmatch(rb"[0-9]{1,18}", word):
        others += [b"%d" % k for k in lesser(int(word))]
    return others


def kind(found):
    """What two differences must have in common to be one: the words of both lines, or of one where a report ends."""
    ends = [line for line in (found.ours, found.theirs) if line.startswith("(it ends with")] if found else []
    return found and (ends[:1] or [form(found.ours), form(found.theirs)])


def shrunk(program, against, octets, seconds, separator=b"\n"):
    """A small input over which the two differ as over this one; without a separator any octet may be dropped."""
    wanted = kind(difference(program, against, octets))

    def differs(units):
        return kind(difference(program, against, separator.join(units) + separator)) == wanted

    units = octets.split(separator) if separator else [octets[i:i + 1] for i in range(len(octets))]
    while units and not units[-1]:
        units.pop()
    if not differs(units):
        # The end of the last line matters.
        return octets
    it = Shrinking(units[:first_line(differs, units)] if separator else units, differs, seconds)
    before = None
    while it.lines != before:
        before = it.lines
        it.drop()
        if separator:
            it.shorten()
    return separator.join(it.lines) + separator


# ---- what is said

def described(program, against, octets, by_lines=True):
    """A difference in words: at which line of the script, at which of the report, and what each prints there."""
    found = difference(program, against, octets)
    where = f"line {found.at} of the report"
    lines = octets.split(b"\n")
    if by_lines:
        n = first_line(lambda some: difference(program, against, b"\n".join(some) + b"\n") is not None, lines)
        where = f"line {n} of the script, {where}\n    {cut(lines[n - 1].decode('latin-1'))}"
    return f"{where}\n    program: {cut(found.ours)}\n    against: {cut(found.theirs)}"


def cut(line):
    return line if len(line) <= 110 else f"{line[:80]}.. ({len(line)} octets)"


def shown(octets):
    lines = octets.decode("latin-1").removesuffix("\n").split("\n")
    return "\n".join("    " + cut(line) for line in lines[:20]) + ("\n    .." if len(lines) > 20 else "")


def asked_programs(asked):
    """The words of a command line that name the programs."""
    asked.add_argument("--program", help="by default what `rt run` has built; `model` is tools/model.py")
    asked.add_argument("--against", default="model", help="by default `model`")
    asked.add_argument("--alone", action="store_true", help="compare with nothing, and look at how the program ends")
    asked.add_argument("--inspect", action="store_true", help="the inputs are those of an inspector")


def programs(given):
    word = "inspect" if given.inspect else "run"
    return program_of(given.program, word), None if given.alone else program_of(given.against, word)


def main():
    asked = argparse.ArgumentParser(description=__doc__, formatter_class=argparse.RawDescriptionHelpFormatter)
    asked_programs(asked)
    asked.add_argument("--seconds", type=float, default=60)
    asked.add_argument("--out")
    asked.add_argument("script")
    given = asked.parse_args()
    program, against = programs(given)
    with open(given.script, "rb") as it:
        octets = it.read()
    if difference(program, against, octets) is None:
        print(f"{given.script}: nothing differs")
        return 1
    print(f"{given.script}: {described(program, against, octets, not given.inspect)}", flush=True)
    small = shrunk(program, against, octets, given.seconds, b"" if given.inspect else b"\n")
    out = given.out or given.script + ".small"
    with open(out, "wb") as it:
        it.write(small)
    print(f"{out}, of {small.count(10)} lines: {described(program, against, small, not given.inspect)}\n{shown(small)}")
    return 0


if __name__ == "__main__":
    sys.exit(main())
