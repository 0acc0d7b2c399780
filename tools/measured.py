"""Runs of a built program, and what each takes: time, memory, instructions."""
import hashlib
import os
import pathlib
import re
import resource
import shutil
import subprocess
import tempfile
import time
import typing

TOP = pathlib.Path(__file__).resolve().parent.parent
PROGRAM = str(TOP / "crates/ndnrepo/out/ndnrepo")
# No run is given more addresses than this, so that none takes the machine's memory away from others.
ROOM = 3_500_000_000


class Took(typing.NamedTuple):
    """How a run ended, its seconds, its greatest memory and what it wrote, in MB of 1,000,000 octets."""
    status: int
    user: float
    system: float
    elapsed: float
    memory: float
    written: float

    def time(self):
        return self.user + self.system


def lines_into(lines, file):
    """Writes the lines of a script, and says how many lines and octets it has. None of it is kept in memory."""
    count, octets = 0, 0
    with open(file, "wb") as script:
        for line in lines:
            octets += script.write(line.encode("latin-1") + b"\n")
            count += 1
    return count, octets


def run(program, words, script, seconds=300.0):
    """A run over this script. One that takes more than so many seconds of processor time is ended."""
    with tempfile.NamedTemporaryFile() as report:
        began = time.monotonic()
        child = os.fork()
        if child == 0:
            try:
                resource.setrlimit(resource.RLIMIT_AS, (ROOM, ROOM))
                resource.setrlimit(resource.RLIMIT_CPU, (int(seconds) + 1, int(seconds) + 2))
                os.dup2(os.open(script, os.O_RDONLY), 0)
                os.dup2(os.open(report.name, os.O_WRONLY | os.O_TRUNC), 1)
                os.execv(program, [program, *words])
            finally:
                os._exit(127)
        _, status, used = os.wait4(child, 0)
        return Took(os.waitstatus_to_exitcode(status), used.ru_utime, used.ru_stime, time.monotonic() - began,
                    used.ru_maxrss * 1024 / 1e6, os.path.getsize(report.name) / 1e6)


def least(program, words, script, enough=0.5, seconds=300.0):
    """The least of three runs, or of fewer: after one of so many seconds no other is made."""
    best = None
    for _ in range(3):
        took = run(program, words, script, seconds)
        best = took if best is None or took.time() < best.time() else best
        if took.status != 0 or took.time() > enough:
            break
    return best


def run_lines(program, lines, enough=0.5):
    """The least of some runs over these lines, each of which must end with 0."""
    with tempfile.NamedTemporaryFile() as script:
        lines_into(lines, script.name)
        took = least(program, ["run"], script.name, enough)
        if took.status:
            raise RuntimeError(f"a run ended with {took.status} after {took.time():.2f} s")
        return took


def spent():
    """The seconds of processor time that all runs so far have taken."""
    used = resource.getrusage(resource.RUSAGE_CHILDREN)
    return used.ru_utime + used.ru_stime


def counts_instructions():
    return shutil.which("valgrind") is not None


def instructions(program, lines, by_function=False):
    """How many instructions a run over these lines takes; or how many each function takes by itself."""
    with tempfile.TemporaryDirectory() as room:
        script, counts = os.path.join(room, "script"), os.path.join(room, "counts")
        lines_into(lines, script)
        with open(script, "rb") as given:
            ended = subprocess.run(["valgrind", "--tool=callgrind", f"--callgrind-out-file={counts}", program, "run"],
                                   stdin=given, stdout=subprocess.DEVNULL, stderr=subprocess.PIPE)
        if ended.returncode:
            raise RuntimeError(f"a counted run ended with {ended.returncode}")
        if by_function:
            return functions_of(counts)
        return int(re.search(rb"Collected : (\d+)", ended.stderr).group(1))


def functions_of(counts):
    """The instructions that each function takes by itself, of a file that callgrind wrote."""
    names, taken, now, is_call = {}, {}, None, False
    with open(counts, encoding="utf-8", errors="replace") as file:
        for line in file:
            if line.startswith("fn="):
                number, _, name = line[3:].strip().partition(" ")
                now = names.setdefault(number, name)
            elif line.startswith("cfn="):
                number, _, name = line[4:].strip().partition(" ")
                names.setdefault(number, name)
            elif line.startswith("calls="):
                is_call = True
            elif line[:1] in "0123456789+-*" and now is not None:
                # A line after `calls=` has what the called function takes, which is counted there.
                if not is_call:
                    taken[now] = taken.get(now, 0) + int(line.split()[1])
                is_call = False
    return taken


def machine():
    """The least seconds of three in which Python's hashlib takes SHA-256 of 100 MB: a measure of the machine."""
    octets, least = bytes(1_000_000), float("inf")
    for _ in range(3):
        digest, began = hashlib.sha256(), time.process_time()
        for _ in range(100):
            digest.update(octets)
        least = min(least, time.process_time() - began)
    return least
