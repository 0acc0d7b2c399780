#!/usr/bin/env python3
"""Measures the built program, and prints the tables of docs/FIGURES.md and docs/HOSTILE.md.

    python3 tools/figures.py [--program FILE] [--live FILE] [--seconds N] [--write] [TABLE ..]

Without names it makes all tables but `live`, which wants the program `ndnlive` besides. With --write the tables in the
two documents are replaced by these, where a comment names them, each as soon as it is made. A run of `costs` that would
take more than N seconds (12 by default, 5 times as long for a settle, and less once 20 times as long is over) is left
out. Instructions are counted by `valgrind --tool=callgrind`; where there is none the tables that need it are left out.
All takes some eight minutes of processor time, one run after the other, and at most 3.5 GB of memory. The exit status
is 1 where a table wasn't made.

    machine        seconds for a fixed load, by which two machines can be compared
    scripts        time and memory of some scripts
    settles        a settle, by objects and by members
    instructions   what publishing, settling, fetching and deleting take
    crates         in which crates the instructions of a generated script are
    products       lines that grow by a product, and for each of what       (docs/HOSTILE.md)
    random         scripts drawn at random, by fuzz.py                      (docs/HOSTILE.md)
    costs          the costliest script of each kind of line, by costs.py
    live           runs of a live group, by stress_live.py
"""
import argparse
import os
import pathlib
import platform
import re
import shlex
import subprocess
import sys
import tempfile
import time
import traceback

sys.dont_write_bytecode = True
import costs
import figure_scripts as scripts
import measured
import packets

TOP = measured.TOP
TABLES = {}


def table(*heads):
    """A table under its function's name: its heads, and a function that yields the cells of its rows."""
    def enter(make):
        TABLES[make.__name__] = (heads, make)
        return make
    return enter


def seconds(it):
    return f"{it:.2f} s"


def memory(it):
    return f"{it:.0f} MB"


def many(n):
    """A number of instructions in few digits."""
    for unit, word in ((1e9, "thousand million"), (1e6, "million")):
        if n >= unit:
            return f"{n / unit:.2f} {word}"
    return f"{n:,.0f}"


def each(n):
    return f"{n:,.0f}" if abs(n) >= 100 else f"{abs(n):.1f}"


@table("what", "measured")
def machine(given):
    yield "SHA-256 of 100 MB, by Python's hashlib, in one thread", seconds(measured.machine())
    yield "processors; their kind", f"{os.cpu_count()}; {platform.machine()}"
    yield "other work beside, as processes that wait for a processor (mean of a minute)", f"{os.getloadavg()[0]:.1f}"


@table("script", "workers", "user time", "of the system", "elapsed", "greatest memory")
def scripts_table(given):
    program = given.program
    example = (TOP / "examples/large_object.script").read_text().splitlines()
    for what, workers, lines in [
        ("8 members, 64 MiB in 42 objects, segments of 8,000 octets", "1", lambda: scripts.large(1)),
        ("the same", "4", lambda: scripts.large(4)),
        ("what `gen 16 2000 1` writes", "1 in place of its own", lambda: scripts.generated(program, 1)),
        ("the same", "as written, 4", lambda: scripts.generated(program)),
        ("49,000 empty objects of 16 members, and a settle", "1", lambda: scripts.empties(49_000)),
        ("`examples/large_object.script`", "as written", lambda: iter(example)),
    ]:
        took = measured.run_lines(program, lines(), enough=2)
        yield (what, workers, seconds(took.user), seconds(took.system), seconds(took.elapsed), memory(took.memory))


@table("members", "objects", "the settle, user time", "greatest memory")
def settles(given):
    for members, n in [(16, 500), (16, 1_000), (16, 2_000), (16, 4_000), (2, 2_000), (4, 2_000), (8, 2_000)]:
        without = measured.run_lines(given.program, scripts.objects(members, n, False))
        took = measured.run_lines(given.program, scripts.objects(members, n))
        yield str(members), f"{n:,}", seconds(max(took.user - without.user, 0)), memory(took.memory)


@table("what", "number", "instructions", "each")
def instructions(given):
    def taken(lines):
        return measured.instructions(given.program, lines)

    def cells(what, n, it):
        return what, f"{n:,}", many(it), each(it / n)

    for n in (1_000, 4_000):
        published = taken(scripts.segments(n))
        yield cells("an object of segments of one octet: publishing it, for each segment", n, published)
        yield cells("settling it between two members", n, taken(scripts.segments(n, ["settle 1"])) - published)
        fetches = ["deliver 1 m2"] + ["fetch m2 1 1 0"] * (2 + -(-n // 4096))
        yield cells("fetching it, by `fetch` lines", n, taken(scripts.segments(n, fetches)) - published)
        yield cells("deleting it", n, taken(scripts.segments(n, ["delete m1 c1 /o"])) - published)
    for n in (500, 2_000):
        published = taken(scripts.small(n))
        yield cells("objects of one segment: publishing them, for each object", n, published)
        yield cells("withdrawing each", n, taken(scripts.withdrawn(n)) - published)
    for n in (250, 1_000):
        published = taken(scripts.empties(n, False))
        yield cells("empty objects of 16 members: a settle, for each object", n, taken(scripts.empties(n)) - published)
    for n in (500, 2_000):
        published = taken(scripts.fetched("none", n))
        for who in ("member", "mirror"):
            it = taken(scripts.fetched(who, n)) - published
            yield cells(f"objects of one segment: a {who} fetches and lists them", n, it)


def crate_of(function):
    """The crate that a function stands in: its path begins with the crate's name. Functions of C have no path."""
    found = re.match(r"[<&(\[]*(?:mut |dyn )?([a-z][a-z0-9_]*)::", function)
    return found.group(1) if found else "the C library and the system"


@table("crate", "million instructions", "of 100")
def crates(given):
    taken = measured.instructions(given.program, scripts.generated(given.program, 1), by_function=True)
    of = {}
    for function, it in taken.items():
        of[crate_of(function)] = of.get(crate_of(function), 0) + it
    total = sum(of.values())
    yield "all", f"{total / 1e6:,.0f}", "100"
    rest = total
    for crate, it in sorted(of.items(), key=lambda pair: -pair[1]):
        if it < total / 100:
            break
        rest -= it
        yield f"`{crate}`" if " " not in crate else crate, f"{it / 1e6:,.0f}", f"{100 * it / total:.0f}"
    yield "all others", f"{rest / 1e6:,.0f}", f"{100 * rest / total:.0f}"


@table("line", "instructions", "for each")
def products(given):
    few, n, lines = 500, 2_000, 32
    asked = packets.interest(packets.text_name("/n"), True).hex()
    by_name = packets.interest(packets.text_name("/o/0")).hex()

    def taken(script):
        return measured.instructions(given.program, script)

    def slope(make):
        """What a line takes more for each of n than for each of few."""
        cost = {it: taken(make(it, lines)) - taken(make(it, 0)) for it in (few, n)}
        return (cost[n] - cost[few]) / lines / (n - few)

    def later(make):
        """What lines take after so many others, beside the same script without them."""
        return taken(make(n, lines)) - taken(make(n, 0))

    def moved(make):
        """What lines take by which entries move, less as many by which none does."""
        return taken(make(n, lines, True)) - taken(make(n, lines, False))

    yield "`ask` by a prefix", each(slope(lambda *k: scripts.asked_by_prefix(*k, asked))), \
        "part that the member holds whose name begins with it, at each line"
    yield "`told`", each(slope(scripts.told)), "entry of the member's catalogue, at each line"
    published = moved(scripts.published_before)
    yield "`publish`", each(published / lines / n), \
        "entry of the member's catalogue that stands after the new one, at each line"
    settled = moved(scripts.settled_before) - published
    yield "`settle` that brings one publication", each(settled / 2 / lines / n), \
        "entry of a member's catalogue that stands after the new one, at each line, for each member"
    yield "`delete` of a name that is listed, but not by the first entry", \
        each(moved(scripts.deleted) / lines / n), "entry that stands after, at each line"
    asking = later(lambda *k: scripts.deleted(*k, True, by_name)) - later(lambda *k: scripts.deleted(*k, True))
    yield "`delete`, once somebody asked by name", each(asking / lines / n), \
        "part that the member holds, at each line, besides"
    yield "`settle`", each(slope(scripts.lost)), \
        "part that 15 members and 4 mirrors want and nobody has, at each line, for all of them together"


@table("drawn by", "how many", "differ", "exit status, and how many")
def random(given):
    for words in (["--seed", "1", "--count", "100"], ["--inspect", "--seed", "1", "--count", "300"]):
        with tempfile.TemporaryDirectory() as room:
            program = f"{shlex.quote(given.program)} {'inspect' if '--inspect' in words else 'run'}"
            ran = subprocess.run([sys.executable, TOP / "tools/fuzz.py", "--program", program, "--keep", room, *words],
                                 capture_output=True, text=True)
        print(ran.stderr, end="", file=sys.stderr)
        n, differ, ends = re.search(r"(\d+) scripts, (\d+) differ; ends by status: \{(.*)\}", ran.stdout).groups()
        yield f"`tools/fuzz.py {' '.join(words)}`", n, differ, ends


@table(*costs.HEADS)
def costs_table(given):
    # One settle is one line: the whole is what somebody can ask for, so settles come first and are given more time.
    names = sorted(costs.KINDS, key=lambda name: not name.startswith("settle"))
    until = measured.spent() + 20 * given.seconds
    for name in names:
        most = given.seconds * (5 if name.startswith("settle") else 1)
        yield costs.measure(name, given.program, max(min(most, (until - measured.spent()) / 4), 1))


@table("what, over all runs", "measured")
def live(given):
    ran = subprocess.run([sys.executable, TOP / "tools/stress_live.py", "--program", given.live, "--runs", "100",
                          "--members", "16", "--objects", "200"], capture_output=True, text=True)
    print(ran.stderr, end="", file=sys.stderr)
    runs, least, middle, most = re.search(
        r"(\d+) runs ended as they must; seconds: least (\S+), middle (\S+), most (\S+)", ran.stdout).groups()
    entries, sent, unheard, idle, refused = re.search(
        r"(\d+) entries replay; of (\d+) news (\d+) were not heard; (\d+) claims found no part, and (\d+) entries",
        ran.stdout).groups()
    yield "runs that ended as they must, of 100", runs
    yield "elapsed time of a run: least, middle, most", f"{least} s, {middle} s, {most} s"
    for what, n in [("entries of journals, which all replay", entries), ("sync Interests for inboxes of others", sent),
                    ("of these, not heard before the settle", unheard), ("claims that found no part", idle),
                    ("entries that were refused", refused)]:
        yield what, f"{int(n):,}"


for given_name, name in (("scripts", "scripts_table"), ("costs", "costs_table")):
    TABLES[given_name] = TABLES.pop(name)
ORDER = ["machine", "scripts", "crates", "products", "settles", "instructions", "costs", "random", "live"]
COUNTED = {"instructions", "crates", "products"}


def made(name, given):
    heads, make = TABLES[name]
    yield costs.row(heads)
    yield "|---" * len(heads) + "|"
    for cells in make(given):
        yield costs.row(cells)


# What a document says in the place of a table, and after one that has some of its rows alone.
NOT_MADE = "This table was not made on this program.\n"
SOME_MADE = "\nOf the kinds that `--list` names only settles were measured on this program.\n"


def write(name, lines):
    """Puts a table into the documents, in the place of the one that stands under the comment that names it."""
    mark = f"<!-- python3 tools/figures.py {name} -->\n"
    for page in (TOP / "docs/FIGURES.md", TOP / "docs/HOSTILE.md"):
        text = page.read_text()
        if mark in text:
            before, _, after = text.partition(mark)
            after = re.sub(r"\A(\|[^\n]*\n)*", "", after.removeprefix(NOT_MADE)).removeprefix(SOME_MADE)
            page.write_text(before + mark + "".join(f"{line}\n" for line in lines) + after)
            return
    sys.exit(f"no document has a place for {name}")


def main():
    asked = argparse.ArgumentParser(description=__doc__, formatter_class=argparse.RawDescriptionHelpFormatter)
    asked.add_argument("--program", default=measured.PROGRAM)
    asked.add_argument("--live", default=str(TOP / "crates/ndnlive/out/ndnlive"))
    asked.add_argument("--seconds", type=float, default=12)
    asked.add_argument("--write", action="store_true", help="put the tables into the documents")
    asked.add_argument("tables", nargs="*", metavar="TABLE")
    given = asked.parse_args()
    given.program = str(pathlib.Path(given.program).resolve())
    for name in given.tables:
        if name not in TABLES:
            asked.error(f"no table {name}; there are {', '.join(ORDER)}")
    failed = 0
    for name in given.tables or ORDER:
        if name == "live" and not given.tables:
            continue
        if name in COUNTED and not measured.counts_instructions():
            print(f"{name}: there is no valgrind", file=sys.stderr)
            continue
        print(f"\n{name}\n", flush=True)
        began, lines = time.monotonic(), []
        try:
            for line in made(name, given):
                print(line, flush=True)
                lines.append(line)
        except Exception:
            traceback.print_exc()
            failed += 1
            continue
        print(f"{name}: {time.monotonic() - began:.0f} s", file=sys.stderr, flush=True)
        if given.write:
            write(name, lines)
    sys.exit(1 if failed else 0)


if __name__ == "__main__":
    main()
