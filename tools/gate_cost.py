#!/usr/bin/env python3
"""gate_cost.py [COMMAND ..]: runs the command, `rt ci` where none is named, and prints what each crate costs it.
gate_cost.py --beside PID: the same of a run that has begun already, from now until it ends.

Costs are minutes of processor time. The processes that prove are looked at twice a second, so each counts for up to
half a second less than it took. With a kit whose `rt ci` keeps what an earlier run proved, that costs nothing: name
`rt ci --anew` there.
"""
import argparse
import os
import subprocess
import sys
import time

TICK = os.sysconf("SC_CLK_TCK")
KINDS = ("library", "tests", "second check", "edits")
# The crate whose library is the measure of a machine, and the seconds that it takes on a slow one.
MEASURE, SLOW = "ndn_sign", 57


def read(path):
    with open(path, encoding="utf-8", errors="replace") as it:
        return it.read()


def what_it_proves(pid):
    """Returns the crate and the kind of work of a process that proves or tests something, or None."""
    words = read(f"/proc/{pid}/cmdline").split("\0")
    where = os.path.basename(os.readlink(f"/proc/{pid}/cwd"))
    if "--crate-name" in words:
        crate = words[words.index("--crate-name") + 1]
        kept = words[words.index("--incremental") + 1] if "--incremental" in words else ""
        if where.startswith("rt-edit-"):
            # All edits of a crate are tried over one check more of the crate as it stands, and another one ends them.
            return crate, "second check" if kept.endswith("/seed") else "edits"
        return crate, "tests" if "--test" in words else "library"
    program = next((it for it in words if "/rt-run-" in it and "/bin/" in it), None)
    return program and (os.path.basename(program).removesuffix("_tests"), "tests")


class Costs:
    """The processes below one, with the processor time that each took when it was last seen."""

    def __init__(self, top):
        self.top, self.of, self.spent = top, {}, {}

    def look(self):
        parents, times = {}, {}
        for name in os.listdir("/proc"):
            if name.isdigit():
                try:
                    said = read(f"/proc/{name}/stat").rpartition(")")[2].split()
                except OSError:
                    continue
                parents[int(name)] = int(said[1])
                # Its own time and that of its children that have ended, and when it began.
                times[int(name)] = sum(map(int, said[11:15])) / TICK, said[19]
        for pid in parents:
            work = self.work_of(pid, parents, times)
            if work:
                self.spent[work] = times[pid][0]

    def work_of(self, pid, parents, times):
        """Returns the process and what it proves, where it is one that proves and stands below the top."""
        above = pid
        while above != self.top:
            above = parents.get(above, 0)
            if not above:
                return None
        key = pid, times[pid][1]
        if not self.of.get(key):
            try:
                self.of[key] = what_it_proves(pid)
            except (OSError, ValueError, IndexError):
                return None
        above = parents[pid]
        # A process that such a one started is in that one's time once it has ended.
        if not self.of[key] or self.of.get((above, times[above][1] if above in times else "")):
            return None
        return key, self.of[key]

    def table(self):
        """Returns the minutes of each crate by kind."""
        minutes = {}
        for (_, (crate, kind)), spent in self.spent.items():
            of = minutes.setdefault(crate, dict.fromkeys(KINDS, 0.0))
            of[kind] += spent / 60
        return minutes


def in_order(minutes):
    """Returns the crates as crates.txt has them, and then those that it doesn't have."""
    try:
        lines = read(f"{os.path.dirname(os.path.abspath(__file__))}/../crates.txt").splitlines()
    except OSError:
        lines = []
    named = [it.partition(":")[0].split()[0] for it in lines if ":" in it and not it.startswith("#")]
    return sorted(minutes, key=lambda it: (named.index(it) if it in named else len(named), it))


def print_table(minutes, total):
    print(f"| crate | {' | '.join(KINDS)} | all |")
    print("|---|" + "---|" * (len(KINDS) + 1))
    cell = lambda it: f"{it:.1f}" if it >= 0.05 else ""
    for crate in in_order(minutes):
        of = minutes[crate]
        print(f"| `{crate}` | {' | '.join(cell(of[kind]) for kind in KINDS)} | {sum(of.values()):.1f} |")
    sums = [sum(of[kind] for of in minutes.values()) for kind in KINDS]
    print(f"| all | {' | '.join(f'{it:.1f}' for it in sums)} | {sum(sums):.1f} |")
    if total:
        print(f"\n{total / 60:.1f} minutes in all, as the system counts, with `rt`, links and runs of programs.")
    measure = 60 * minutes.get(MEASURE, {}).get("library", 0)
    if measure:
        slow = sum(sums) * SLOW / measure
        print(f"\n`{MEASURE}`'s library took {measure:.0f} s. Where it takes {SLOW} s, all takes {slow:.0f} minutes.")
    else:
        print(f"\n`{MEASURE}`'s library wasn't proved in this run, so nothing is known of the machine.")


def main():
    words = argparse.ArgumentParser(description=__doc__, formatter_class=argparse.RawDescriptionHelpFormatter)
    words.add_argument("--beside", type=int, metavar="PID", help="a run that has begun")
    words.add_argument("command", nargs=argparse.REMAINDER, help="rt ci where there is none")
    said = words.parse_args()
    begun = None if said.beside else subprocess.Popen(said.command or ["rt", "ci"])
    costs, status, total = Costs(said.beside or begun.pid), 0, 0.0
    try:
        while True:
            costs.look()
            if begun:
                pid, how, used = os.wait4(begun.pid, os.WNOHANG)
                if pid:
                    status, total = os.waitstatus_to_exitcode(how), used.ru_utime + used.ru_stime
                    break
            elif not os.path.exists(f"/proc/{said.beside}"):
                break
            time.sleep(0.5)
    except KeyboardInterrupt:
        print("stopped: this is what was seen until now")
        status = 130
    print_table(costs.table(), total)
    return status


if __name__ == "__main__":
    sys.exit(main())
