#!/usr/bin/env python3
"""Computes the traces of scripts by the model of tools/model.py: each line, its report after `#> `, and after `#= `
what a member or a mirror is that was something else before.

    python3 tools/traces.py NAME ..      writes examples/NAME.trace of examples/NAME.script
    python3 tools/traces.py < SCRIPT     prints the trace of a script

No program of this repository is asked. `.ci/lab` compares these files with what `ndnlab trace` writes.
"""
import pathlib
import re
import sys

sys.dont_write_bytecode = True
from model import REFUSALS, Refused, World

EXAMPLES = pathlib.Path(__file__).resolve().parent.parent / "examples"


def keeps(mirror, pub):
    """A mirror keeps the packets of withdrawals, and of the objects that it asks for."""
    return pub.name is None or pub.is_under(mirror.publisher, mirror.prefix)


def counts(world, one):
    """How many parts it holds and wants, claimed ones among them, and how many entries it lists."""
    claims, one.claims = one.claims, {}
    wants = sum(1 for _ in one.wanted())
    one.claims = claims
    holds = sum(len(parts) for pub, parts in one.held.items() if one.node or keeps(one, pub))
    vector = "".join(f" {m.label}={n}" for m, n in zip(world.members, one.vector))
    return f"knows{vector} holds {holds} wants {wants} lists {len(one.listed())}"


def notes(world):
    """What is noted of each member and then of each mirror, once there was an event."""
    if not world.has_events:
        return []
    modes = [("steady" if m.heard is None else "suppressed", m) for m in world.members]
    return ([f"{m.label} {mode} until {m.due} {counts(world, m)}" for mode, m in modes]
            + [f"{m.label} {counts(world, m)}" for m in world.mirrors])


def trace(script):
    """The trace of a script without notes, within its limits."""
    world, last, written = World(), [], []
    for number, line in enumerate(re.findall(r"[^\n]*\n|[^\n]+", script.decode()), 1):
        body = line.removesuffix("\n")
        written.append(body + "\n")
        try:
            report = world.carry_out((body if body == line else body.removesuffix("\r")).encode())
        except Refused as refusal:
            word = str(refusal)
            written.append(f"#> foreign {number}\n" if word == "Foreign" else
                           f"#> refused {number} {1 + REFUSALS.index(word)} {word}\n")
            break
        written += [f"#> {said}\n" for said in report.splitlines()]
        now = notes(world)
        written += [f"#= {note}\n" for place, note in enumerate(now) if place >= len(last) or last[place] != note]
        last = now or last
    return "".join(written).encode()


def main(names):
    if not names:
        sys.stdout.buffer.write(trace(sys.stdin.buffer.read()))
    for name in names:
        (EXAMPLES / f"{name}.trace").write_bytes(trace((EXAMPLES / f"{name}.script").read_bytes()))


if __name__ == "__main__":
    main(sys.argv[1:])
