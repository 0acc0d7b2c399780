#!/usr/bin/env python3
"""public_calls.py: compares the public calls that change a value with the calls that its laws go over.

A law over lists of calls holds in every value only if no public call is left out. So of each type below, every public
call that takes `&mut self`, or `self` and gives the value back, must be among its law's calls, or have the clause that
the value stays as it was. What is left out is printed, and so is a call of a law that is no public call. The exit
status is 0 where there is none.
"""
import glob
import os
import re
import sys

ROOT = os.path.dirname(os.path.dirname(os.path.abspath(__file__)))

# The type, and where its law has its calls: a data type of definitions, an enum of the code, or the list here. The list
# has of each call what carries it: a clause of the call itself, or, with `::`, a function of the crate's laws.
TYPES = {
    ("repo_member", "Member"): "data MemberCall",
    ("repo_mirror", "Mirror"): "data MirrorCall",
    ("repo_plan", "Plan"): "data Call",
    ("repo_watch", "Watchers"): "data WatchCall",
    ("live_member", "Live"): "enum LiveEvent",
    # After each call the world is that of the model after the event, or its mirrors are.
    ("bench_world", "World"): {
        "step": "ok",
        "take_event": "ok",
        "run_events": "ok",
        "settle": "world",
        "add_mirror": "ok",
        "mirror_deliver": "ok",
        "mirror_learns": "ok",
        "mirror_fetch": "fetched",
        "settle_mirrors": "settled",
    },
    ("repo_store", "Store"): {
        "put": "laws::put_packet_is_got",
        "put_reserved": "laws::put_packet_is_got",
        "put_shared": "laws::put_packet_is_got",
        "drop_parts": "laws::dropped_parts_are_gone",
        "drop_all": "laws::dropped_parts_are_gone",
        "reserve": "ok",
    },
    ("repo_catalog", "Catalogue"): {
        "add": "laws::added_entries_are_found",
        "add_reserved": "laws::added_entries_are_found",
        "add_all_reserved": "laws::entries_added_together_are_found",
        "remove": "laws::removed_entries_are_gone",
        "remove_all": "laws::entries_removed_together_are_gone",
        "reserve": "ok",
    },
    ("repo_process", "Processes"): {
        "start": "number",
        "block": "laws::blocks_stay_until_taken_back",
        "take_back": "laws::blocks_stay_until_taken_back",
        "published": "",
        "hand_over": "closed",
        "reopen": "",
        "clear": "",
    },
}
# Calls whose law's call has another name.
NAMED = {("Live", "publish_next"): "Publish"}
# Calls that take the value and give it back with another type, by the clause that it is the same.
SAME = {("Live", "widen"): "same"}


def read(path):
    with open(path, encoding="utf-8") as it:
        return it.read()


def codes(crate):
    return [read(it) for it in sorted(glob.glob(f"{ROOT}/crates/{crate}/src/**/*.rt", recursive=True))]


def changing_calls(crate, kind):
    """Returns the contract of each public call that changes such a value, by its name."""
    found = {}
    for code in codes(crate):
        for block in re.findall(rf"^impl(?:<[^{{]*?>)? {kind}\b(?! for)[^{{]*\{{\n(.*?)^\}}", code, re.M | re.S):
            for name, said in re.findall(r"^    pub fn (\w+)(.*?)^    \{", block, re.M | re.S):
                taken = re.search(r"\(\s*(&mut self|(?:mut )?self)\b", said)
                given = re.search(rf"->[^\n]*\b(Self|{kind})\b", said)
                if taken and (taken[1] == "&mut self" or given):
                    found[name] = said
    return found


def calls_of(crate, law):
    """Returns the calls that a law goes over, of a data type of the definitions or an enum of the code."""
    kind, name = law.split()
    if kind == "enum":
        body = re.search(rf"^pub enum {name} \{{\n(.*?)^\}}", "\n".join(codes(crate)), re.M | re.S)
        return re.findall(r"^    (\w+)(?: \{| ?\(|,)", body[1], re.M) if body else None
    for path in sorted(glob.glob(f"{ROOT}/crates/*/specs/**/*.antt", recursive=True)):
        own = f"/crates/{crate}/" in path
        body = re.search(rf"^pub data {name} : .*\n((?:  .*\n)+)", read(path), re.M)
        if body and (own or name != "Call"):
            return re.findall(r"^  (\w+) :", body[1], re.M)
    return None


def camel(name):
    return "".join(it.capitalize() for it in name.split("_"))


def carries(crate, contract, by):
    """Returns whether what is to carry a call is there: a function of the crate's laws, or a clause of the call."""
    if "::" in by:
        return any(re.search(rf"^pub fn {by.partition('::')[2]}\(", code, re.M) for code in codes(crate))
    return bool(re.search(rf"^\s+ensures {by} ?\{{" if by else r"^\s+ensures \{", contract, re.M))


def faults_of(crate, kind, law):
    calls, faults = changing_calls(crate, kind), []
    if not calls:
        return [f"{crate}: {kind} has no public call that changes it, so nothing was compared"]
    kept = {it for it, said in calls.items() if re.search(r"ensures (?:\w+ )?\{ self\.new ≡ self\.old \}", said)}
    kept |= {it for it in calls if (kind, it) in SAME and carries(crate, calls[it], SAME[kind, it])}
    if isinstance(law, dict):
        faults += [f"{kind}::{it} is in no law" for it in calls if it not in law and it not in kept]
        faults += [f"{kind}::{it} is carried by {by or 'its only clause'}, which isn't there"
                   for it, by in law.items() if it in calls and not carries(crate, calls[it], by)]
        return faults + [f"{kind}::{it} is listed here, and is no public call" for it in law if it not in calls]
    named = calls_of(crate, law)
    if named is None:
        return [f"{crate}: there is no {law}, so {kind}'s calls are in no law"]
    as_called = {it: NAMED.get((kind, it), camel(it)) for it in calls}
    faults += [f"{kind}::{it} is left out of {law}" for it in calls if as_called[it] not in named and it not in kept]
    return faults + [f"{law} has {it}, which is no public call" for it in named if it not in as_called.values()]


def main():
    faults, count = [], 0
    for (crate, kind), law in TYPES.items():
        faults += [f"{crate}: {it}" if not it.startswith(crate) else it for it in faults_of(crate, kind, law)]
        count += len(changing_calls(crate, kind))
    for it in faults:
        print(f"public_calls: {it}")
    print(f"public_calls: {count} calls of {len(TYPES)} types, {len(faults)} forgotten")
    return 1 if faults else 0


if __name__ == "__main__":
    sys.exit(main())
