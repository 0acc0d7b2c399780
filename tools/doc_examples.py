#!/usr/bin/env python3
"""Runs the examples of README, docs/SCRIPT.md, docs/COMMANDS.md and docs/LAB.md, and compares what is printed with what
stands there.

    python3 tools/doc_examples.py [--program FILE | --program model | --lab FILE]

An example is a block of code, the word `prints`, and a block of what is printed; or a sentence that ends with
`ndnrepo gen ..` prints. A script that names no group follows the first block of its page. Two digits at the beginning
make an input of `inspect`. In LAB.md a sentence that ends with `prints` names the words of `ndnlab` and perhaps a file,
or means the last words that were named; a sentence that ends with a colon comes before a script, and may name its file.
With --lab, which names the program `ndnlab`, the examples of LAB.md are run, and else those of the other pages. The exit
status is 1 where something else is printed, or where a page has no example.
"""
import argparse
import pathlib
import re
import subprocess
import sys

TOP = pathlib.Path(__file__).resolve().parent.parent
PAGES = ("README.md", "docs/SCRIPT.md", "docs/COMMANDS.md")
# The exit status of the lab by the first word of what it prints last.
STATUSES = {"differs": 7, "refused": 2}


def pieces(text):
    """The blocks of code and the paragraphs between them, in order: whether it is code, and its text."""
    code, lines = False, []
    for line in text.split("\n") + [""]:
        if line.startswith("```"):
            yield code, "\n".join(lines)
            code, lines = not code, []
        elif not code and not line and lines:
            indented = all(it.startswith("    ") for it in lines)
            yield indented, "\n".join(it[4:] if indented else it for it in lines)
            lines = []
        elif code or line:
            lines.append(line)


def examples(text):
    """The words, the input and the wanted output of each example."""
    found = [it for it in pieces(text) if it[1]]
    first = next(it for is_code, it in found if is_code)
    for (before, given), (_, said), (after, wanted) in zip(found, found[1:], found[2:]):
        generated = re.search(r"`ndnrepo (gen [\d ]+)` prints$", said)
        if not after:
            continue
        if generated:
            yield generated.group(1).split(), "", wanted
        elif before and said == "prints":
            if re.match(r"[0-9a-f]{2} ", given):
                yield ["inspect"], given, wanted
            else:
                yield ["run"], given if given.startswith("group") else f"{first}\n{given}", wanted


def lab_examples(text):
    """The words, the input and the wanted output of each example of the lab."""
    files, words, name = {}, [], "script"
    found = [it for it in pieces(text) if it[1]]
    for (is_code, said), (after, block) in zip(found, found[1:]):
        named = re.findall(r"`ndnlab ([^`<]+?)(?: < ([\w.]+))?`", said)
        if is_code or not after or not (said.endswith(("prints", ":"))):
            words = named[-1][0].split() if named and not is_code else words
            continue
        if said.endswith(":"):
            words = named[-1][0].split() if named else words
            name = (re.findall(r"`(\w+\.script)`", said) or ["script"])[-1]
            files[name] = block
            continue
        if named:
            words, name = named[-1][0].split(), named[-1][1] or name
        given = files[name]
        change = re.match(r"With `(.+?)` in place of `(.+?)` in the last line", said.replace("\n", " "))
        if change:
            before, last = given.rsplit("\n", 1)
            given = f"{before}\n{last.replace(change[2], change[1])}"
        if words == ["transcript"]:
            files[name.replace(".script", ".transcript")] = block
        yield words, given, block


def all_examples(lab):
    """The examples of each page."""
    if lab:
        yield "docs/LAB.md", lab_examples((TOP / "docs/LAB.md").read_text())
        return
    for page in PAGES:
        yield page, examples((TOP / page).read_text())


def main():
    asked = argparse.ArgumentParser(description=__doc__, formatter_class=argparse.RawDescriptionHelpFormatter)
    asked.add_argument("--program", default=str(TOP / "crates/ndnrepo/out/ndnrepo"))
    asked.add_argument("--lab")
    given = asked.parse_args()
    program = [sys.executable, TOP / "tools/model.py"] if given.program == "model" else [given.lab or given.program]
    wrong = 0
    for page, found in all_examples(given.lab):
        same = 0
        for words, script, wanted in found:
            ran = subprocess.run([*program, *words], input=f"{script}\n".encode(), capture_output=True)
            ends = STATUSES.get(wanted.split("\n")[-1].split()[0], 0) if given.lab else 0
            if ran.returncode == ends and ran.stdout.decode() == f"{wanted}\n":
                same += 1
            else:
                wrong += 1
                print(f"{page}: the example that begins with {script[-200:]!r} prints {ran.stdout[-400:].decode()!r}")
        print(f"{page}: {same} examples print what stands there")
        wrong += not same
    sys.exit(1 if wrong else 0)


if __name__ == "__main__":
    main()
