#!/usr/bin/env python3
"""Joins the scripts of examples/ and their reports into transcripts: each line of a script, and its report after `#> `.

    python3 tools/transcripts.py [NAME ..]

Writes examples/NAME.transcript from NAME.script and NAME.report, of every script where none is named. How many lines
of the report belong to a line of the script follows from the words of both, as docs/SCRIPT.md has them, and no program
of this repository is asked. `.ci/examples` compares these files with what `ndnlab transcript` writes.
"""
import pathlib
import sys

EXAMPLES = pathlib.Path(__file__).resolve().parent.parent / "examples"
SILENT = {"group", "member", "client", "mirror"}
LISTS = {"catalogue", "mcatalogue", "told"}


def reported(verb, members, report):
    """How many of these lines of a report belong to a line of this verb."""
    if verb is None or verb in SILENT:
        return 0
    if verb == "summary":
        return members
    if not report or report[0].split(" ")[0] != verb:
        raise SystemExit(f"a line of {verb} has no report")
    return 1 + int(report[0].split(" ")[-1]) if verb in LISTS else 1


def is_end(number, line):
    """Whether this line of the report says that the script ends at the line of this number."""
    words = line.split(" ")
    return words[0] in ("refused", "foreign") and words[1] == str(number)


def transcript(script, report):
    """The lines of the transcript. After the line at which the script ends it has nothing."""
    lines, members = [], 0
    for number, line in enumerate(script, 1):
        lines.append(line)
        words = line.split()
        verb = words[0] if words and not words[0].startswith("#") else None
        if len(report) == 1 and is_end(number, report[0]):
            return lines + ["#> " + report[0]]
        members += verb == "member"
        count = reported(verb, members, report)
        lines += ["#> " + printed for printed in report[:count]]
        report = report[count:]
    if report:
        raise SystemExit(f"no line has this report: {report[0]}")
    return lines


def lines_of(path):
    """The lines of a file as they stand. Octets that are no ASCII are kept as they are."""
    return path.read_bytes().decode("latin-1").removesuffix("\n").split("\n")


def main(names):
    for path in sorted(EXAMPLES.glob("*.script")):
        if names and path.stem not in names:
            continue
        report = [line for line in lines_of(path.with_suffix(".report")) if line]
        lines = transcript(lines_of(path), report)
        path.with_suffix(".transcript").write_bytes("".join(line + "\n" for line in lines).encode("latin-1"))


main(sys.argv[1:])
