#!/usr/bin/env python3
"""mutants.py [CRATE ..]: tries the wrong bodies of mutants/ of these crates, or of all that have some. CRATE/WORD
stands for those of the crate whose name has the word.
mutants.py --texts [CRATE ..]: only sees, in a second, that each edit can still be made, those of must-fail/ too.

mutants/CRATE/NAME.edit is an edit as those in must-fail/, which the gate doesn't try. All is done in a copy of the
repository. Libraries that nobody built here are proved there first.

A function's proof sees only the contracts of others. So edits that change bodies of different functions are made
together, and one check of these functions (`rt check --only`) tries them, in which all others have a body that meets
any contract: each must be refused for a goal of its own. One that waits, since a function that it calls was refused, is
tried once more without that. What changes more than bodies, as a constant, is tried alone, on the laws (functions with
no body) that name it or else on all functions that do, and on the whole crate where these are proved. The last lines
count the edits, and say what processor time they took. The exit status is 0 where every one was refused.

--one-by-one has `rt must-fail` try each on its whole crate.
"""
import argparse
import os
import re
import resource
import shutil
import subprocess
import sys
import tempfile

ROOT = os.path.dirname(os.path.dirname(os.path.abspath(__file__)))
REFUSED, MISSED, BAD = "refused", "not refused", "bad"
FUNCTION = re.compile(r"( *)(?:pub(?:\([a-z]+\))? )?(?:const )?fn (\w+)")
CONSTANT = re.compile(r"(?m)^ *(?:pub(?:\([a-z]+\))? )?(?:const|static) (\w+):")
# A refusal that says little of a contract: a proof names what the edit took away.
NAMES = re.compile(r"has no field|is not in scope|has no `|was not admitted")
# A function without its body calls this in place of one, so that it meets any contract.
WITHOUT_BODY = """
ghost use Rattle.std.specs.Prelude.{◌≡◌, true, false};

mod without_body {
    unsafe extern "C" {
        pub safe fn any()
            ensures { true ≡ false };
    }
}
"""


class Edit:
    """A wrong body, with the functions that it changes or, where it is more than bodies, that name what it changes."""

    def __init__(self, crate, folder, name):
        self.crate, self.name, self.file = crate, name, f"{ROOT}/{folder}/{name}"
        self.changes, self.functions, self.is_alone, self.why = [], [], False, None
        path, old = None, None
        for line in open(self.file, encoding="utf-8").read().split("\n"):
            if line.startswith("file: "):
                path = line.removeprefix("file: ").strip()
            elif line.startswith("old: "):
                old = line.removeprefix("old: ")
            elif line.startswith("new:"):
                self.changes.append((path, old, line.removeprefix("new:").removeprefix(" ")))
                old = None
        texts, self.why = self.made_of({})
        if not self.why and all(read(crate, path) == text for path, text in texts.items()):
            self.why = "it changes nothing"

    def made_of(self, texts):
        """Returns the texts of the files with this edit, and why it can't be made of them, or None."""
        texts = {**texts}
        for path, old, new in self.changes:
            if path is None or old is None:
                return texts, "a 'new:' line stands before any 'file:' or 'old:' line"
            if not os.path.isfile(f"{ROOT}/crates/{self.crate}/{path}"):
                return texts, f"there is no file {path}"
            text = texts.get(path) or read(self.crate, path)
            if text.count(old) != 1:
                return texts, f"its old text is there {text.count(old)} times, and not once: {old.strip()}"
            texts[path] = text.replace(old, new)
        return texts, None if self.changes else "it has no 'new:' line"

    def look(self, functions):
        """Finds the functions that it changes, or those that see what it changes, among the functions of the crate."""
        texts = {}
        for path, old, new in self.changes:
            text = texts.get(path) or read(self.crate, path)
            line = text[: text.index(old)].count("\n")
            texts[path] = text.replace(old, new)
            inside = [it[0] for it in functions_of(path, text) if it[2] < line < it[3]]
            if inside:
                self.functions += inside
                continue
            self.is_alone = True
            named = [it[0].split("::")[-1] for it in functions_of(path, text) if it[1] <= line <= it[3]]
            above = CONSTANT.findall("\n".join(text.split("\n")[: line + 1]))
            self.functions += those_that_name((named or above)[-1:], functions)
        self.functions = sorted({*self.functions})


def read(crate, path):
    return open(f"{ROOT}/crates/{crate}/{path}", encoding="utf-8").read()


def edits_of(crate, folder):
    """Returns the crate's edits in a folder of the repository."""
    names = sorted(os.listdir(f"{ROOT}/{folder}")) if os.path.isdir(f"{ROOT}/{folder}") else []
    return [Edit(crate, folder, it) for it in names if it.endswith(".edit")]


def owner_of(header):
    """Returns what the prover calls the type of an impl, with the trait's name after it, or a trait."""
    said, depth = re.sub(r"'\w+(?:, )?", "", re.sub(r"^.*?(impl|trait)\b", "", header)), 0
    for at, letter in enumerate(said):
        depth += (letter == "<") - (letter == ">" and said[at - 1] != "-")
        if depth == 0:
            said = said[at + 1 :] if letter == ">" else said
            break
    trait, _, typ = said.rpartition(" for ")
    words = [it.split("::")[-1] for it in re.findall(r"[\w:]{2,}", trait)]
    return re.match(r"\W*([\w:]+)", typ)[1].split("::")[-1] + "".join(it for it in words if it != "Drop")


def functions_of(path, text):
    """Yields each function of a source file: the end of its name, its first line, those of its body, and its text."""
    module = [it for it in path.removeprefix("src/").removesuffix(".rt").split("/") if it not in ("lib", "mod")]
    owner, lines = "", text.split("\n")
    for at, line in enumerate(lines):
        if re.match(r"(?:pub(?:\([a-z]+\))? )?(?:impl|trait)\b", line):
            owner = owner_of(" ".join(lines[at:]).partition("{")[0])
        found = FUNCTION.match(line)
        if found:
            indent = found[1]
            ends = next((i for i in range(at + 1, len(lines)) if FUNCTION.match(lines[i])), len(lines))
            opens = next((i for i in range(at, ends) if re.match(indent + r"(?! ).*[{}]$", lines[i])), None)
            if opens is None:
                continue
            closes = opens if not lines[opens].endswith("{") else lines.index(indent + "}", opens)
            name = [owner, found[2]] if indent else [*module, found[2]]
            yield "::".join(name), at, opens, closes, "\n".join(lines[at : closes + 1])


def sources_of(crate):
    """Returns the paths of the crate's source files."""
    folder = f"{ROOT}/crates/{crate}"
    return [os.path.relpath(f"{at}/{name}", folder) for at, _, names in os.walk(f"{folder}/src") for name in names]


def functions_in(crate):
    """Returns the functions of the crate and their texts, and its constants and theirs."""
    found = []
    for path in sources_of(crate):
        text = read(crate, path)
        found += [(it[0], it[4]) for it in functions_of(path, text)]
        found += [(f"const {name}", said) for name, said in re.findall(r"(?ms)^[^\n/]*const (\w+)(:.*?);$", text)]
    return found


def those_that_name(names, functions):
    """Returns the functions that name one of these, or a constant that does; only those without a body if there are."""
    word = re.compile(rf"\b({'|'.join(names)})\b")
    found = {it: text for it, text in functions if names and word.search(text)}
    more = {it.removeprefix("const ") for it in found if it.startswith("const ")} - {*names}
    if more:
        return those_that_name([*names, *more], functions)
    laws = [it for it, text in found.items() if re.search(r"\{\s*\}$", text)]
    return laws or [it for it in found if " " not in it]


def link_or_copy(one, other):
    """Gives a kept file a second name: a check replaces such a file, and writes into none."""
    try:
        os.link(one, other)
    except OSError:
        shutil.copy2(one, other)


def copy_kept(one, other):
    """Copies a file of a check's kept work, the proofs, which are most of it and are never changed, by links."""
    return (link_or_copy if one.endswith(".oantt") else shutil.copy2)(one, other)


def copy_to(room):
    """Copies what a check reads, with what it kept, and no edits."""
    for name in ("crates.txt", "HANDLES"):
        shutil.copyfile(f"{ROOT}/{name}", f"{room}/{name}")
    os.mkdir(f"{room}/.git")
    for crate in os.listdir(f"{ROOT}/crates"):
        one, other = f"{ROOT}/crates/{crate}", f"{room}/crates/{crate}"
        # (a module of a crate may be named out, so its proofs may be too)
        shutil.copytree(one, other, ignore=lambda at, names: ["out", "must-fail"] if at == one else [])
        for kept, by in (("rlib", link_or_copy), ("incremental", copy_kept)):
            if os.path.isdir(f"{one}/out/{kept}"):
                shutil.copytree(f"{one}/out/{kept}", f"{other}/out/{kept}", copy_function=by)


def without_bodies(path, text, functions):
    """Returns the text with a body that meets any contract for each function but these, and the functions' names."""
    lines, lost = text.split("\n"), []
    for name, at, opens, closes, said in reversed([*functions_of(path, text)]):
        if name not in functions and opens < closes and not re.match(r".*const fn|\s*fn drop", said):
            lines[opens + 1 : closes] = ["crate::without_body::any();", "unreachable!()"]
            lost.append(name)
    return "\n".join(lines), lost


def put_back(room, crate):
    """Gives a crate of the copy the texts that it has in the repository."""
    for part in ("src", "specs", "proofs", "c"):
        shutil.rmtree(f"{room}/crates/{crate}/{part}", ignore_errors=True)
        if os.path.isdir(f"{ROOT}/crates/{crate}/{part}"):
            shutil.copytree(f"{ROOT}/crates/{crate}/{part}", f"{room}/crates/{crate}/{part}")


def take_bodies(folder, functions):
    """Leaves only these functions of a crate their bodies and proofs."""
    lost = []
    for path in [f"{at}/{name}" for at, _, names in os.walk(f"{folder}/src") for name in names]:
        with open(path, "r+", encoding="utf-8") as it:
            text, more = without_bodies(os.path.relpath(path, folder), it.read(), functions)
            it.seek(0)
            it.write(text + (WITHOUT_BODY if path == f"{folder}/src/lib.rt" else ""))
            it.truncate()
        lost += more
    for at, _, names in os.walk(f"{folder}/proofs"):
        parts = os.path.relpath(at, f"{folder}/proofs").split("/")
        if "::".join(parts[-2:] if parts[-2:][0][0].isupper() else parts) in lost:
            for name in {"Answers.antt", "Invariants.antt"} & {*names}:
                os.remove(f"{at}/{name}")
    os.mkdir(f"{folder}/c")
    open(f"{folder}/c/none.c", "w", encoding="utf-8").write("int none;\n")


def checked(room, crate, edits, functions):
    """Makes the edits in the copy, and returns what a check of these functions, or of the whole crate, printed."""
    texts, folder = {}, f"{room}/crates/{crate}"
    for edit in edits:
        texts, _ = edit.made_of(texts)
    for path, text in texts.items():
        with open(f"{folder}/{path}", "w", encoding="utf-8") as it:
            it.write(text)
    if functions:
        take_bodies(folder, functions)
    how = {"env": {**os.environ, "RT_ALLOW_C": crate}, "stdin": subprocess.DEVNULL, "capture_output": True}
    words = ["rt", "check", "--jobs", "1", *[f"--only={it}" for it in functions]]
    ran = subprocess.run(words, cwd=folder, text=True, errors="replace", **how)
    put_back(room, crate)
    return ran.stdout + ran.stderr


def is_read(output):
    """Returns whether the prover could read the edited text: only then is what it refuses a refusal."""
    texts = re.findall(r"(?m)^(?:\./)?(?:src|specs)/\S+:\d+:\d+: error: (.*)", output)
    unread = [it for it in texts if not it.startswith("`") or NAMES.search(re.sub(r"`[^`]*`", "``", it))]
    return bool(re.search(r"(?m)^(only=\d+ proved=|logic=(not-)?proved)", output)) and not unread


def verdict_of(crate, function, output):
    """Returns what a check says of the function and its closures, None where it waits for another, and why."""
    parts = function.split("::")
    above = r"(?:\w+/)*" if parts[0][0].isupper() else "".join(f"{it}/" for it in parts[:-1])
    own = "/".join(parts if parts[0][0].isupper() else parts[-1:])
    place = f"{above}(?:{own}|fn/{own}/[^:\\s]+?)"
    lines = re.findall(rf"(?m)^fn {crate}::{place.replace('/', '::')}: (.*)", output)
    if not lines:
        return BAD, f"the check says nothing of a function {function}"
    if all(it.startswith("proved") for it in lines):
        return MISSED, f"{function} is still proved"
    open_goals = [it for line in lines for it in re.findall(r"`search` did not prove (`[^`]*`)", line)]
    errors = re.findall(rf"(?m)^(?:\./)?(proofs/{place}/\w+\.antt:\d+:\d+: error: .*(?:\n  .*)?)", output)
    errors = [it.replace("\n ", "") for it in errors]
    told = [it for it in errors if not NAMES.search(it)]
    if open_goals or told:
        return REFUSED, f"{function}: {(open_goals + told)[0]}"
    if any("it calls" in it for it in lines):
        return None, f"{function} waits: {lines[-1]}"
    if any(it.startswith("could not tell") for it in lines):
        return BAD, f"the prover could not tell of {function}"
    few = "only because a proof names what the edit took away: change a value and keep the names: " if errors else ""
    return REFUSED, f"{function}: {few}{(errors + lines)[0]}"


def judged(crate, edit, output):
    """Returns what a check says of an edit, by the functions that it changes, and why."""
    found = [verdict_of(crate, it, output) for it in edit.functions]
    return next(it for kind in (REFUSED, BAD, None, MISSED) for it in found if it[0] == kind)


def judged_alone(room, crate, edit):
    """Returns the same of an edit that a check of the whole crate tries."""
    output = checked(room, crate, [edit], [])
    if not is_read(output):
        return BAD, "it doesn't come to the prover:\n    " + "\n    ".join(output.split("\n")[:6])
    told = re.findall(r"(?m)^(?:note: )?\S+:\d+:\d+:.*", output)
    told = [it for it in told if ": error" in it or it.startswith("note: ")] or ["the crate is not proved"]
    return (MISSED, "the crate is still proved") if "\nlogic=proved" in output else (REFUSED, told[0])


def others(crate, edits, output):
    """Returns the functions that are not proved for a goal of their own, though no edit changes them."""
    mine = {it for edit in edits for it in edit.functions}
    found = re.findall(r"(?m)^fn \S+?::(\S+): (?:not proved|no proof)(.*)", output)
    found = [it for it, why in found if "it calls" not in why and "::fn::" not in it]
    return [it for it in found if not any(it.endswith(name) for name in mine)]


def round_of(room, crate, edits):
    """Tries edits together and returns what came of each. They are parted where the prover doesn't read them all."""
    output = checked(room, crate, edits, sorted({it for edit in edits for it in edit.functions}))
    if is_read(output):
        for it in [] if edits[0].is_alone else others(crate, edits, output):
            print(f"{crate}: {it} is not proved, though no edit changes it", flush=True)
        return [(it, *judged(crate, it, output)) for it in edits]
    if len(edits) > 1:
        half = len(edits) // 2
        return round_of(room, crate, edits[:half]) + round_of(room, crate, edits[half:])
    return [(edits[0], *judged_alone(room, crate, edits[0]))]


def together(edits):
    """Returns edits that one check can try: the first, and those that change other functions than these."""
    found, functions, texts = [], set(), {}
    for edit in edits:
        more, why = edit.made_of(texts)
        if not found or not (why or edit.is_alone or found[0].is_alone or functions & {*edit.functions}):
            found, functions, texts = [*found, edit], functions | {*edit.functions}, more
    return found


def decided(room, crate, left):
    """Tries the next of the edits that are left, and returns those that are then decided, with what they came to."""
    now = together(left)
    said = round_of(room, crate, now) if now[0].functions else [(now[0], None, "")]
    waits = not any(verdict for _, verdict, _ in said)
    is_open = lambda edit, verdict: waits or edit.is_alone and verdict == MISSED
    said = [(it[0], *judged_alone(room, crate, it[0])) if is_open(*it[:2]) else it for it in said]
    return [it for it in said if it[1]]


def tried(room, crate, edits):
    """Tries a crate's edits in rounds in the copy, prints a line for each, and returns what each came to."""
    functions, found, rounds = functions_in(crate), [], 0
    for it in edits:
        if not it.why:
            it.look(functions)
    left, said = sorted(edits, key=lambda it: it.is_alone), [(it, BAD, it.why) for it in edits if it.why]
    while left:
        rounds += not said
        for edit, verdict, why in said or decided(room, crate, left):
            found.append(verdict)
            print(f"{crate}/{edit.name}: {verdict if verdict == REFUSED else verdict.upper()}: {why}", flush=True)
            left.remove(edit)
        said = []
    print(f"{crate}: {found.count(REFUSED)} of {len(edits)} refused, in {rounds} checks", flush=True)
    return found


def verdict(line):
    """Returns what a line of `rt must-fail` says of an edit, or None."""
    said = re.match(r"(?:rt: )?must-fail \S+: (refused|NOT REFUSED|BAD EDIT|NOT TRIED)", line)
    return said and {"refused": REFUSED, "NOT REFUSED": MISSED}.get(said[1], BAD)


def tried_one_by_one(room, crate, edits):
    """Has `rt must-fail` try a crate's edits in the copy, prints a line for each, and returns what each came to."""
    into = f"{room}/crates/{crate}/must-fail"
    os.mkdir(into)
    for it in edits:
        shutil.copyfile(it.file, f"{into}/{it.name}")
    how = {"stdout": subprocess.PIPE, "stderr": subprocess.STDOUT, "text": True, "errors": "replace"}
    run = subprocess.Popen(["rt", "must-fail", crate], cwd=room, **how)
    found, last, goes_on = [], "", False
    for line in run.stdout:
        last = line.rstrip() or last
        if verdict(line):
            found.append(verdict(line))
            print(last.removeprefix("rt: must-fail "), flush=True)
            # What the compiler said of one that isn't code stands on the lines after it.
            goes_on = found[-1] == BAD
        elif goes_on and not line.startswith("rt: "):
            print(f"    {last}", flush=True)
    run.wait()
    if len(found) < len(edits):
        print(f"{crate}: {len(edits) - len(found)} of its edits were not tried: {last}", flush=True)
    return found + [BAD] * (len(edits) - len(found))


def see_texts(crates):
    """Sees whether each edit of these crates can be made, those that the gate tries too."""
    count = bad = 0
    for crate in crates:
        for folder in (f"crates/{crate}/must-fail", f"mutants/{crate}"):
            for name in sorted(os.listdir(f"{ROOT}/{folder}")) if os.path.isdir(f"{ROOT}/{folder}") else []:
                why = Edit(crate, folder, name).why if name.endswith(".edit") else "its name doesn't end in .edit"
                count, bad = count + 1, bad + (why is not None)
                if why:
                    print(f"{folder}/{name}: {why}")
    print(f"edits: {count - bad} can be made, {bad} can't")
    return 1 if bad else 0


def main():
    words = argparse.ArgumentParser(description=__doc__, formatter_class=argparse.RawDescriptionHelpFormatter)
    words.add_argument("--texts", action="store_true", help="only see that each can be made")
    words.add_argument("--one-by-one", action="store_true", help="try each on its whole crate, by `rt must-fail`")
    words.add_argument("--must-fail", action="store_true", help="try those of must-fail/ too")
    words.add_argument("crates", nargs="*", metavar="CRATE")
    said = words.parse_args()
    crates = sorted(os.listdir(f"{ROOT}/crates"))
    for crate in [*[it.partition("/")[0] for it in said.crates], *os.listdir(f"{ROOT}/mutants")]:
        if crate not in crates:
            sys.exit(f"mutants: {crate} is no crate of this repository")
    if said.texts:
        return see_texts(said.crates or crates)
    found, tries = [], tried_one_by_one if said.one_by_one else tried
    with tempfile.TemporaryDirectory(prefix="mutants-") as room:
        copy_to(room)
        for one in said.crates or crates:
            crate, _, word = one.partition("/")
            edits = edits_of(crate, f"mutants/{crate}")
            edits += edits_of(crate, f"crates/{crate}/must-fail") if said.must_fail else []
            edits = [it for it in edits if word in it.name]
            if said.crates and not edits:
                sys.exit(f"mutants: {one} has no edits there")
            found += tries(room, crate, edits) if edits else []
    used = resource.getrusage(resource.RUSAGE_CHILDREN)
    print(f"{found.count(REFUSED)} refused, {found.count(MISSED)} not refused, {found.count(BAD)} bad")
    print(f"processor time: {(used.ru_utime + used.ru_stime) / 60:.1f} minutes")
    return 0 if found.count(REFUSED) == len(found) else 1


if __name__ == "__main__":
    sys.exit(main())
