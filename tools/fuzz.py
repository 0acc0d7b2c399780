#!/usr/bin/env python3
"""Draws scripts at random, runs a program over them, and compares what it prints with what another program prints.

    python3 tools/fuzz.py [--program 'FILE run'] [--against 'OTHER run'] [--alone] [--seed 1] [--count 100]
                          [--lines 60] [--keep FOLDER] [--words]
    python3 tools/fuzz.py --inspect [--program 'FILE inspect'] [--against 'OTHER inspect'] [--seed 1] ..

Both read the script from standard input. The program is what `rt run` has built, and the other is tools/model.py, a
model that was written apart from it; `model` names that one too. With --alone there is no other, and only how the
program ends is looked at: by status 0, 2 or 6, and by nothing on standard error where the status is 0.

A script has all event lines, with packets that members would send, and with packets that were changed: a bit flipped,
octets cut off or put in, elements taken out, doubled, moved or put in at any depth with all lengths made anew, before
or after the signing; a wrong key, a wrong name, a number out of its range. Commands that were issued come again as
octets, written in other ways; sync Interests that were sent come again with more in their vectors. Now and then lines
themselves are damaged. With --inspect inputs of an inspector are drawn: the digits of packets that were changed.

Where status or output differ, it says at which line of the script and what each prints there, and the exit status is
1. The script stays in FOLDER, by default the current one, as seedN.script. Of the first with each difference
tools/shrink.py makes a small one, seedN.small. --words tells how often each answer was given, so that what is never
reached is seen.
"""
import argparse
import hashlib
import os
import random
import sys

sys.dont_write_bytecode = True
import shrink
from packets import (
    Bend, Group, changed, element, elements, interest, name_element, name_of, natural, rebuilt, same, spelled,
    text_name,
)


NAMES = ["/doc", "/doc", "/doc", "/a", "/a/b", "/in", "/doc/seg=0", "/seg=1", "/v=2/t", "/%00", "/...", "/....",
         "/a%2Fb%3D", "/65535=z", "/32=...", "/seg=18446744073709551615", "/n/0/g", "/n/0/g/seq=1", "/" + "l" * 396]


def content(draw):
    n = draw.choice([0, 1, 1, 3, 3, 10, 25, 200, 201])
    if draw.random() < 0.3:
        octet = draw.randrange(256)
        return f"fill:{n}:{octet}", bytes([octet]) * n
    if draw.random() < 0.5:
        octets = bytes(draw.randrange(256) for _ in range(n))
        return "hex:" + octets.hex(), octets
    octets = bytes(draw.randrange(0x21, 0x7F) for _ in range(n))
    return "text:" + octets.decode(), octets


class Script:
    """A script that grows line by line: after each line the program is run, so that the next line fits what it told."""

    def __init__(self, draw, lines, program):
        self.draw = draw
        self.program = program
        self.group = Group(draw)
        self.lines = [f"group {self.group.name}"]
        self.lines += [f"member {label} {node} {key.hex()}" for label, node, key in self.group.members]
        self.lines += [f"client {label} {node} {key.hex()}" for label, node, key in self.group.clients]
        self.claims = {}
        self.insertions = {}
        self.watchers = []
        self.mirrors = []
        # How often a line stays that ends the script.
        self.ending = draw.choice([0, 0, 0, 0.01, 0.2])
        self.printed = 0
        self.is_over = False
        makers = [(5, self.publish), (1, self.withdraw), (6, self.deliver), (7, self.claim), (7, self.answer),
                  (2, self.lose), (5, self.feed), (2, self.fetch), (1, self.settle), (2, self.show), (2, self.time),
                  (4, self.hear), (3, self.ask), (1, self.restart), (1, self.spaces), (0.3, self.anything),
                  (1.5, self.watch), (3, self.told)]
        for n in range(draw.choice([0, 0, 1, 2, 4, 5])):
            self.mirror(n)
        if self.mirrors:
            makers += [(4, self.mdeliver), (5, self.mfetch), (2, self.mcatalogue)]
        if self.group.clients:
            makers += [(2, self.insert), (4, self.block), (1, self.status), (2, self.delete), (3, self.order)]
        while len(self.lines) < lines and not self.is_over:
            draw.choices([m for _, m in makers], [w for w, _ in makers])[0]()
        if draw.random() < 0.15:
            for _ in range(draw.randint(1, 2)):
                self.damage()
        elif not self.is_over:
            for label, _, _ in self.group.members:
                self.lines += [f"catalogue {label}", f"vector {label}", f"fetch {label} 1 1 1000", f"claim {label} 7"]
            self.lines += [f"told {self.label(m)} {w}" for m, w in self.watchers]
            self.lines += [f"mcatalogue {label}" for label in self.mirrors]
            self.lines += ["summary", "traffic"]

    def text(self):
        return ("\n".join(self.lines) + "\n").encode("latin-1")

    def put(self, *words):
        """Appends a line, and gives the words of the first line that it prints."""
        self.lines.append(" ".join(str(w) for w in words))
        status, out, _ = self.program(self.text())
        told = out.decode("latin-1").split("\n")[:-1]
        fresh, self.printed = told[self.printed:], len(told)
        if status and self.draw.random() >= self.ending:
            # Most lines that end the script are taken back.
            self.lines.pop()
            self.printed -= len(fresh)
            return []
        self.is_over = status != 0
        for line in fresh:
            words = line.split()
            if "sync" in words[1:-1] or words[0] == "fire" and "sent" in words:
                self.group.sent = int(words[-1])
        return fresh[0].split() if fresh and not self.is_over else []

    def member(self):
        return self.draw.randrange(len(self.group.members))

    def label(self, m):
        return self.group.members[m][0]

    def client(self):
        return self.draw.randrange(len(self.group.clients))

    def number_of(self, label):
        return next(j for j, m in enumerate(self.group.members) if m[0] == label)

    def mangled(self, octets):
        """The octets as they are, in one of two cases, or changed."""
        how = self.draw.random()
        if how < 0.5:
            return octets
        return changed(self.draw, octets) if how < 0.75 else rebuilt(self.draw, octets) or b"\x05"

    def bend(self):
        """What is done to octets before they are signed: mostly nothing."""
        return Bend(self.draw) if self.draw.random() < 0.3 else same

    def published(self, m, name, contents):
        """What a member published under its next number; in place of its name and contents, None and the number of what
        it withdrew."""
        self.group.log[m].append((name, contents))

    def publish(self):
        m, name = self.member(), self.draw.choice(NAMES)
        size = self.draw.choice([1, 2, 5, 8000])
        word, octets = content(self.draw)
        if self.put("publish", self.label(m), name, size, word):
            self.published(m, name, [octets[i:i + size] for i in range(0, len(octets), size)])

    def withdraw(self):
        m = self.member()
        seq = self.draw.randint(1, len(self.group.log[m]) + 1)
        if self.put("withdraw", self.label(m), seq):
            self.published(m, None, seq)

    def deliver(self):
        if self.group.sent:
            self.put("deliver", self.draw.randint(1, self.group.sent), self.label(self.member()))

    def claim(self):
        m, f = self.member(), self.draw.choice([1, 1, 1, 2, 3, 16])
        if (m, f) in self.claims:
            return self.answer()
        told = self.put("claim", self.label(m), f)
        if "part" in told:
            self.claims[m, f] = self.number_of(told[4]), int(told[5]), int(told[6])

    def held_claim(self):
        return self.draw.choice(sorted(self.claims)) if self.claims else None

    def answer(self):
        held = self.held_claim()
        if held:
            m, f = held
            q = self.claims[held][0] if self.draw.random() < 0.6 else self.member()
            if "kept" in self.put("answer", self.label(m), f, self.label(q)):
                del self.claims[held]

    def lose(self):
        held = self.held_claim()
        if held and self.put("lose", self.label(held[0]), held[1]):
            del self.claims[held]

    def feed(self):
        held = self.held_claim()
        if held:
            p, seq, part = self.claims[held]
            if self.draw.random() < 0.1:
                seq, part = self.draw.randint(1, 3), self.draw.randint(0, 3)
            known = self.group.log[p]
            packets = self.group.packets(p, seq, self.bend(), self.bend()) if seq <= len(known) else []
            octets = packets[part] if part < len(packets) else b"\x06\x00"
            if "kept" in self.put("feed", self.label(held[0]), held[1], self.mangled(octets).hex()):
                del self.claims[held]

    def fetch(self):
        loss = self.draw.choice([0, 0, 200, 500, 1000])
        self.put("fetch", self.label(self.member()), self.draw.randint(1, 4), self.draw.randint(1, 4), loss)

    def settle(self):
        if self.put("settle", self.draw.randint(1, 4)):
            self.claims = {}
            self.group.sent += len(self.group.members)

    def restart(self):
        m = self.member()
        if self.put("restart", self.label(m)):
            self.claims = {held: part for held, part in self.claims.items() if held[0] != m}
            # Now and then more blocks are made for a process that has ended.
            if self.draw.random() < 0.5:
                self.insertions = {it: what for it, what in self.insertions.items() if it[0] != m}

    def watch(self):
        m = self.member()
        # Now and then one more than a member may have.
        for _ in range(17 if self.draw.random() < 0.05 else 1):
            publisher = self.draw.choice(["*", self.label(self.member())])
            told = self.put("watch", self.label(m), publisher, self.draw.choice(NAMES + ["/", "/", "/n"]))
            if told:
                self.watchers.append((m, int(told[2])))

    def told(self):
        m, w = self.member(), self.draw.randint(1, 17)
        if self.watchers and self.draw.random() < 0.95:
            m, w = self.draw.choice(self.watchers)
        self.put("told", self.label(m), w)

    def mirror(self, n):
        publisher = self.draw.choice(["*", self.label(self.member())])
        label = f"w{n}" if self.draw.random() < 0.97 else self.label(self.member())
        self.put("mirror", label, publisher, self.draw.choice(NAMES + ["/", "/", "/n"]))
        if self.lines[-1].startswith(f"mirror {label} "):
            self.mirrors.append(label)

    def mirror_label(self):
        return self.draw.choice(self.mirrors) if self.draw.random() < 0.97 else self.label(self.member())

    def mdeliver(self):
        self.put("mdeliver", self.draw.randint(1, self.group.sent + 1), self.mirror_label())

    def mfetch(self):
        self.put("mfetch", self.mirror_label(), self.draw.randint(1, 16), self.draw.randint(1, 4),
                 self.draw.choice([0, 0, 100, 500, 900, 1000]))

    def mcatalogue(self):
        self.put("mcatalogue", self.mirror_label())

    def show(self):
        m, p = self.label(self.member()), self.member()
        word = self.draw.choice(["catalogue", "vector", "dump", "sync", "summary", "traffic"])
        if word == "dump":
            self.put("dump", m, self.label(p), self.draw.randint(1, 3), self.draw.randint(0, 3))
        elif word in ("summary", "traffic"):
            self.put(word)
        elif word != "sync":
            self.put(word, m)
        elif self.group.sent:
            self.put("sync", self.draw.randint(1, self.group.sent))

    def time(self):
        if self.draw.random() < 0.5:
            self.put("advance", self.draw.choice([0, 1, 100, 201, 27000, 33001]))
        self.put("fire", self.label(self.member()))

    def spaces(self):
        self.lines.append(self.draw.choice(["", "   ", "# a comment", "  #x"]))

    def anything(self):
        """Octets that are no packet, or far from one."""
        octets = self.draw.choice([b"\x05\x00", b"\x06\x00", b"\x05", b"\x00", b"\x05" * 8801, b"\x05\xfd\x00\x01\x00",
                                   b"\x05\x02\xf0\x00" * 3, element(5, b"\x07\x00"), element(6, b"\xf0\x00" * 300)])
        word = self.draw.choice(["hear", "ask", "order", "feed"])
        held = self.held_claim()
        if word != "feed":
            self.put(word, self.label(self.member()), octets.hex())
        elif held:
            self.put("feed", self.label(held[0]), held[1], octets.hex())

    def vector_again(self, octets):
        """The vector of a sync Interest that was sent, and its signer, with more of what is passed over or doubled."""
        parameters = next(value for kind, value in elements(elements(octets)[0][1]) if kind == 36)
        entries = elements(elements(parameters)[0][1])
        more = self.draw.choice(entries) if entries else (240, b"")
        unknown = (202, name_element(text_name("/x")) + element(204, natural(self.draw.choice([1, 2 ** 32]))))
        zero = (202, name_element(text_name(self.group.members[self.member()][1])) + element(204, b"\x00\x00"))
        many = self.draw.randint(0, 3)
        for it in self.draw.choices([more, unknown, zero, (240, b""), (203, b"")], [3, 3, 3, 2, 1], k=many):
            entries.insert(self.draw.randint(0, len(entries)), it)
        if self.draw.random() < 0.2:
            self.draw.shuffle(entries)
        return element(201, spelled(entries)) + self.draw.choice([b"", b"", b"\xf1\x00", b"\xff"])

    def hear(self):
        how = self.draw.random()
        if self.group.sent and how < 0.75:
            told = self.put("sync", self.draw.randint(1, self.group.sent))
            octets = bytes.fromhex(told[-1]) if told else b"\x05\x00"
            if told and how < 0.35:
                octets = self.group.sync_of(self.member(), self.vector_again(octets), self.bend())
        else:
            counts = [len(self.group.log[m]) for m in range(len(self.group.members))]
            vector = [self.draw.choice([n, n, n + 1, 0, 70000]) for n in counts]
            octets = self.group.sync(self.member(), vector, self.bend())
        self.put("hear", self.label(self.member()), self.mangled(octets).hex())

    def ask(self):
        m, p = self.label(self.member()), self.member()
        name = self.group.record_name(p, self.draw.randint(1, 3))
        if self.group.log[p] and self.draw.random() < 0.7:
            seq = self.draw.randint(1, len(self.group.log[p]))
            packets = self.group.packets(p, seq)
            x = self.draw.randrange(len(packets))
            name = name_of(packets[x])
            if self.draw.random() < 0.5:
                name.append((1, hashlib.sha256(packets[x]).digest()))
        name = name[:self.draw.randint(1, len(name))] if self.draw.random() < 0.4 else name
        octets = interest(name, self.draw.random() < 0.5)
        if self.draw.random() < 0.1:
            field = self.draw.choice([element(18, b""), element(10, bytes(4)), element(34, b"\x01")])
            octets = element(5, octets[2:] + field)
        self.put("ask", m, self.mangled(octets).hex())

    def insert(self):
        m, c, name, first = self.member(), self.client(), self.draw.choice(NAMES), self.draw.choice([0, 1, 5])
        last = first + self.draw.randint(0, 2)
        told = self.put("insert", self.label(m), self.group.clients[c][0], name, first, last)
        self.group.issued.append((m, c, "insert", [name_element(text_name(name)), element(204, natural(first)),
                                                   element(205, natural(last))]))
        self.begun(m, told, name, first, last)

    def begun(self, m, told, name, first, last):
        if "process" in told:
            self.insertions[m, int(told[-1])] = name, {i: None for i in range(first, last + 1)}

    def block(self):
        word, octets = content(self.draw)
        if not octets:
            return
        m, number, index = self.member(), self.draw.randint(1, 3), self.draw.choice([0, 1, 2, 5, 6])
        if self.insertions and self.draw.random() < 0.8:
            m, number = self.draw.choice(sorted(self.insertions))
            index = self.draw.choice(sorted(self.insertions[m, number][1]))
        told = self.put("block", self.label(m), number, index, word)
        name, blocks = self.insertions.get((m, number), ("", {}))
        if told and index in blocks and blocks[index] is None:
            blocks[index] = octets
        if "published" in told:
            self.published(m, name, [blocks[i] for i in sorted(blocks)])

    def status(self):
        m, c, number = self.member(), self.client(), self.draw.randint(1, 4)
        self.put("status", self.label(m), self.group.clients[c][0], number)
        self.group.issued.append((m, c, "check", [element(206, natural(number))]))

    def delete(self):
        m, c, name = self.member(), self.client(), self.draw.choice(NAMES)
        if self.group.log[m] and self.draw.random() < 0.7:
            name = self.draw.choice(self.group.log[self.member()] or self.group.log[m])[0] or name
        self.put("delete", self.label(m), self.group.clients[c][0], name)
        self.group.issued.append((m, c, "delete", [name_element(text_name(name))]))

    def order(self):
        m, c, verb = self.member(), self.client(), self.draw.choice(["insert", "check", "delete", "other"])
        fields = [name_element(text_name(self.draw.choice(NAMES[:6]))), element(204, natural(1)),
                  element(205, natural(2)), element(206, natural(1))]
        fields = [f for f in fields if self.draw.random() < 0.8]
        if self.group.issued and self.draw.random() < 0.8:
            m, c, verb, fields = self.draw.choice(self.group.issued)
            fields = list(fields)
        if self.draw.random() < 0.4:
            more = self.draw.choice([b"\xf0\x00", b"\xf1\x00", element(206, b"\x00\x01"), element(204, b"\x01"),
                                     name_element([]), element(205, b"\x00\x00\x00")])
            fields.insert(self.draw.randint(0, len(fields)), more)
        octets = self.mangled(self.group.command(m, c, verb, b"".join(fields), self.bend()))
        told = self.put("order", self.label(m if self.draw.random() < 0.9 else self.member()), octets.hex())
        if "process" in told:
            # The command was as it was issued, but for what is passed over.
            found = dict(reversed(elements(b"".join(fields))))
            name, first, last = found[7], int.from_bytes(found[204], "big"), int.from_bytes(found[205], "big")
            self.begun(self.number_of(told[1]), told, self.uri(name), first, last)

    def uri(self, value):
        """The text among those drawn whose name has this value."""
        return next((it for it in NAMES if spelled(text_name(it)) == value), "/doc")

    def damage(self):
        """Damages a line of the script."""
        at = self.draw.randrange(len(self.lines))
        line = self.lines[at]
        words = line.split()
        how = self.draw.randrange(8)
        if how == 0 and line:
            i = self.draw.randrange(len(line))
            line = line[:i] + self.draw.choice("az09 /:=%~\t\r.") + line[i + 1:]
        elif how == 1:
            line += self.draw.choice([" 1", " x", "\r", "\r\r", " \r"])
        elif how == 2:
            line = " ".join(words[:-1])
        elif how == 3:
            self.lines[at:at] = [line]
        elif how == 4:
            del self.lines[at]
            return
        elif how == 5:
            other = self.draw.choice(self.lines).split() or ["#"]
            line = " ".join(words[:len(words) // 2] + other[len(other) // 2:])
        elif words:
            i = self.draw.randrange(len(words))
            words[i] = self.draw.choice(["0", "01", "99999999999999999999", "999999999999999999", "m0", "-1", "65536",
                                         "text:", "/", "/..", "/a/", "ndn:/a", "/seg=01", "/1=" + "a" * 32, "17", "201",
                                         "fill:16000001:0", "fill:201:256", "hex:0", "text:" + "x" * 32_760])
            line = " ".join(words)
        self.lines[at] = line


def inspection(draw):
    """Digits of a packet that was changed several times, for the inspector."""
    group = Group(draw)
    m = draw.randrange(len(group.members))
    group.log[m].append((draw.choice(NAMES), [b"x" * draw.choice([1, 300])] * draw.randint(0, 3)))
    sync, any_octets = group.sync(m, [1] * len(group.members)), bytes(draw.randrange(9) for _ in range(60))
    octets = draw.choice(group.packets(m, 1) + [sync, any_octets])
    for _ in range(draw.randint(0, 4)):
        octets = (changed(draw, octets) if draw.random() < 0.3 else rebuilt(draw, octets)) or b"\x07"
    if draw.random() < 0.05:
        octets = element(7, octets) * draw.choice([1, 100])
    digits = draw.choice([octets.hex(), octets.hex().upper(), octets.hex(" "), octets.hex("\n", 30) + "\r\n\t"])
    if draw.random() < 0.1 and digits:
        at = draw.randrange(len(digits))
        digits = digits[:at] + draw.choice(["", "g", " ", "\0", "0"]) + digits[at + 1:]
    return digits.encode()


# ---- runs

def keep(program, against, script, path, by_lines, shrinks):
    """Keeps an input over which two programs differ, and a small one, and says what they differ in."""
    with open(path, "wb") as it:
        it.write(script)
    print(f"{path}: {shrink.described(program, against, script, by_lines)}", flush=True)
    if not shrinks:
        return
    small = shrink.shrunk(program, against, script, 60, b"\n" if by_lines else b"")
    path = path.replace(".script", ".small")
    with open(path, "wb") as it:
        it.write(small)
    print(f"{path}: {shrink.described(program, against, small, by_lines)}\n{shrink.shown(small)}", flush=True)


def main():
    asked = argparse.ArgumentParser(description=__doc__, formatter_class=argparse.RawDescriptionHelpFormatter)
    shrink.asked_programs(asked)
    asked.add_argument("--seed", type=int, default=1)
    asked.add_argument("--count", type=int, default=100)
    asked.add_argument("--lines", type=int, default=60)
    asked.add_argument("--keep", default=".")
    asked.add_argument("--words", action="store_true", help="tell how often each answer was given")
    given = asked.parse_args()
    program, against = shrink.programs(given)
    kinds, wrong, ends, answers = [], 0, {}, {}
    for seed in range(given.seed, given.seed + given.count):
        if given.inspect:
            script = inspection(random.Random(seed))
        else:
            script = Script(random.Random(seed), given.lines, program).text()
        status, out, _ = program(script)
        ends[status] = ends.get(status, 0) + 1
        for line in out.decode("latin-1").splitlines():
            told = shrink.form(line)
            answers[told] = answers.get(told, 0) + 1
        kind = shrink.kind(shrink.difference(program, against, script))
        if kind:
            wrong += 1
            path = os.path.join(given.keep, f"seed{seed}.script")
            keep(program, against, script, path, not given.inspect, kind not in kinds)
            kinds.append(kind)
    print(f"{given.count} scripts, {wrong} differ; ends by status: {dict(sorted(ends.items()))}")
    if given.words:
        for told, count in sorted(answers.items()):
            print(f"{count:8} {told}")
    return 1 if wrong else 0


if __name__ == "__main__":
    sys.exit(main())
