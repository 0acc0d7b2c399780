#!/usr/bin/env python3
"""Replays the journals that `ndnlive live` printed for an input.

    python3 tools/check_journals.py INPUT PRINTED

It takes each journal from the member's beginning, entry by entry, and works out what each is to reply: the next object
of the member's list is published; a sync Interest is heard; a fetcher claims the least wanted part that nobody claims;
the packet of a part comes for its claim; a claim ends. It names the first entry that isn't so. It sees that the threads did
their work: the publications, the turns of both fetchers, at most so many hears after each publication, and then the
settle, entry by entry. Then it compares each catalogue with what the member holds after its journal, and with the join
of all lists. Both files are read as octets. It knows nothing of the program.
"""
import bisect
import hashlib
import sys

from packets import LISTED, element, elements, key_name, name_element, natural, signed_interest, text_name

SYNC_VERSION = (54, b"\x02")
VECTOR, ENTRY, NUMBER = 201, 202, 204
HINTS = {50: "seg", 54: "v", 58: "seq"}
PLAIN = set(b"ABCDEFGHIJKLMNOPQRSTUVWXYZabcdefghijklmnopqrstuvwxyz0123456789-._~")

# The greatest number of sync Interests that a member hears after a publication.
HEARD = 64

# What stands after the last line.
END = "the end"


class Wrong(Exception):
    """What was printed isn't what the input gives."""


# ---- the input

class Object:
    """What a member is to publish: a name, and how many segments a content makes."""

    def __init__(self, name, size, content):
        self.name, self.content = name, content
        self.segments = -(-len(content) // size)
        self.index = 0 if self.segments <= LISTED else -(-self.segments // LISTED)
        self.last = self.index + self.segments

    def parent(self, part):
        """The part that lists this one: the record, or of a large object's segment its index packet."""
        return 0 if part <= self.index or not self.index else 1 + (part - self.index - 1) // LISTED


def content_of(word):
    form, _, text = word.partition(":")
    if form == "text":
        return text.encode()
    if form == "hex":
        return bytes.fromhex(text)
    count, octet = text.split(":")
    return bytes([int(octet)]) * int(count)


def lines_of(octets):
    """The words of each line that says something. A line ends with a line feed, before which one carriage return is
    dropped; spaces alone part words, and a comment may have any octets."""
    for line in octets.split(b"\n"):
        words = line.removesuffix(b"\r").split(b" ")
        words = [word for word in words if word]
        if words and not words[0].startswith(b"#"):
            yield [word.decode("ascii") for word in words]


class Input:
    """The group, its members in order, and the list of each."""

    def __init__(self, octets):
        self.labels, self.nodes, self.keys, self.lists = [], [], [], []
        for words in lines_of(octets):
            if words[0] == "group":
                self.group = text_name(words[1].removeprefix("ndn:"))
            elif words[0] == "member":
                self.labels.append(words[1])
                self.nodes.append(words[2].removeprefix("ndn:"))
                self.keys.append(bytes.fromhex(words[3]))
                self.lists.append([])
            elif words[0] == "publish":
                name = text_name(words[2].removeprefix("ndn:"))
                self.lists[self.labels.index(words[1])].append(Object(name, int(words[3]), content_of(words[4])))
            else:
                raise Wrong(f"the input has a line {words[0]}")

    def turns(self):
        """How many turns a fetcher makes in its thread: twice as many as all lists have parts."""
        return 2 * sum(1 + offered.last for offers in self.lists for offered in offers)

    def object(self, publisher, seq):
        """What the member publishes under a number, if it does."""
        return self.lists[publisher][seq - 1] if 1 <= seq <= len(self.lists[publisher]) else None

    def sync_of(self, sender, vector):
        """The sync Interest of a member that knows these numbers."""
        known = sorted((name_order(text_name(node)), node, n) for node, n in zip(self.nodes, vector) if n)
        entries = [element(ENTRY, name_element(text_name(node)) + element(NUMBER, natural(n))) for _, node, n in known]
        parameters = element(VECTOR, b"".join(entries))
        return signed_interest(self.group + [SYNC_VERSION], parameters, self.nodes[sender], self.keys[sender])

    def read(self, octets):
        """The sender and the vector of a member's sync Interest, or None where it is no member's."""
        try:
            fields = dict(elements(elements(octets)[0][1]))
            locator = dict(elements(fields[44]))[28]
            keys = [name_element(key_name(node)) for node in self.nodes]
            numbers = [dict(elements(entry)) for _, entry in elements(elements(fields[36])[0][1])]
            known = {entry[7]: int.from_bytes(entry[NUMBER], "big") for entry in numbers}
            vector = [known.get(name_element(text_name(node))[2:], 0) for node in self.nodes]
            sender = keys.index(locator)
            return (sender, vector) if self.sync_of(sender, vector) == octets else None
        except (TypeError, KeyError, IndexError, ValueError):
            return None


def name_order(name):
    """Names are in order of their components, each by type, length and octets."""
    return [(kind, len(value), value) for kind, value in name]


def uri(name):
    """How a name is printed."""
    words = []
    for kind, value in name:
        number = int.from_bytes(value, "big")
        if kind in HINTS and len(value) in (1, 2, 4, 8) and natural(number) == value:
            words.append(f"{HINTS[kind]}={number}")
            continue
        escaped = "".join(chr(o) if o in PLAIN else f"%{o:02X}" for o in value)
        escaped = escaped if value.strip(b".") else "..." + escaped
        words.append(escaped if kind == 8 else f"{kind}={escaped}")
    return "/" + "/".join(words)


# ---- a member

class Member:
    """A member of a live group, from its beginning on. Around it all others have published their whole lists."""

    def __init__(self, given, number):
        self.given, self.number = given, number
        self.published, self.steady = 0, True
        self.known = [0] * len(given.labels)
        self.held, self.wanted, self.claims = set(), [], {}

    def want(self, part):
        at = bisect.bisect(self.wanted, part)
        if part not in self.held and self.wanted[at - 1:at] != [part]:
            self.wanted.insert(at, part)

    def hold(self, part):
        """The part is held, and what it lists is wanted."""
        publisher, seq, x = part
        self.held.add(part)
        if part in self.wanted:
            self.wanted.remove(part)
        offered = self.given.object(publisher, seq)
        for listed in range(1, offered.last + 1) if x <= offered.index else ():
            if offered.parent(listed) == x:
                self.want((publisher, seq, listed))

    def learn(self, vector):
        for publisher, number in enumerate(vector):
            for seq in range(self.known[publisher] + 1, number + 1):
                self.want((publisher, seq, 0))
        self.known = [max(pair) for pair in zip(self.known, vector)]

    def publish(self):
        offered = self.given.object(self.number, self.published + 1)
        if offered is None:
            return "nothing is left to publish"
        self.published += 1
        self.known[self.number] = self.published
        self.held.update((self.number, self.published, x) for x in range(offered.last + 1))
        self.steady = True
        return str(self.published)

    def hear(self, digits):
        octets = bytes.fromhex(digits)
        digits = octets.hex()
        heard = self.given.read(octets)
        if heard is None or heard[1][self.number] > self.published:
            return f"{digits} refused"
        vector = heard[1]
        self.steady = self.steady and all(heard >= known for heard, known in zip(vector, self.known))
        self.learn(vector)
        return f"{digits} {'steady' if self.steady else 'suppressed'}"

    def claim(self, f):
        if f in self.claims:
            return f"{f} refused"
        free = next((part for part in self.wanted if part not in self.claims.values()), None)
        if free is None:
            return f"{f} none"
        self.claims[f] = free
        return f"{f} part {self.words(free)}"

    def feed(self, f, label, seq, x):
        part = (self.given.labels.index(label), int(seq), int(x))
        offered = self.given.object(part[0], part[1])
        if self.claims.get(f) != part or offered is None or part[2] > offered.last:
            return f"{f} {self.words(part)} refused"
        del self.claims[f]
        self.hold(part)
        return f"{f} {self.words(part)} kept"

    def lose(self, f):
        part = self.claims.pop(f, None)
        return f"{f} part {self.words(part)}" if part else f"{f} refused"

    def words(self, part):
        return f"{self.given.labels[part[0]]} {part[1]} {part[2]}"

    def follow(self, line):
        """What the entry is to be, by what it says was done."""
        verb, *words = line.split(" ")
        if verb == "publish":
            return f"publish {self.publish()}"
        if verb == "hear":
            return f"hear {self.hear(words[0])}"
        if verb in ("claim", "lose") and words[0] in FETCHERS:
            return f"{verb} {(self.claim if verb == 'claim' else self.lose)(words[0])}"
        if verb == "feed" and words[0] in FETCHERS:
            return f"feed {self.feed(*words[:4])}"
        return "an entry of a journal"


FETCHERS = [str(f) for f in range(1, 17)]


def catalogue(given, holds):
    """The entries of all objects whose parts are all held."""
    lines = []
    for publisher, offers in enumerate(given.lists):
        for seq, offered in enumerate(offers, 1):
            if all(holds((publisher, seq, x)) for x in range(offered.last + 1)):
                digest = hashlib.sha256(offered.content).hexdigest()
                lines.append(f"entry {given.labels[publisher]} {seq} {uri(offered.name)} segments {offered.segments}"
                             f" octets {len(offered.content)} sha256 {digest}")
    return lines


# ---- what was printed

def compare(line, wanted, where):
    if line != wanted:
        raise Wrong(f"{where}: '{short(line)}' stands in the place of '{short(wanted)}'")


def short(line):
    return line if len(line) <= 100 else f"{line[:60]}..{line[-36:]}"


def replay(given, number, lines):
    """The member at the end of its journal, the next of the lines."""
    label, member, journal = given.labels[number], Member(given, number), []
    head = next(lines, END)
    count = head.removeprefix(f"journal {label} ")
    if not count.isdecimal() or head != f"journal {label} {int(count)}":
        raise Wrong(f"the journal of {label} isn't there")
    for at in range(1, int(count) + 1):
        line = next(lines, END)
        try:
            wanted = member.follow(line)
        except (ValueError, IndexError, TypeError):
            wanted = "an entry of a journal"
        compare(line, wanted, f"journal {label}, entry {at}")
        journal.append(line)
    if member.published != len(given.lists[number]):
        raise Wrong(f"journal {label}: {member.published} of {len(given.lists[number])} objects are published")
    try:
        by_threads(given, number, journal[:settle_of(given, number, journal)])
    except Wrong as why:
        raise Wrong(f"journal {label}: {why}") from None
    return member


def settle_of(given, number, journal):
    """The place in a journal at which the settle begins, which is looked for from the end: fetcher 1 claims and takes
    until nothing is to be claimed, and before that the member hears each other in order."""
    claims = sum(line.startswith("claim 1 ") for line in journal)
    taken = claims - given.turns() - 1
    if taken < 0:
        raise Wrong(f"{claims} claims of fetcher 1 are too few for {given.turns()} turns and the settle")
    others = [m for m in range(len(given.labels)) if m != number]
    at = len(journal) - 1 - 2 * taken
    begins = at - len(others)
    if begins < 0 or journal[-1] != "claim 1 none":
        raise Wrong("the settle isn't there")
    for place in range(at, len(journal) - 1, 2):
        claim, feed = journal[place], journal[place + 1]
        if not claim.startswith("claim 1 part ") or feed != f"feed 1 {claim.removeprefix('claim 1 part ')} kept":
            raise Wrong(f"entries {place + 1} and {place + 2} are no claim and what came for it in the settle")
    for place, other in enumerate(others, begins):
        verb, *words = journal[place].split(" ")
        heard = given.read(bytes.fromhex(words[0])) if verb == "hear" else None
        if heard is None or heard[0] != other or heard[1][other] != len(given.lists[other]):
            raise Wrong(f"entry {place + 1} isn't what the settle lets it hear of {given.labels[other]}")
    return begins


def by_threads(given, number, entries):
    """Before the settle the member's three threads did all that they are for."""
    heard, published, open_turn, turns = 0, 0, {}, {"1": 0, "2": 0}
    for at, line in enumerate(entries, 1):
        verb, *words = line.split(" ")
        if verb == "publish":
            heard, published = 0, published + 1
        elif verb == "hear":
            heard += 1
            if heard > (HEARD if published else 0):
                raise Wrong(f"entry {at} is heard, where {heard - 1} were heard since the last publication")
        elif words[0] not in turns:
            raise Wrong(f"entry {at} is of fetcher {words[0]}")
        elif verb == "claim":
            turns[words[0]] += 1
            if words[0] in open_turn:
                raise Wrong(f"entry {at} claims before the last turn of fetcher {words[0]} ended")
            if words[1] == "part":
                open_turn[words[0]] = words[2:]
        elif open_turn.pop(words[0], None) != [word for word in words[1:] if word not in ("part", "kept")]:
            raise Wrong(f"entry {at} ends no turn of fetcher {words[0]}")
    if published != len(given.lists[number]):
        raise Wrong(f"{published} of {len(given.lists[number])} objects were published by its thread")
    for f, made in turns.items():
        if made != given.turns():
            raise Wrong(f"fetcher {f} made {made} of {given.turns()} turns")
    if open_turn:
        raise Wrong(f"the last turn of fetcher {min(open_turn)} didn't end")


def check(given, lines):
    members = [replay(given, number, lines) for number in range(len(given.labels))]
    whole = catalogue(given, lambda part: True)
    for label, member in zip(given.labels, members):
        held = catalogue(given, member.held.__contains__)
        if held != whole:
            raise Wrong(f"journal {label} ends with {len(held)} of {len(whole)} objects held")
        for line in [f"catalogue {label} {len(whole)}"] + whole:
            compare(next(lines, END), line, f"catalogue {label}")
    compare(next(lines, END), END, "after the catalogues")
    print(f"{len(members)} journals replay, and {len(members)} catalogues are the join of all lists")


def printed_lines(octets):
    """The lines of what was printed, each of which ends with a line feed."""
    if octets and not octets.endswith(b"\n"):
        raise Wrong("the last line has no line feed")
    return iter(octets.decode("latin-1").split("\n")[:-1])


def main():
    if len(sys.argv) != 3:
        sys.exit("usage: check_journals.py INPUT PRINTED")
    with open(sys.argv[1], "rb") as given, open(sys.argv[2], "rb") as printed:
        try:
            check(Input(given.read()), printed_lines(printed.read()))
        except Wrong as why:
            sys.exit(f"check_journals.py: {why}")


if __name__ == "__main__":
    main()
