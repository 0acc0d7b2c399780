#!/usr/bin/env python3
"""A model of `ndnrepo` in plain Python, written from the documents apart from the program.

    python3 tools/model.py run < SCRIPT
    python3 tools/model.py inspect < DIGITS
    python3 tools/model.py gen MEMBERS OBJECTS SEED

prints what `ndnrepo` prints for the same words and input, and exits with the same status. Whoever compares the two, as
tools/fuzz.py does, compares two readings of docs/SCRIPT.md, docs/PACKETS.md and docs/COMMANDS.md. A script of 100 lines
takes a tenth of a second, one at the limits minutes.
"""
import hashlib
import itertools
import re
import sys
from types import SimpleNamespace

sys.dont_write_bytecode = True
from model_inspect import inspect
from model_octets import (
    IMPLICIT_DIGEST, LISTED, NUMBER, SEQUENCE, Fault, Refused, check_command, check_part, check_sync, draw, key_name_of,
    natural, parts_of, passes, read_interest, read_line, sha256, sync_interest, text_of,
)

# The words of refusals by their numbers, from 1 on.
REFUSALS = ["Syntax", "UnknownLabel", "Duplicate", "Limit", "NoSuchPacket", "FetcherBusy", "FetcherIdle",
            "NumbersSpent", "NoGroup", "TooLarge", "Late", "BadPacket", None, "NoSuchNumber", "NoSuchWatch"]


# ---- publications, and who wants and holds their parts

class Publication:
    """What a member published under a number: an object, or the withdrawal of a number. Its parts are pairs of a name
    and a packet; elsewhere a part is a pair of the publication and the part's number."""

    def __init__(self, member, group, name=None, contents=(), withdrawn=None):
        self.member, self.seq = member, len(member.log) + 1
        self.name, self.contents, self.withdrawn = name, contents, withdrawn
        record = member.node + group + ((SEQUENCE, natural(self.seq)),)
        self.parts = parts_of(record, name, contents, withdrawn, member)
        self.index = len(self.parts) - 1 - len(contents)

    def lister(self, x):
        """The part that lists the digest of part x."""
        return 0 if x <= self.index or not self.index else 1 + (x - 1 - self.index) // LISTED

    def want(self, x):
        """What a packet must be to pass as part x."""
        (name, packet), before = self.parts[x], LISTED * (x - 1)
        return SimpleNamespace(name=name, publisher=self.member, seq=self.seq, digest=sha256(packet) if x else None,
                               listed=min(LISTED, len(self.contents) - before) if 1 <= x <= self.index else None)

    def is_under(self, publisher, prefix):
        """It is an object of the publisher, and its name begins with the prefix."""
        return publisher in (None, self.member) and self.name is not None and self.name[:len(prefix)] == prefix

    def entry(self):
        content = b"".join(self.contents)
        return (f"\nentry {self.member.label} {self.seq} {text_of(self.name)} segments {len(self.contents)} "
                f"octets {len(content)} sha256 {hashlib.sha256(content).hexdigest()}")

def joined(vector, other): return [max(a, b) for a, b in zip(vector, other)]
def covers(vector, other): return joined(vector, other) == vector
def listing(pubs): return str(len(pubs)) + "".join(pub.entry() for pub in pubs)

class Mirror:
    """Who wants parts and holds them: of a publisher, or of all, and of the objects under a prefix."""
    node = None

    def __init__(self, world, label, publisher, prefix, number):
        self.world, self.label, self.publisher, self.prefix, self.number = world, label, publisher, prefix, number
        self.vector, self.held, self.attempts, self.claims, self.deleted = [], {}, {}, {}, set()

    def holds(self, part): return part[1] in self.held.get(part[0], ())
    def gain(self, part): self.held.setdefault(part[0], set()).add(part[1])

    def hear(self, vector):
        self.vector = joined(self.vector, vector)
        return ""

    def known(self):
        """The publications that it knows of, of the publishers that it asks for."""
        for member, count in zip(self.world.members, self.vector):
            if self.publisher in (None, member):
                yield from itertools.islice(member.log, count)

    def wanted(self):
        """The parts that it wants and that no fetcher claims, the least first."""
        claimed = set(self.claims.values())
        for pub in self.known():
            held = self.held.get(pub, ())
            if pub in self.deleted or len(held) == len(pub.parts):
                continue
            knows_rest = 0 in held and pub.is_under(None, self.prefix)
            for x in range(len(pub.parts) if knows_rest else 1):
                if x not in held and (x == 0 or pub.lister(x) in held) and (pub, x) not in claimed:
                    yield pub, x

    def listed(self):
        """The publications of its catalogue."""
        whole = [pub for pub in self.known() if len(self.held.get(pub, ())) == len(pub.parts)]
        withdrawn = {(pub.member, pub.withdrawn) for pub in whole}
        return [pub for pub in whole if pub.is_under(None, self.prefix) and (pub.member, pub.seq) not in withdrawn]

class Member(Mirror):
    """A member of the group, which wants everything. A client is one of no group: it has a node name and a key."""

    def __init__(self, world, label, node, key, number):
        super().__init__(world, label, None, (), number)
        self.node, self.uri, self.key, self.key_name = node, text_of(node), key, key_name_of(node)
        self.log, self.watchers, self.processes, self.begun, self.draws = [], [], {}, 0, 0
        self.be_steady()

    def wait(self, least, count):
        self.due = self.world.now + least + draw(2 ** 32 + self.number, self.draws) % count
        self.draws += 1

    def be_steady(self):
        self.heard = None
        self.wait(27_000, 6_001)

    def hear(self, vector):
        """The vectors that are heard while it holds back are kept as one, their join."""
        if self.heard is not None:
            self.heard = joined(self.heard, vector)
        elif covers(vector, self.vector):
            self.be_steady()
        else:
            self.heard = vector
            self.wait(0, 201)
        super().hear(vector)
        self.world.delivered += 1
        return "steady" if self.heard is None else "suppressed"

    def gain(self, part):
        super().gain(part)
        self.world.gained.append(len(part[0].parts[part[1]][1]))

    def served(self, name, can_be_prefix=False):
        """The packet of the least part that satisfies an Interest of this name, or None."""
        for pub in self.known():
            for x in sorted(self.held.get(pub, ())):
                its_name, packet = pub.parts[x]
                if (its_name == name or can_be_prefix and its_name[:len(name)] == name
                        or its_name == name[:-1] and name[-1] == (IMPLICIT_DIGEST, sha256(packet))):
                    return packet
        return None


# ---- a script that is carried out

class World:
    """The method of each line gives what is printed after its words that are printed again, or None for nothing."""

    def __init__(self):
        self.group, self.members, self.clients, self.mirrors = None, [], [], []
        self.has_events, self.sent, self.issued, self.gained = False, [], [], []
        self.now = self.contents = self.parts = self.settles = self.delivered = self.attempts = 0

    def carry_out(self, line):
        read = read_line(line)
        if read is None:
            return ""
        verb, kinds, values, again = read
        if verb != "group" and self.group is None:
            raise Refused("NoGroup")
        if verb in ("member", "client", "mirror") and self.has_events:
            raise Refused("Late")
        self.has_events = verb not in ("group", "member", "client", "mirror")
        values = [self.meant(kind, value) for kind, value in zip(kinds, values)]
        try:
            text = getattr(self, "on_" + verb)(*values)
        except Fault as fault:
            text = f"refused {fault}"
        return "" if text is None else " ".join(again + [text]).rstrip() + "\n"

    def meant(self, kind, value):
        """Whom a label stands for, or the value itself; None is every publisher."""
        among = {"M": self.members, "P": self.members, "CLIENT": self.clients, "L": self.mirrors}
        if kind not in among or value is None:
            return value
        for one in among[kind]:
            if one.label == value:
                return one
        raise Refused("UnknownLabel")

    def count(self, contents=0, parts=0, settles=0):
        self.contents, self.parts, self.settles = self.contents + contents, self.parts + parts, self.settles + settles
        if self.contents > 67_108_864 or self.parts > 100_000 or self.settles > 1_000:
            raise Refused("TooLarge")

    def on_group(self, name):
        if self.group is not None:
            raise Refused("Duplicate")
        self.group = name

    def declare(self, one, among, limit):
        others = self.members + self.clients + self.mirrors
        if any(one.label == other.label or one.node and one.node == other.node for other in others):
            raise Refused("Duplicate")
        if len(among) == limit:
            raise Refused("Limit")
        among.append(one)
        for holder in self.members + self.mirrors:
            holder.vector = [0] * len(self.members)

    def on_member(self, *words): self.declare(Member(self, *words, len(self.members)), self.members, 16)
    def on_client(self, *words): self.declare(Member(self, *words, 0), self.clients, 16)
    def on_mirror(self, *words): self.declare(Mirror(self, *words, 16 + len(self.mirrors)), self.mirrors, 4)

    # -- lines that show something

    def on_catalogue(self, m): return listing(m.listed())
    def on_mcatalogue(self, mirror): return listing(mirror.listed())
    def on_vector(self, m): return " ".join(f"{p.label}={n}" for p, n in zip(self.members, m.vector))

    def on_summary(self):
        sizes = {m: [len(content) for pub in m.listed() for content in pub.contents] for m in self.members}
        lines = [f"{m.label} entries {len(m.listed())} segments {len(sizes[m])} octets {sum(sizes[m])}" for m in sizes]
        return "\nsummary ".join(lines) or None

    def on_dump(self, m, publisher, seq, x):
        return next((pub.parts[x][1].hex() for pub in publisher.log[seq - 1:seq] if m.holds((pub, x))), "none")

    def on_sync(self, k):
        sender, vector = self.sent_by_number(k)
        return sync_interest(self.group, [(p.node, n) for p, n in zip(self.members, vector) if n], sender).hex()

    def on_traffic(self):
        return (f"syncs {len(self.sent)} delivered {self.delivered} attempts {self.attempts} parts {len(self.gained)} "
                f"octets {sum(self.gained)}")

    def on_ask(self, m, octets):
        interest = read_interest(octets)
        packet = None if interest.must_be_fresh else m.served(interest.name, interest.can_be_prefix)
        return f"found {packet.hex()}" if packet else "none"

    # -- publishing and telling

    def send(self, member):
        self.sent.append((member, member.vector))
        return len(self.sent)

    def sent_by_number(self, k):
        if k > len(self.sent):
            raise Refused("NoSuchPacket")
        return self.sent[k - 1]

    def publish(self, m, **what):
        """The number of the publication, and that of the sync Interest that reports it."""
        if len(m.log) == 65_535:
            raise Refused("NumbersSpent")
        pub = Publication(m, self.group, **what)
        m.log.append(pub)
        m.vector = [n + (p is m) for p, n in zip(self.members, m.vector)]
        m.held[pub] = set(range(len(pub.parts)))
        m.be_steady()
        return pub.seq, self.send(m)

    def on_publish(self, m, name, size, content):
        contents = [content[at:at + size] for at in range(0, len(content), size)]
        index = -(-len(contents) // LISTED) if len(contents) > LISTED else 0
        self.count(contents=len(content), parts=1 + index + len(contents))
        seq, k = self.publish(m, name=name, contents=contents)
        return f"{seq} segments {len(contents)} sync {k}"

    def on_withdraw(self, m, number):
        self.count(parts=1)
        if number > len(m.log) or m.log[number - 1].withdrawn or any(pub.withdrawn == number for pub in m.log):
            raise Refused("NoSuchNumber")
        seq, k = self.publish(m, withdrawn=number)
        return f"{seq} of {number} sync {k}"

    def on_deliver(self, k, m): return m.hear(self.sent_by_number(k)[1])
    def on_mdeliver(self, k, mirror): return mirror.hear(self.sent_by_number(k)[1])

    def on_hear(self, m, octets):
        signer, vector = check_sync(octets, self.group, self.members)
        if vector[m.number] > len(m.log):
            raise Fault("OwnNumberAhead")
        if (signer, vector) not in self.sent:
            raise Refused("Foreign")
        return m.hear(vector)

    def on_advance(self, milliseconds):
        self.now += milliseconds
        return f"now {self.now}"

    def on_fire(self, m):
        if self.now < m.due:
            return "early"
        is_quiet = m.heard is not None and covers(m.heard, m.vector)
        m.be_steady()
        return "quiet" if is_quiet else f"sent {self.send(m)}"

    def on_restart(self, m):
        m.claims, m.processes = {}, {}
        m.be_steady()
        return ""

    # -- fetching

    def on_claim(self, m, fetcher):
        if fetcher in m.claims:
            raise Refused("FetcherBusy")
        for pub, x in m.wanted():
            m.claims[fetcher] = pub, x
            return f"part {pub.member.label} {pub.seq} {x}"
        return "none"

    def claimed(self, m, fetcher):
        if fetcher not in m.claims:
            raise Refused("FetcherIdle")
        return m.claims[fetcher]

    def on_lose(self, m, fetcher):
        pub, x = self.claimed(m, fetcher)
        del m.claims[fetcher]
        return f"part {pub.member.label} {pub.seq} {x}"

    def on_answer(self, m, fetcher, other):
        pub, x = self.claimed(m, fetcher)
        want = pub.want(x)
        self.attempts += 1
        packet = other.served(want.name + (((IMPLICIT_DIGEST, want.digest),) if x else ()))
        if packet is None:
            return "none"
        m.gain(m.claims.pop(fetcher))
        return "kept"

    def on_feed(self, m, fetcher, octets):
        pub, x = self.claimed(m, fetcher)
        check_part(octets, pub.want(x))
        if octets != pub.parts[x][1]:
            raise Refused("Foreign")
        m.gain(m.claims.pop(fetcher))
        return "kept"

    def on_fetch(self, asker, workers, tries, loss):
        plan, kept, attempts = list(itertools.islice(asker.wanted(), 4_096)), [], 0
        for pub, x in plan:
            before = asker.attempts.get((pub, x), 0)
            place = pub.member.number * 2 ** 53 + pub.seq * 2 ** 37 + x * 2 ** 21 + before
            is_there = any(member.holds((pub, x)) for member in self.members if member is not asker)
            passing = (a for a in range(1, tries + 1) if is_there and passes(asker.number, place + a, loss))
            first = next(passing, None)
            kept += [(pub, x)] if first else []
            asker.attempts[pub, x] = before + (first or tries)
            attempts += first or tries
        for part in kept:
            asker.gain(part)
        self.attempts += attempts if asker in self.members else 0
        return f"planned {len(plan)} kept {len(kept)} attempts {attempts}"

    on_mfetch = on_fetch

    def on_settle(self, workers):
        self.count(settles=1)
        gained, known = len(self.gained), [0] * len(self.members)
        there = {(pub, x) for m in self.members for pub in m.held for x in m.held[pub]}
        for m in self.members:
            self.send(m)
            known = joined(known, m.vector)
        for one in self.members + self.mirrors:
            one.claims, one.vector = {}, known
            while fresh := [part for part in one.wanted() if part in there]:
                for part in fresh:
                    one.gain(part)
        for m in self.members:
            m.be_steady()
        self.delivered += len(self.members) * (len(self.members) - 1)
        return f"syncs {len(self.members)} kept {len(self.gained) - gained}"

    # -- watchers, and commands of clients

    def on_watch(self, m, publisher, prefix):
        if len(m.watchers) == 16:
            raise Refused("Limit")
        m.watchers.append((publisher, prefix, set(m.listed())))
        return str(len(m.watchers))

    def on_told(self, m, w):
        if w > len(m.watchers):
            raise Refused("NoSuchWatch")
        publisher, prefix, known = m.watchers[w - 1]
        fresh = [pub for pub in m.listed() if pub.is_under(publisher, prefix) and pub not in known]
        known.update(fresh)
        return listing(fresh)

    def on_insert(self, m, client, *words): return self.command(m, client, "insert", *words)
    def on_status(self, m, client, *words): return self.command(m, client, "check", *words)
    def on_delete(self, m, client, *words): return self.command(m, client, "delete", *words)

    def command(self, m, client, verb, *words):
        self.count(parts=verb == "insert")
        self.issued.append((m, client, (verb, *words)))
        return self.obeyed(m, verb, *words)

    def on_order(self, m, octets):
        self.count(parts=1)
        try:
            client, command = check_command(octets, m.node, self.clients)
        except Fault as fault:
            return "401" if str(fault) in ("ParamsDigest", "UnknownKey", "BadSignature") else "403"
        if (m, client, command) not in self.issued:
            raise Refused("Foreign")
        return self.obeyed(m, *command)

    def obeyed(self, m, verb, *words):
        """The code of a command, and what is said besides."""
        if verb == "insert":
            name, first, last = words
            m.begun += 1
            m.processes[m.begun] = SimpleNamespace(name=name, blocks=dict.fromkeys(range(first, last + 1)))
            return f"100 process {m.begun}"
        if verb == "check":
            if words[0] not in m.processes:
                return "404"
            blocks = list(m.processes[words[0]].blocks.values())
            return f"{300 if None in blocks else 200} inserted {len(blocks) - blocks.count(None)}"
        deleted = [pub for pub in m.listed() if pub.name == words[0]]
        m.deleted.update(deleted)
        return f"200 packets {sum(len(m.held.pop(pub)) for pub in deleted)}" if deleted else "404"

    def on_block(self, m, number, index, content):
        self.count(contents=len(content), parts=1)
        process = m.processes.get(number)
        if process is None or index not in process.blocks:
            return "404"
        if None not in process.blocks.values():
            return "200"
        if process.blocks[index] is None:
            process.blocks[index] = content
        contents = list(process.blocks.values())
        if None in contents:
            return "300"
        seq, k = self.publish(m, name=process.name, contents=contents)
        return f"200 published {seq} sync {k}"


# ---- the program

def run(script, write):
    """Writes the report of a script, and gives the exit status."""
    world, read, written = World(), 0, 0
    for number, line in enumerate(re.findall(rb"[^\n]*\n|[^\n]+", script), 1):
        body = line.removesuffix(b"\n")
        read += len(line)
        try:
            if read > 16_777_216 or number > 100_000 or len(body) > 32_768:
                raise Refused("Limit")
            text = world.carry_out(body if body == line else body.removesuffix(b"\r"))
            written += len(text)
            if written > 268_435_456:
                raise Refused("TooLarge")
        except Refused as refusal:
            word = str(refusal)
            write(f"foreign {number}\n" if word == "Foreign" else
                  f"refused {number} {1 + REFUSALS.index(word)} {word}\n")
            return 6 if word == "Foreign" else 2
        write(text)
    return 0

def gen(members, objects, x, write):
    write("group /g\n" + "".join(f"member m{j} /n/{j} 6b{j:02x}\n" for j in range(1, members + 1)))
    for i in range(1, objects + 1):
        x = (x * 6364136223846793005 + 1442695040888963407) % 2 ** 64
        r = x // 2 ** 33
        write(f"publish m{1 + r % members} /o/{i} 100 fill:{100 * (1 + r // 16 % 5)}:{r // 128 % 256}\n")
        if i % 10 == 0:
            write("".join(f"deliver {i} m{j}\nfetch m{j} 4 3 200\n" for j in range(1, members + 1)))
    write("settle 4\nsummary\n")

def main(words):
    if words in (["run"], ["inspect"]):
        return {"run": run, "inspect": inspect}[words[0]](sys.stdin.buffer.read(), sys.stdout.write)
    numbers = [int(word) for word in words[1:] if re.fullmatch(NUMBER, word)]
    if words[:1] != ["gen"] or len(words) != 4 or len(numbers) != 3 or not (
            1 <= numbers[0] <= 16 and 1 <= numbers[1] <= 2_000):
        return 1
    gen(*numbers, sys.stdout.write)
    return 0


if __name__ == "__main__":
    sys.exit(main(sys.argv[1:]))
