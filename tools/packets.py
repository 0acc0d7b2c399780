#!/usr/bin/env python3
"""Makes packets as members and clients of a group send them, and packets with one thing wrong.

    python3 tools/packets.py KIND [OPTION..] [--form FORM] [--line MEMBER]

It prints the packet in hexadecimal digits. With --line it prints the line of a script that gives the packet to MEMBER,
the label of a member: `hear`, `feed`, `order` or `ask`, as the kind asks. The packet is computed from the options
alone, by Python's own SHA-256 and HMAC; no other program is asked. docs/PACKETS.md explains the packets.

Without options the group is /g, with the members alice (node /alice, key 6b31) and bob (/bob, 6b32) and the client
carl (/carl, 6b34). --node and --key say who signs: alice, or carl where the packet is a client's.

  kind         what it is                                   line    options, with their defaults
  sync         a sync Interest with these numbers           hear    NODE=N .., such as /alice=1; --group /g
  record       the record of an object                      feed    --object /doc --content text:abc --size 10 --seq 1
  index        an index packet, of 201 segments and more    feed    the same, and --number 0
  segment      a segment of an object                       feed    the same, and --number 0
  withdrawal   the record that withdraws a publication      feed    --of 1 --seq 2
  insert       a client's command to insert an object       order   --to /alice --object /in --first 5 --last 6
  check        a client's question about a process          order   --to /alice --process 1
  delete       a client's command to delete an object       order   --to /alice --object /doc
  answer       a member's answer to a command               -       --command HEX --code 100 --process N --inserted N
                                                                    --deleted N
  interest     an Interest that asks for a packet           ask     NAME; --full-name-of HEX, a packet; --prefix

CONTENT is text:, hex: or fill:COUNT:OCTET, as in a script. `feed` lines are of fetcher 1, or --fetcher N.

    python3 tools/packets.py sync /alice=1 --form wrong-key --line bob
    python3 tools/packets.py segment --content fill:201:97 --size 1 --number 200
    python3 tools/packets.py answer --code 100 --process 1 --command $(python3 tools/packets.py insert)
"""
import argparse
import hashlib
import hmac
import urllib.parse

GENERIC, KEYWORD_KEY, SEGMENT, VERSION, SEQUENCE = 8, "KEY", 50, 54, 58

# So many segments at most are listed by a record or an index packet.
LISTED = 200


# ---- octets

def number(n):
    """The shortest spelling of a type or a length."""
    if n < 253:
        return bytes([n])
    if n < 2 ** 16:
        return b"\xfd" + n.to_bytes(2, "big")
    return b"\xfe" + n.to_bytes(4, "big")


def element(kind, value):
    return number(kind) + number(len(value)) + value


def natural(n):
    """The octets of a number field."""
    width = next(w for w in (1, 2, 4, 8) if n < 256 ** w)
    return n.to_bytes(width, "big")


HINTS = {"seg": SEGMENT, "v": VERSION, "seq": SEQUENCE}
DIGESTS = {"sha256digest": 1, "params-sha256": 2}


def text_component(word):
    """The component of a text that is one, as a pair of type and octets."""
    form, equals, text = word.partition("=")
    if form in HINTS and equals:
        return HINTS[form], natural(int(text))
    if form in DIGESTS and equals:
        return DIGESTS[form], bytes.fromhex(text)
    kind = int(form) if equals else GENERIC
    octets = urllib.parse.unquote_to_bytes(text if equals else word)
    return kind, octets[3:] if octets and not octets.strip(b".") else octets


def text_name(uri):
    """A name of a text that is one, as pairs of type and octets."""
    return [text_component(word) for word in uri.strip("/").split("/") if word]


def name_element(name):
    return element(7, b"".join(element(kind, value) for kind, value in name))


def signature_info(kind, key_name):
    return element(kind, element(27, b"\x04") + element(28, name_element(key_name)))


def key_name(node):
    return text_name(node) + [(GENERIC, KEYWORD_KEY.encode())]


def mac(key, signed):
    return hmac.new(key, signed, hashlib.sha256).digest()


class Bend:
    """What is done to octets before they are signed, and to the mac: nothing, unless something is drawn."""

    def __init__(self, draw=None):
        self.draw = draw
        self.breaks_mac = draw is not None and draw.random() < 0.2

    def __call__(self, octets):
        return rebuilt(self.draw, octets) if self.draw and not self.breaks_mac else octets

    def mac(self, key, signed):
        right = mac(key, signed)
        return self.draw.choice([right[1:], bytes(32), right + b"\x00"]) if self.breaks_mac else right


same = Bend()


def data(name, last, content, node, key, bend=same):
    """A Data packet. What is signed is bent before."""
    meta = element(20, element(26, element(*last))) if last else b""
    signed = bend(name_element(name) + meta + element(21, content) + signature_info(22, key_name(node)))
    return element(6, signed + element(23, bend.mac(key, signed)))


def interest(name, can_be_prefix=False):
    return element(5, name_element(name) + (element(33, b"") if can_be_prefix else b""))


def signed_interest(name, parameters, node, key, bend=same):
    """A signed Interest, whose last name component is the digest of its parameters. What is signed is bent before."""
    rest = bend(element(36, parameters) + signature_info(44, key_name(node)))
    inside = b"".join(element(kind, value) for kind, value in name)
    rest += element(46, bend.mac(key, inside + rest))
    whole = name + [(2, hashlib.sha256(rest).digest())]
    return element(5, name_element(whole) + rest)


def number_at(octets, at):
    """A type or a length, and the place after it."""
    width = {253: 2, 254: 4, 255: 8}.get(octets[at], 0)
    if not width:
        return octets[at], at + 1
    return int.from_bytes(octets[at + 1:at + 1 + width], "big"), at + 1 + width


def elements(octets):
    """The elements that octets are, as pairs of type and value, or None where they are none."""
    found, at = [], 0
    try:
        while at < len(octets):
            kind, at = number_at(octets, at)
            length, at = number_at(octets, at)
            if at + length > len(octets) or kind == 0:
                return None
            found.append((kind, octets[at:at + length]))
            at += length
    except IndexError:
        return None
    return found


def spelled(found):
    return b"".join(element(kind, value) for kind, value in found)


def name_of(packet):
    """The components of a packet's name."""
    return elements(elements(elements(packet)[0][1])[0][1])


# ---- what a group sends

def state_vector(numbers):
    """A StateVector of pairs of name and number, in canonical order of the names."""
    in_order = sorted((pair for pair in numbers if pair[1]), key=lambda pair: [(t, len(v), v) for t, v in pair[0]])
    return element(201, b"".join(element(202, name_element(name) + element(204, natural(n))) for name, n in in_order))


def publication(record, name, contents, sign, bend_listing=same):
    """The parts of a publication as lists of name, last number, content and packet: the record, the index packets, the
    segments. Of a withdrawal the name is None, and the contents are the number that it withdraws. `sign` makes a packet
    of the first three."""
    def part(*said):
        return [*said, sign(*said)]

    def numbered(name, contents):
        return [part(name + [(SEGMENT, natural(i))], (SEGMENT, natural(len(contents) - 1)), content)
                for i, content in enumerate(contents)]

    if name is None:
        return [part(record, None, bend_listing(element(133, natural(contents))))]
    segments = numbered(name, contents)
    listed = [element(131, hashlib.sha256(s[3]).digest()) for s in segments]
    listing = name_element(name) + element(129, natural(len(contents)))
    if len(segments) <= LISTED:
        return [part(record, None, bend_listing(listing + b"".join(listed)))] + segments
    lists = [b"".join(listed[i:i + LISTED]) for i in range(0, len(listed), LISTED)]
    index = numbered(record, [bend_listing(it) for it in lists])
    listing += b"".join(element(135, hashlib.sha256(i[3]).digest()) for i in index)
    return [part(record, None, bend_listing(listing))] + index + segments


class Group:
    """A group with the publications that were drawn so far: enough to make the packets that its members would send."""

    def __init__(self, draw):
        self.draw = draw
        self.name = draw.choice(["/g", "/site/docs", "/a/b/c", "/%00", "/seg=1", "/n/0"])
        self.members = []
        self.clients = []
        self.sent = 0
        for j in range(draw.randint(1, 5)):
            self.members.append((f"m{j}", draw.choice([f"/n/{j}", f"/v={j}", f"/n/{'n' * (j + 1)}"]),
                                 bytes([65 + j]) * draw.choice([1, 2, 20, 64, 65, 100])))
        for j in range(draw.randint(0, 2)):
            self.clients.append((f"c{j}", f"/c/{j}", bytes([97 + j]) * draw.choice([1, 2, 70])))
        self.log = {j: [] for j in range(len(self.members))}
        self.issued = []

    def record_name(self, p, seq):
        return text_name(self.members[p][1]) + text_name(self.name) + [(SEQUENCE, natural(seq))]

    def packets(self, p, seq, bend=same, bend_listing=same):
        """The record, the index packets and the segments of a publication, of which a withdrawal has the record alone.

        What is signed is bent before, and the lists of the record and the index packets too."""
        name, contents = self.log[p][seq - 1]
        _, node, key = self.members[p]
        parts = publication(self.record_name(p, seq), name and text_name(name), contents,
                            lambda *said: data(*said, node, key, bend), bend_listing)
        return [packet for *_, packet in parts]

    def sync(self, signer, vector, bend=same):
        return self.sync_of(signer, state_vector([(text_name(m[1]), n) for m, n in zip(self.members, vector)]), bend)

    def sync_of(self, signer, parameters, bend=same):
        _, node, key = self.members[signer]
        return signed_interest(text_name(self.name) + [(VERSION, b"\x02")], parameters, node, key, bend)

    def command(self, member, client, verb, fields, bend=same):
        _, node, key = self.clients[client]
        name = text_name(self.members[member][1]) + [(GENERIC, verb.encode())]
        return signed_interest(name, element(201, fields), node, key, bend)


# ---- packets that were changed

def changed(draw, octets):
    """The octets with one change, or none."""
    octets = bytearray(octets)
    at = draw.randrange(len(octets))
    how = draw.randrange(7)
    if how == 0:
        octets[at] ^= 1 << draw.randrange(8)
    elif how == 1:
        del octets[at:]
    elif how == 2:
        octets[at:at] = draw.choice([b"\xf0\x00", b"\xf1\x00", b"\x00", b"\xff"])
    elif how == 3:
        octets += draw.choice([b"\xf0\x00", b"\x00", b"\x06\x00"])
    elif how == 4 and 1 < len(octets) < 254:
        octets = bytearray(octets[:1] + bytes([(octets[1] + 2) % 253]) + octets[2:] + b"\xf0\x00")
    elif how == 5:
        del octets[at:at + draw.randint(1, 4)]
    return bytes(octets) or b"\x05"


def rebuilt(draw, octets):
    """The octets with one of their elements, at any depth, taken out, doubled, moved or changed; lengths are true."""
    found = elements(octets)
    if not found:
        return octets
    i = draw.randrange(len(found))
    kind, value = found[i]
    if elements(value) and draw.random() < 0.7:
        found[i] = kind, rebuilt(draw, value)
        return spelled(found)
    how = draw.randrange(9)
    if how == 0:
        del found[i]
    elif how == 1:
        found.insert(i, found[i])
    elif how == 2:
        found.append(found.pop(i))
    elif how == 3:
        other = draw.choice([240, 241, 30, 32, 1000, 65537, 20, 36, 44])
        found.insert(i, (other, draw.choice([b"", b"\x00", b"\x08\x00"])))
    elif how == 4:
        found[i] = draw.choice([kind + 1, kind ^ 2, 240, 7, 8, 1, 2]), value
    elif how == 5:
        found[i] = kind, value + draw.choice([b"\x00", b"\xf0\x00", b"\x07\x00"])
    elif how == 6:
        found[i] = kind, value[:-1]
    elif how == 7:
        found[i] = kind, b"\x00" + value
    else:
        found[i] = kind, bytes(len(value))
    return spelled(found)


# ---- the command line

# What a packet is like, in words, and what is done for it stands in `Form`.
FORMS = {
    "good": "nothing is wrong",
    "wrong-key": "the mac is made with another key",
    "unknown-key": "the key's name is /nobody/KEY",
    "unsigned": "what says how it is signed, and the signature, are left out",
    "no-info": "what says how it is signed is left out",
    "no-parameters": "the parameters, or the content, are left out",
    "wrong-digest": "an Interest's parameters digest is 32 zeros; the last bit of Data's content is another one",
    "wrong-name": "a component x is added to the name",
    "no-name": "the Name is left out",
    "empty": "the parameters, or the content, have no octets",
    "critical": "an unknown critical element (type 241) comes before what says how it is signed",
    "not-critical": "an unknown element that isn't critical (type 240) comes there",
    "misplaced": "what says how it is signed comes before the parameters or the content",
    "repeated": "what says how it is signed comes twice",
    "after-signature": "an element that isn't critical (type 240) comes after the signature",
    "wrong-type": "the packet's type is 6 and it is an Interest, or 5 and it is Data",
    "long-form": "the packet's length isn't in its shortest form",
    "truncated": "the last octet is cut off",
    "trailing": "an octet comes after the packet",
    "too-long": "an element that isn't critical makes it longer than 8,800 octets",
}
# The line of a script that gives a packet of that kind to a member.
LINES = {"sync": "hear", "record": "feed", "index": "feed", "segment": "feed", "withdrawal": "feed", "insert": "order",
         "check": "order", "delete": "order", "answer": None, "interest": "ask"}
COMMANDS = "insert", "check", "delete"


def digested(found):
    """The elements of an Interest, with the digest of its parameters at the end of its name, where it has them."""
    at = next((i for i, (kind, _) in enumerate(found) if kind == 36), None)
    if at is None or found[0][0] != 7:
        return found
    name = elements(found[0][1])[:-1] + [(2, hashlib.sha256(spelled(found[at:])).digest())]
    return [(7, spelled(name))] + found[1:]


class Form:
    """What is done to a packet so that it has one of the FORMS: before its signing, at its mac, and after it."""

    def __init__(self, form):
        self.form = form

    def name(self, name):
        return name + [(GENERIC, b"x")] if self.form == "wrong-name" else name

    def node(self, node):
        return "/nobody" if self.form == "unknown-key" else node

    def content(self, octets):
        if self.form == "wrong-digest" and octets:
            return octets[:-1] + bytes([octets[-1] ^ 1])
        return b"" if self.form == "empty" else octets

    def __call__(self, octets):
        found = elements(octets)
        if self.form in ("critical", "not-critical"):
            found.insert(-1, (241 if self.form == "critical" else 240, b""))
        elif self.form == "misplaced":
            found[-2:] = found[:-3:-1]
        elif self.form == "repeated":
            found.append(found[-1])
        return spelled(found)

    def mac(self, key, signed):
        return mac(key + b"!" if self.form == "wrong-key" else key, signed)

    def packet(self, octets):
        (kind, value), = elements(octets)
        found = elements(value)
        left_out = {"unsigned": (22, 23, 44, 46), "no-info": (22, 44), "no-parameters": (21, 36)}.get(self.form, ())
        found = [(inner, octets) for inner, octets in found if inner not in left_out]
        if self.form == "no-name":
            del found[0]
        elif self.form in ("after-signature", "too-long"):
            found.append((240, bytes(max(0, 8800 - len(value)) if self.form == "too-long" else 0)))
        value = spelled(digested(found) if kind == 5 else found)
        if self.form == "wrong-digest" and kind == 5 and found[-1][0] == 46:
            end = len(element(*found[0]))
            value = value[:end - 32] + bytes(32) + value[end:]
        length = number(len(value))
        if self.form == "long-form":
            head, width = (b"\xfd", 2) if len(value) < 253 else (b"\xfe", 4)
            length = head + len(value).to_bytes(width, "big")
        octets = number(kind ^ 3 if self.form == "wrong-type" else kind) + length + value
        return octets[:-1] if self.form == "truncated" else octets + b"\x00" if self.form == "trailing" else octets


def content_octets(text):
    """The octets of a CONTENT."""
    form, _, rest = text.partition(":")
    if form == "text":
        return rest.encode()
    if form == "hex":
        return bytes.fromhex(rest)
    count, octet = rest.split(":")
    return bytes([int(octet)]) * int(count)


def part_of(options, form):
    """The part of a publication that the options ask for."""
    record = text_name(options.node) + text_name(options.group) + [(SEQUENCE, natural(options.seq))]
    content = content_octets(options.content)
    contents = [content[i:i + options.size] for i in range(0, len(content), options.size)]
    name, contents = (None, options.of) if options.kind == "withdrawal" else (text_name(options.object), contents)
    parts = publication(record, name, contents, lambda *said: data(*said, options.node, options.key))
    if options.kind in ("index", "segment"):
        lists = len(parts) - 1 - len(contents)
        parts = (parts[1:1 + lists] if options.kind == "index" else parts[1 + lists:])[options.number:]
    if not parts:
        raise SystemExit(f"packets.py: the publication has no {options.kind} with the number {options.number}")
    name, last, content, _ = parts[0]
    return data(form.name(name), last, form.content(content), form.node(options.node), options.key, form)


def packet_of(options, form):
    """The packet that the options ask for."""
    def signed(name, parameters):
        parameters = b"" if form.form == "empty" else parameters
        return signed_interest(form.name(name), parameters, form.node(options.node), options.key, form)

    def numbers(*fields):
        return b"".join(element(kind, natural(n)) for kind, n in fields if n is not None)

    if options.kind == "sync":
        entries = [entry.rpartition("=") for entry in options.what]
        vector = state_vector([(text_name(node), int(n)) for node, _, n in entries])
        return signed(text_name(options.group) + [(VERSION, b"\x02")], vector)
    if options.kind in COMMANDS:
        fields = name_element(text_name(options.object))
        if options.kind == "insert":
            fields += numbers((204, options.first), (205, options.last))
        if options.kind == "check":
            fields = numbers((206, options.process or 1))
        return signed(text_name(options.to) + [(GENERIC, options.kind.encode())], element(201, fields))
    if options.kind == "answer":
        content = element(207, numbers((206, options.process), (208, options.code), (209, options.inserted),
                                       (210, options.deleted)))
        name = form.name(name_of(options.command))
        return data(name, None, form.content(content), form.node(options.node), options.key, form)
    if options.kind == "interest":
        name = text_name(options.what[0]) if options.what else name_of(options.full_name_of)
        if options.full_name_of:
            name = name + [(1, hashlib.sha256(options.full_name_of).digest())]
        return element(5, form(elements(interest(form.name(name), options.prefix))[0][1]))
    return part_of(options, form)


def read_options():
    forms = "\n".join(f"  {form:17}{what}" for form, what in FORMS.items())
    parser = argparse.ArgumentParser(description=__doc__, epilog=f"forms:\n{forms}", usage="packets.py KIND [OPTION..]",
                                     formatter_class=argparse.RawDescriptionHelpFormatter)
    parser.add_argument("kind", metavar="KIND", choices=LINES, help=", ".join(LINES))
    parser.add_argument("what", metavar="WHAT", nargs="*", help="NODE=N of sync, NAME of interest")
    parser.add_argument("--form", choices=FORMS, default="good", metavar="FORM", help="one of those below")
    parser.add_argument("--line", metavar="MEMBER", help="prints a script's line for this member")
    parser.add_argument("--prefix", action="store_true", help=argparse.SUPPRESS)
    # The table above explains the others.
    for kind, defaults in ((bytes.fromhex, "key command full-name-of"),
                           (str, "node object group=/g content=text:abc to=/alice"),
                           (int, "seq process inserted deleted number=0 of=1 first=5 last=6 code=100 size=10"),
                           (int, "fetcher=1")):
        for name, _, default in (option.partition("=") for option in defaults.split()):
            parser.add_argument(f"--{name}", type=kind, default=default or None, help=argparse.SUPPRESS)
    options = parser.parse_intermixed_args()
    node, key = ("/carl", b"k4") if options.kind in COMMANDS else ("/alice", b"k1")
    options.node, options.key = options.node or node, options.key or key
    options.object = options.object or ("/in" if options.kind == "insert" else "/doc")
    options.seq = options.seq or (2 if options.kind == "withdrawal" else 1)
    if options.kind == "answer" and not options.command:
        parser.error("an answer asks for --command")
    if options.kind == "interest" and not options.what and not options.full_name_of:
        parser.error("an Interest asks for a NAME or --full-name-of")
    if options.line and not LINES[options.kind]:
        parser.error("no line of a script takes an answer")
    return options


def main():
    options = read_options()
    form = Form(options.form)
    digits = form.packet(packet_of(options, form)).hex()
    fetcher = f" {options.fetcher}" if LINES[options.kind] == "feed" else ""
    print(f"{LINES[options.kind]} {options.line}{fetcher} {digits}" if options.line else digits)


if __name__ == "__main__":
    main()
