"""Lines, names and packets as tools/model.py reads and writes them, and its draws, by docs/SCRIPT.md, docs/PACKETS.md
and docs/COMMANDS.md. A name is a tuple of components, each a pair of type and octets.
"""
import hashlib
import itertools
import re
import struct
from collections import namedtuple
from functools import lru_cache, partial
from types import SimpleNamespace
from urllib.parse import quote, unquote_to_bytes

from packets import GENERIC, HINTS, LISTED, SEGMENT, SEQUENCE, VERSION, data, element, mac, natural, signed_interest

IMPLICIT_DIGEST, PARAMETERS_DIGEST = 1, 2

# The types of the standard, and all with those of this project.
STANDARD = {name: int(kind, 16) for kind, name in map(str.split, """
01 ImplicitSha256DigestComponent, 02 ParametersSha256DigestComponent, 05 Interest, 06 Data, 07 Name,
08 GenericNameComponent, 0a Nonce, 0c InterestLifetime, 12 MustBeFresh, 14 MetaInfo, 15 Content, 16 SignatureInfo,
17 SignatureValue, 18 ContentType, 19 FreshnessPeriod, 1a FinalBlockId, 1b SignatureType, 1c KeyLocator, 1d KeyDigest,
1e ForwardingHint, 21 CanBePrefix, 22 HopLimit, 24 ApplicationParameters, 2c InterestSignatureInfo,
2e InterestSignatureValue, 32 SegmentNameComponent, 36 VersionNameComponent, 3a SequenceNumNameComponent
""".split(","))}
TYPES = {**STANDARD, "SegmentCount": 129, "Digest": 131, "Withdraws": 133, "IndexDigest": 135, "StateVector": 201,
         "StateVectorEntry": 202, "SeqNo": 204, "RepoCommandParameter": 201, "StartBlockId": 204, "EndBlockId": 205,
         "ProcessId": 206}


class Refused(Exception):
    """A line is refused with this word."""

class Fault(Exception):
    """Octets are refused with these words of a report; `at` is where the element begins that is at fault."""
    def __init__(self, *words, at=None):
        super().__init__(" ".join(map(str, words)))
        self.at = at

def sha256(octets): return hashlib.sha256(octets).digest()
def tlv(kind, value): return element(TYPES[kind], value)


# ---- names

COMPONENT = r"(seg|v|seq)=(0|[1-9][0-9]*)|(?:([1-9][0-9]*)=)?((?:[A-Za-z0-9._~-]|%[0-9A-Fa-f]{2})+)"

def matched(form, word):
    """The match of a word that must have a form."""
    found = re.fullmatch(form, word)
    if not found:
        raise Refused("Syntax")
    return found

def component_of(text):
    hint, number, kind, escaped = matched(COMPONENT, text).groups()
    if hint and int(number) < 2 ** 64:
        return HINTS[hint], natural(int(number))
    kind, value = int(kind or GENERIC), unquote_to_bytes(escaped or "")
    if hint or not PARAMETERS_DIGEST < kind <= 65535 or value in (b".", b".."):
        raise Refused("Syntax")
    return kind, value if value.strip(b".") else value[3:]

def name_of(text):
    components = matched("(?:ndn:)?/(.*)", text)[1]
    return tuple(map(component_of, components.split("/"))) if components else ()

def component_text(kind, value):
    number = int.from_bytes(value, "big")
    for hint in HINTS:
        if kind == HINTS[hint] and number < 2 ** 64 and natural(number) == value:
            return f"{hint}={number}"
    escaped = quote(value, safe="") if value.strip(b".") else "..." + value.decode()
    return escaped if kind == GENERIC else f"{kind}={escaped}"

def text_of(name): return "".join("/" + component_text(kind, value) for kind, value in name) or "/"
def name_value(name): return b"".join(element(kind, value) for kind, value in name)
def is_object_name(name): return 1 <= len(name_value(name)) <= 400 and all(kind > PARAMETERS_DIGEST for kind, _ in name)
def key_name_of(node): return node + ((GENERIC, b"KEY"),)
def sync_name(group): return group + ((VERSION, b"\x02"),)


# ---- lines

# Each line with the kinds of its words, and the range of a number, of a name's value or of octets. M is a member, P a
# publisher, L a mirror, LABEL a label that is new. What the line prints begins with its first word and those with ^.
LINES = """
group URI:1-200; member LABEL URI:1-200 HEX:1-128; client LABEL URI:1-200 HEX:1-128; mirror LABEL P URI:0-400
publish ^M URI:1-400 N:1-8000 CONTENT:0-16000000; withdraw ^M N:1-65535; catalogue ^M; summary
dump ^M M N:1-65535 N:0-20100; deliver ^N:1-4294967295 ^M; sync ^N:1-4294967295; vector ^M; advance N:0-1000000000
fire ^M; claim ^M ^N:1-16; answer ^M ^N:1-16 M; lose ^M ^N:1-16; fetch ^M N:1-16 N:1-16 N:0-1000; settle N:1-16
restart ^M; traffic; watch ^M P URI:0-400; told ^M ^N:1-4294967295
mdeliver ^N:1-4294967295 ^L; mfetch ^L N:1-16 N:1-16 N:0-1000; mcatalogue ^L
insert ^M CLIENT URI:1-400 N:0-999999999999999999 N:0-999999999999999999; status ^M CLIENT N:1-4294967295
block ^M N:1-4294967295 N:0-999999999999999999 CONTENT:1-8000; delete ^M CLIENT URI:1-400
hear ^M HEX:1-9000; feed ^M ^N:1-16 HEX:1-9000; ask ^M HEX:1-9000; order ^M HEX:1-9000
"""
Word = namedtuple("Word", "is_printed kind least most")
GRAMMAR = {}
for verb, *words in map(str.split, re.split("[;\n]", LINES.strip())):
    forms = [re.fullmatch(r"(\^?)([A-Z]+):?(\d*)-?(\d*)", word).groups() for word in words]
    GRAMMAR[verb] = [Word(bool(mark), kind, int(least or 0), int(most or 16)) for mark, kind, least, most in forms]

LABEL = "[a-z][a-z0-9]{0,15}"
NUMBER = "0|[1-9][0-9]{0,17}"
DIGITS = "((?:[0-9A-Fa-f]{2})*)"
CONTENT = f"text:(.*)|hex:{DIGITS}|fill:({NUMBER}):({NUMBER})"

def content_of(word):
    """A content. One of an octet that is none is too long."""
    text, digits, count, octet = matched(CONTENT, word).groups()
    if count:
        return bytes([int(octet)]) * min(int(count), 16_000_001) if int(octet) <= 255 else bytes(16_000_001)
    return bytes.fromhex(digits) if text is None else text.encode()

def value_of(kind, word):
    """What a word stands for, and its size; of `*`, which is every publisher, None."""
    if kind == "N":
        return int(matched(NUMBER, word)[0]), int(word)
    if kind == "URI":
        return name_of(word), len(name_value(name_of(word)))
    if kind in ("HEX", "CONTENT"):
        octets = content_of(word) if kind == "CONTENT" else bytes.fromhex(matched(DIGITS, word)[0])
        return octets, len(octets)
    return None if kind == "P" and word == "*" else matched(LABEL, word)[0], 0

def read_line(line):
    """The first word of a line, the kinds and the values of the others, and the words that are printed again; or None
    where the line is passed over."""
    written = line.strip(b" ")
    if not written or written.startswith(b"#"):
        return None
    if not all(0x20 <= octet <= 0x7e for octet in line):
        raise Refused("Syntax")
    verb, *words = line.decode("ascii").split()
    forms = GRAMMAR.get(verb, [None] * 9)
    if len(words) != len(forms):
        raise Refused("Syntax")
    read = [value_of(form.kind, word) for form, word in zip(forms, words)]
    values = [value for value, _ in read]
    if (not all(form.least <= size <= form.most for form, (_, size) in zip(forms, read))
            or verb == "publish" and len(values[3]) > 20_000 * values[2]
            or verb == "insert" and not 0 <= values[4] - values[3] < 200):
        raise Refused("Limit")
    return verb, [form.kind for form in forms], values, [verb] + [w for form, w in zip(forms, words) if form.is_printed]


# ---- elements and fields

Element = namedtuple("Element", "kind value start value_start")

def elements(octets, base=0):
    """The elements that octets are, which begin at this offset; the first fault is raised when it is reached."""
    def number_at(at, begins):
        width = {253: 2, 254: 4, 255: 8}.get(octets[at], 0) if at < len(octets) else 0
        if at + 1 + width > len(octets):
            raise Fault("Truncated", base + at, at=base + begins)
        number = int.from_bytes(octets[at + 1:at + 1 + width], "big") if width else octets[at]
        if number < {0: 0, 2: 253, 4: 2 ** 16, 8: 2 ** 32}[width]:
            raise Fault("NotShortest", base + at, at=base + begins)
        return number, at + 1 + width

    at = 0
    while at < len(octets):
        kind, after = number_at(at, at)
        if not 0 < kind < 2 ** 32:
            raise Fault("TypeTooLarge" if kind else "ZeroType", base + at, at=base + at)
        length, start = number_at(after, at)
        if start + length > len(octets):
            raise Fault("Truncated", base + at, at=base + at)
        yield Element(kind, octets[start:start + length], base + at, base + start)
        at = start + length

def fields(table, found):
    """The elements that are fields of a table, each with its name and what its reader makes of it, where it has one. Of
    the others those that are critical are faults. A field whose name ends in * may repeat."""
    places, place = list(table.items()), 0
    kinds = [TYPES[name.rstrip("*")] for name in table]
    for e in found:
        if e.kind in kinds[place:]:
            place = kinds.index(e.kind, place)
            name, read = places[place]
            place += not name.endswith("*")
            yield name, read(e, name) if read else e.value, e
        elif e.kind < 32 or e.kind % 2:
            raise Fault("Critical", e.kind, e.start, at=e.start)

def inside(e): return elements(e.value, e.value_start)
def values(table, found): return {name: value for name, value, _ in fields(table, found)}
def bad_field(e, field): return Fault("BadField", field, e.start, at=e.start)

def sized(*sizes):
    """Reads a field of so many octets, as a number."""
    def read(e, field):
        if len(e.value) not in sizes:
            raise bad_field(e, field)
        return int.from_bytes(e.value, "big")
    return read

def name_in(e, field, of=None, counts=range(10_000)):
    """The name that an element's value is, of so many components; `of` is the field, where that is another element."""
    name = []
    for c in inside(e):
        if c.kind > 65535 or c.kind <= PARAMETERS_DIGEST and len(c.value) != 32:
            raise bad_field(of or e, field)
        name.append((c.kind, c.value))
    if len(name) not in counts:
        raise bad_field(e, field)
    return tuple(name)

def node_name(e, field):
    """A name in a state vector, where any fault is the field's."""
    try:
        return name_in(e, field)
    except Fault:
        raise bad_field(e, field)

def key_locator(e, field):
    """The name of a key, or None where its digest stands there."""
    first = next(inside(e), None)
    if first is None or first.kind not in (TYPES["Name"], TYPES["KeyDigest"]):
        raise bad_field(e, field)
    return name_in(first, field, of=e) if first.kind == TYPES["Name"] else None

def signature_in(e, field):
    """The type of a signature, and the name of its key."""
    info = values({"SignatureType": number, "KeyLocator": key_locator}, inside(e))
    if "SignatureType" not in info:
        raise Fault("Missing", "SignatureType")
    return info["SignatureType"], info.get("KeyLocator")

number = sized(1, 2, 4, 8)
INTEREST = {"Name": partial(name_in, counts=range(1, 10_000)), "CanBePrefix": sized(0), "MustBeFresh": sized(0),
            "ForwardingHint": None, "Nonce": sized(4), "InterestLifetime": number, "HopLimit": sized(1),
            "ApplicationParameters": None, "InterestSignatureInfo": signature_in, "InterestSignatureValue": None}
META = {"ContentType": number, "FreshnessPeriod": number, "FinalBlockId": partial(name_in, counts=[1])}
DATA = {"Name": name_in, "MetaInfo": lambda e, field: values(META, inside(e)), "Content": None,
        "SignatureInfo": signature_in, "SignatureValue": None}
RECORD = {"Withdraws": number, "Name": name_in, "SegmentCount": number, "Digest*": sized(32), "IndexDigest*": sized(32)}
COMMAND = {"Name": name_in, "StartBlockId": number, "EndBlockId": number, "ProcessId": number}


# ---- packets, and which are taken

def packet_of(kind, table, required, octets):
    """The values of a packet's fields, where they begin, and the packet's value."""
    if len(octets) > 8800:
        raise Fault("PacketTooLong")
    e = next(elements(octets))
    if e.kind != TYPES[kind]:
        raise Fault("WrongType", e.kind)
    if e.value_start + len(e.value) < len(octets):
        raise Fault("TrailingOctets", e.value_start + len(e.value))
    found, at = {}, {}
    for name, value, its in fields(table, inside(e)):
        found[name], at[name] = value, its.start
    for name in required:
        if name not in found:
            raise Fault("Missing", name)
    return found, at, e.value

def read_interest(octets):
    found, at, _ = packet_of("Interest", INTEREST, ["Name"], octets)
    name, info = found["Name"], found.get("InterestSignatureInfo")
    begins, ends, signed, digested = at.get("ApplicationParameters"), at.get("InterestSignatureValue"), None, None
    if begins and name[-1][0] != PARAMETERS_DIGEST:
        raise Fault("Missing", "ParametersDigest")
    if info and not ends:
        raise Fault("Missing", "SignatureValue")
    if info and begins:
        digested, signed = octets[begins:], name_value(name[:-1]) + octets[begins:ends]
    return SimpleNamespace(name=name, can_be_prefix="CanBePrefix" in found, must_be_fresh="MustBeFresh" in found,
                           parameters=found.get("ApplicationParameters"), mac=found.get("InterestSignatureValue"),
                           signature=info, signed=signed, digested=digested)

def signer_of(interest, parties):
    """Who of the parties signed an Interest."""
    if interest.signed is None:
        raise Fault("Unsigned")
    if interest.name[-1] != (PARAMETERS_DIGEST, sha256(interest.digested)):
        raise Fault("ParamsDigest")
    for party in parties:
        if interest.signature == (4, party.key_name):
            if mac(party.key, interest.signed) != interest.mac:
                raise Fault("BadSignature")
            return party
    raise Fault("UnknownKey")

def first_of(kind, octets):
    """The first element, of a type of this project's."""
    first = next(elements(octets), None)
    if first is None or first.kind != TYPES[kind]:
        raise Fault("WrongType", at=0)
    return first

def check_sync(octets, group, members):
    """Who signed a sync Interest, and its vector."""
    interest = read_interest(octets)
    if interest.name[:-1] != sync_name(group) or interest.name[-1][0] != PARAMETERS_DIGEST:
        raise Fault("WrongGroup")
    signer = signer_of(interest, members)
    try:
        return signer, vector_of(interest.parameters, members)
    except Fault as fault:
        raise fault if fault.at is None else Fault("BadVector", fault.at)

def vector_of(octets, members):
    vector = [0] * len(members)
    for _, _, e in fields({"StateVectorEntry*": None}, inside(first_of("StateVector", octets))):
        entry = values({"Name": node_name, "SeqNo": number}, inside(e))
        if len(entry) < 2:
            raise Fault("Missing", at=e.start)
        for i, member in enumerate(members):
            if member.node == entry["Name"]:
                vector[i] = max(vector[i], entry["SeqNo"])
                if vector[i] > 65535:
                    raise Fault("NumberTooLarge", member.label, vector[i])
    return vector

INSERT, CHECK, DELETE = ((GENERIC, verb) for verb in (b"insert", b"check", b"delete"))
NEEDED = {INSERT: ["Name", "StartBlockId", "EndBlockId"], CHECK: ["ProcessId"], DELETE: ["Name"]}

def check_command(octets, node, clients):
    """Whose command octets are, and which: its verb and what that needs."""
    interest = read_interest(octets)
    verb = interest.name[-2] if interest.name[:-2] == node else None
    if verb not in NEEDED or interest.name[-1][0] != PARAMETERS_DIGEST:
        raise Fault("OtherName")
    client = signer_of(interest, clients)
    found = values(COMMAND, inside(first_of("RepoCommandParameter", interest.parameters)))
    words = [found.get(field) for field in NEEDED[verb]]
    if (None in words or verb != CHECK and not is_object_name(words[0])
            or verb == INSERT and not 0 <= words[2] - words[1] < 200):
        raise Fault("BadParameter")
    return client, (verb[1].decode(), *words)

def check_part(octets, want):
    """Refuses octets that don't pass as the packet of a wanted part."""
    found, at, value = packet_of("Data", DATA, ["Name", "SignatureInfo", "SignatureValue"], octets)
    signed = octets[at["Name"]:at["SignatureValue"]]
    for is_so, word in ((value == signed + tlv("SignatureValue", found["SignatureValue"]), "UnsignedOctets"),
                        (found["Name"] == want.name, "OtherName"),
                        (want.digest in (None, sha256(octets)), "OtherDigest"),
                        (found["SignatureInfo"] == (4, want.publisher.key_name), "UnknownKey"),
                        (mac(want.publisher.key, signed) == found["SignatureValue"], "BadSignature"),
                        (says(found.get("Content", b""), want), "BadRecord")):
        if not is_so:
            raise Fault(word)

def says(content, want):
    """The content is that of a record or of an index packet, where it must be."""
    try:
        if want.listed is not None:
            return len(list(fields({"Digest*": sized(32)}, elements(content)))) == want.listed
        if want.digest is not None:
            return True
        found = list(fields(RECORD, elements(content)))
    except Fault:
        return False
    names, said = [name for name, _, _ in found], [value for _, value, _ in found]
    if names == ["Withdraws"]:
        return 1 <= said[0] < want.seq
    if names[:2] != ["Name", "SegmentCount"] or not is_object_name(said[0]) or said[1] > 20_000:
        return False
    return names[2:] == (["Digest*"] * said[1] if said[1] <= LISTED else ["IndexDigest*"] * -(-said[1] // LISTED))


# ---- what members write

def data_of(name, last, content, signer): return data(name, last, content, text_of(signer.node), signer.key)
def digests(kind, parts): return b"".join(tlv(kind, sha256(packet)) for _, packet in parts)

def parts_of(record, name, contents, withdrawn, member):
    """The parts of a publication as pairs of a name and a packet: the record, the index packets, the segments."""
    segments, index = numbered(name, contents, member), []
    listed = digests("Digest", segments)
    if len(segments) > LISTED:
        lists = [segments[i:i + LISTED] for i in range(0, len(segments), LISTED)]
        index = numbered(record, [digests("Digest", it) for it in lists], member)
        listed = digests("IndexDigest", index)
    content = (tlv("Withdraws", natural(withdrawn)) if withdrawn else
               tlv("Name", name_value(name)) + tlv("SegmentCount", natural(len(contents))) + listed)
    return [(record, data_of(record, None, content, member))] + index + segments

def numbered(name, contents, signer):
    """Such pairs, whose names are this one and a number from 0; each packet says which is the last."""
    names = [name + ((SEGMENT, natural(i)),) for i in range(len(contents))]
    return [(one, data_of(one, names[-1][-1], content, signer)) for one, content in zip(names, contents)]

def sync_interest(group, vector, signer):
    """The sync Interest of a vector, which is given as pairs of a node's name and a number."""
    canonical = sorted(([(kind, len(value), value) for kind, value in node], node, n) for node, n in vector)
    entries = [tlv("Name", name_value(node)) + tlv("SeqNo", natural(n)) for _, node, n in canonical]
    parameters = tlv("StateVector", b"".join(tlv("StateVectorEntry", entry) for entry in entries))
    return signed_interest(list(sync_name(group)), parameters, text_of(signer.node), signer.key)


# ---- draws

@lru_cache(maxsize=2 ** 16)
def chacha(stream, block):
    """The 16 words of a block of ChaCha with 8 rounds under a key of zeros. In the state, words 12 and 13 are the
    block's number and words 14 and 15 the stream's, the lower word first."""
    state = struct.unpack("<16I", b"expand 32-byte k" + bytes(32) + struct.pack("<2Q", block, stream))
    x = list(state)
    for turn, i in itertools.product([0, 1] * 4, range(4)):
        a, b, c, d = i, 4 + (i + turn) % 4, 8 + (i + 2 * turn) % 4, 12 + (i + 3 * turn) % 4
        for p, q, r, by in (a, b, d, 16), (c, d, b, 12), (a, b, d, 8), (c, d, b, 7):
            x[p] = (x[p] + x[q]) & 0xffffffff
            x[r] = ((x[r] ^ x[p]) << by | (x[r] ^ x[p]) >> 32 - by) & 0xffffffff
    return [(a + b) & 0xffffffff for a, b in zip(x, state)]

def draw(stream, place): return chacha(stream, place // 16)[place % 16]
def passes(stream, place, loss): return loss == 0 or loss < 1_000 and draw(stream, place) % 1_000 >= loss
