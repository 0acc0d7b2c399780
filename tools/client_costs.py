"""The costliest scripts of what clients and askers do, of restarts, of lines as they are written, and of packets."""
import hashlib

import packets
from cost_kinds import KEY, heads, kind, node, shuffled

# ---- starting again

@kind("restart after as many publications that wait to be fetched", 49_900)
def restart(n):
    yield from heads(2)
    for i in range(n):
        yield "publish m1 /o 1 text:"
    yield f"deliver {n} m2"
    for i in range(n):
        yield f"restart m{1 + i % 2}"


@kind("begin an insertion of 200 blocks and restart in turn", 49_900)
def restart_insertions(n):
    yield from heads(1, 1)
    for i in range(n):
        yield "insert m1 c1 /o 1 200"
        yield "restart m1"


# ---- commands

@kind("begin insertions of 200 blocks", 99_900)
def insert(n):
    yield from heads(1, 1)
    for i in range(n):
        yield f"insert m1 c1 /o {i} {i + 199}"


@kind("insertions of one block, each published", 49_900)
def insert_block(n):
    yield from heads(1, 1)
    for i in range(n):
        yield "insert m1 c1 /o 0 0"
        yield f"block m1 {i + 1} 0 text:a"


@kind("insertions whose 200 blocks come from the last to the first", 490)
def block(n):
    yield from heads(1, 1)
    for i in range(n):
        yield f"insert m1 c1 /o/{i} 0 199"
    for b in range(199, -1, -1):
        for i in range(n):
            yield f"block m1 {i + 1} {b} fill:3:{i % 256}"


@kind("blocks of an insertion that is published, or of none", 99_900)
def block_again(n):
    yield from heads(1, 1)
    yield "insert m1 c1 /o 0 0"
    yield "block m1 1 0 text:a"
    for i in range(n):
        yield f"block m1 {1 + i % 2} 0 fill:8:0"


@kind("ask how insertions of 200 blocks stand", 49_900)
def status(n):
    yield from heads(1, 1)
    for i in range(n):
        yield "insert m1 c1 /o 0 199"
    for i in shuffled(n):
        yield f"status m1 c1 {i + 1}"


def command(verb, fields):
    name = packets.text_name(node(1)) + [(packets.GENERIC, verb.encode())]
    return packets.signed_interest(name, packets.element(201, fields), "/c/1", KEY)


@kind("give commands that were issued long ago once more", 40_000)
def order(n):
    yield from heads(1, 1)
    for i in range(n):
        yield f"status m1 c1 {i + 1}"
    for i in range(n):
        yield "order m1 " + command("check", packets.element(206, packets.natural(i + 1))).hex()


@kind("give commands of 4,000 elements that are passed over", 900)
def order_passed_over(n):
    yield from heads(1, 1)
    yield "status m1 c1 1"
    octets = command("check", packets.element(206, b"\x01") + b"\xf0\x00" * 4200).hex()
    for i in range(n):
        yield f"order m1 {octets}"


@kind("delete as many objects of one name at once", 65_535)
def delete_one_name(n):
    yield from heads(1, 1)
    for i in range(n):
        yield "publish m1 /o 1 text:"
    yield "delete m1 c1 /o"


@kind("delete objects each by its own name, in no order", 49_900)
def delete_each(n):
    yield from heads(1, 1)
    for i in range(n):
        yield f"publish m1 /o/{i} 1 text:"
    for i in shuffled(n):
        yield f"delete m1 c1 /o/{i}"


@kind("delete objects each by its own name, in no order, and ask by a prefix in turn", 33_000)
def delete_asked(n):
    yield from heads(1, 1)
    octets = packets.interest(packets.text_name("/n"), True).hex()
    for i in range(n):
        yield f"publish m1 /o/{i} 1 text:"
    for i in shuffled(n):
        yield f"ask m1 {octets}"
        yield f"delete m1 c1 /o/{i}"


@kind("publish and delete in turn, after as many that stay", 32_700)
def delete_turns(n):
    yield from heads(1, 1)
    for i in range(n):
        yield f"publish m1 /s/{i} 1 text:"
    for i in range(n):
        yield "publish m1 /o 1 text:"
        yield "delete m1 c1 /o"


@kind("delete what was fetched from another, every second, and claim", 33_000)
def delete_fetched(n):
    yield from heads(2, 1)
    for i in range(n):
        yield f"publish m1 /o/{i} 1 text:"
    yield "settle 1"
    for i in range(0, n, 2):
        yield f"delete m2 c1 /o/{i}"
    for i in range(n // 2):
        yield "claim m2 1"


@kind("claim and fetch after every second publication deleted", 48_000)
def claim_holes(n):
    yield from heads(2, 1)
    for i in range(n):
        yield f"publish m1 /{i % 2} 1 text:"
    yield "settle 1"
    yield "delete m2 c1 /0"
    for i in range(n // 2):
        yield "claim m2 1"
        yield "fetch m2 1 1 0"


@kind("delete names that nothing has", 49_900)
def delete_none(n):
    yield from heads(1, 1)
    for i in range(n):
        yield "publish m1 /o 1 text:"
    for i in range(n):
        yield f"delete m1 c1 /p/{i}"


# What the hash of std's maps multiplies by: after these octets all names have one hash there.
TIE = "%15%7C%4A%7F%B9%79%37%9E"


@kind("delete objects each by its own name, whose hashes in std's maps tie", 49_900)
def delete_tied(n):
    yield from heads(1, 1)
    for i in range(n):
        yield f"publish m1 /{i:05d}{TIE} 1 text:"
    for i in range(n):
        yield f"delete m1 c1 /{i:05d}{TIE}"


# ---- asking

@kind("ask by a prefix that all names have", 49_900)
def ask_prefix(n):
    yield from heads(1)
    for i in range(n):
        yield f"publish m1 /o/{i} 1 text:"
    octets = packets.interest(packets.text_name("/n"), True).hex()
    for i in range(n):
        yield f"ask m1 {octets}"


@kind("ask by a prefix, publish and ask in turn", 49_900)
def ask_prefix_turns(n):
    yield from heads(1)
    octets = packets.interest(packets.text_name("/n"), True).hex()
    for i in range(n):
        yield f"publish m1 /o/{i} 1 text:"
        yield f"ask m1 {octets}"


@kind("ask by a name, publish and ask in turn, names falling", 49_900)
def ask_turns(n):
    yield from heads(1)
    octets = packets.interest(packets.text_name("/o")).hex()
    for i in range(n):
        yield f"publish m1 /o/{n - i:06d} 1 text:a"
        yield f"ask m1 {octets}"


@kind("ask by full names that nothing has", 49_900)
def ask_full(n):
    yield from heads(1)
    for i in range(n):
        yield "publish m1 /o 1 text:"
    for i in range(n):
        name = packets.text_name("/n/1/g") + [(packets.SEQUENCE, b"\x01"), (1, hashlib.sha256(b"%d" % i).digest())]
        yield f"ask m1 {packets.interest(name).hex()}"


@kind("ask by the one name of many segments", 33_000)
def ask_one_name(n):
    yield from heads(1)
    for i in range(n):
        yield f"publish m1 /o 100 text:{i}"
    octets = packets.interest(packets.text_name("/o") + [(packets.SEGMENT, b"\0")], True).hex()
    for i in range(n):
        yield f"ask m1 {octets}"


@kind("ask by names of 4,000 empty components", 900)
def ask_components(n):
    yield from heads(1)
    for i in range(n):
        yield f"publish m1 {'/...' * 200} 1 text:a"
    octets = packets.interest([(packets.GENERIC, b"")] * 4396).hex()
    for _ in range(n):
        yield f"ask m1 {octets}"


# ---- lines

@kind("comments", 99_000)
def comment(n):
    for i in range(n):
        yield "#" + "x" * 150


@kind("lines of 32,768 octets, mostly spaces", 500)
def spaces(n):
    yield "group /g"
    for i in range(n):
        yield " " * 16_380 + "traffic" + " " * 16_380


@kind("texts of 32,000 octets", 500)
def texts(n):
    yield from heads(1)
    for i in range(n):
        yield "publish m1 /o 8000 text:" + "x" * 32_000


@kind("names in digits of another spelling, too long by one", 400, status=2)
def long_name(n):
    yield from heads(1)
    for i in range(n):
        yield "# " + "%2d" * 10_000
    yield "publish m1 /" + "%2d" * 10_000 + " 1 text:"


# ---- inspect

@kind("inspect elements inside each other", 2_190, words="inspect")
def inspect_nested(n):
    octets = b""
    for _ in range(n):
        octets = packets.element(7, octets)
    yield octets.hex()


@kind("inspect elements beside each other", 4_398, words="inspect")
def inspect_flat(n):
    yield packets.element(7, b"\x08\x00" * n).hex()


@kind("inspect one element of many octets, deep inside", 2_000, words="inspect")
def inspect_deep(n):
    octets = packets.element(8, b"x" * n)
    for _ in range(n // 4 * 3 - 20):
        octets = packets.element(7, octets)
    yield octets.hex()
