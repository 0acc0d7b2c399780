"""Kinds of scripts that are measured, and what they have in common."""
import random

import packets

KINDS = {}
GROUP, KEY = "/g", b"k"


def kind(what, size, words="run", status=0):
    """A kind of script: what it does, how often at the most, and how its run ends."""
    def enter(make):
        KINDS[make.__name__] = (what, size, words, status, make)
        return make
    return enter


def heads(members, clients=0, mirrors=0):
    yield f"group {GROUP}"
    for j in range(1, members + 1):
        yield f"member m{j} /n/{j} {KEY.hex()}"
    for j in range(1, clients + 1):
        yield f"client c{j} /c/{j} {KEY.hex()}"
    for j in range(1, mirrors + 1):
        yield f"mirror k{j} * /"


def node(j):
    return f"/n/{j}"


def sync(signer, vector, more=b""):
    """The sync Interest of a member, with more entries in its vector."""
    entries = b"".join(entry(node(j + 1), n) for j, n in enumerate(vector) if n) + more
    name = packets.text_name(GROUP) + [(packets.VERSION, b"\x02")]
    return packets.signed_interest(name, packets.element(201, entries), node(signer), KEY)


def entry(uri, n):
    return packets.element(202, packets.name_element(packets.text_name(uri)) + packets.element(204, packets.natural(n)))


def shuffled(n):
    order = list(range(n))
    random.Random(1).shuffle(order)
    return order

