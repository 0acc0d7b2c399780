"""The scripts that figures.py measures beside those of costs.py."""
import re
import subprocess

from cost_kinds import heads


def large(workers):
    """8 members, 64 MiB in 42 objects: 41 of 200 segments of 8,000 octets, and one of 1,508,864 octets."""
    yield from heads(8)
    for i in range(41):
        yield f"publish m{1 + i % 8} /o/{i} 8000 fill:1600000:{i}"
    yield "publish m2 /o/41 8000 fill:1508864:41"
    yield f"settle {workers}"
    yield "summary"


def generated(program, workers=None):
    """What `gen 16 2000 1` writes, with its workers or with so many in each fetch and settle."""
    written = subprocess.run([program, "gen", "16", "2000", "1"], capture_output=True, check=True).stdout.decode()
    for line in written.splitlines():
        if workers:
            line = re.sub(r"^(fetch \S+|settle) \d+", rf"\1 {workers}", line)
        yield line


def objects(members, n, settles=True):
    """Objects of 1 to 5 segments of 100 octets, of all members in turn."""
    yield from heads(members)
    for i in range(n):
        yield f"publish m{1 + i % members} /o/{i} 100 fill:{100 * (1 + i % 5)}:{i % 256}"
    if settles:
        yield "settle 1"


def empties(n, settles=True):
    yield from heads(16)
    for i in range(n):
        yield f"publish m{1 + i % 16} /o/{i} 10 text:"
    if settles:
        yield "settle 1"


def small(n, more=()):
    """Objects of one segment of one octet of the first of two members, and more lines."""
    yield from heads(2, 1)
    for i in range(n):
        yield f"publish m1 /o/{i} 1 text:a"
    yield from more


def segments(n, more=()):
    """An object of so many segments of one octet of the first of two members, and more lines."""
    yield from heads(2, 1)
    yield f"publish m1 /o 1 fill:{n}:7"
    yield from more


def withdrawn(n):
    yield from small(n)
    for i in range(n):
        yield f"withdraw m1 {i + 1}"


def fetched(who, n):
    """One of 16 members publishes; another one, or a mirror, hears of all, fetches all, and lists it."""
    yield from heads(16)
    yield "mirror k1 m1 /o"
    for i in range(n):
        yield f"publish m1 /o/{i} 100 text:abc"
    lines = 2 * (1 + (n - 1) // 4096)
    if who == "member":
        yield f"deliver {n} m2"
        yield from ["fetch m2 1 1 0"] * lines
        yield "catalogue m2"
    elif who == "mirror":
        yield f"mdeliver {n} k1"
        yield from ["mfetch k1 1 1 0"] * lines
        yield "mcatalogue k1"


# ---- lines that grow by a product: so many lines, over so many of what each goes through

def asked_by_prefix(n, lines, octets):
    """One line more than so many, so that what the first one does alone is in each script."""
    yield from heads(1)
    for i in range(n):
        yield f"publish m1 /o/{i} 1 text:"
    for _ in range(lines + 1):
        yield f"ask m1 {octets}"


def told(n, lines):
    yield from heads(1)
    yield "watch m1 * /"
    for _ in range(n):
        yield "publish m1 /o 1 text:"
    for _ in range(lines + 1):
        yield "told m1 1"


def published_before(n, lines, first):
    """A member that lists so many publications of a second one publishes, before them or after them."""
    yield from heads(3)
    for _ in range(n):
        yield "publish m2 /o 1 text:"
    yield "settle 1"
    for _ in range(lines):
        yield f"publish m{1 if first else 3} /o 1 text:"


def settled_before(n, lines, first):
    """Settles that bring a publication each, before so many or after them."""
    yield from heads(3)
    for _ in range(n):
        yield "publish m2 /o 1 text:"
    yield "settle 1"
    for _ in range(lines):
        yield f"publish m{1 if first else 3} /o 1 text:"
        yield "settle 1"


def deleted(n, lines, second, asks=None):
    """Deletions of one object each, from the second on or from the first, perhaps once somebody asked by name."""
    yield from heads(1, 1)
    for i in range(n):
        yield f"publish m1 /o/{i} 1 text:"
    if asks:
        yield f"ask m1 {asks}"
    for i in range(lines):
        yield f"delete m1 c1 /o/{i + 1 if second else i}"


def lost(n, settles):
    """Settles of 16 members and 4 mirrors that want so many records, which nobody has any more."""
    yield from heads(16, 1, mirrors=4)
    for _ in range(n):
        yield "publish m1 /o 1 text:"
    yield "delete m1 c1 /o"
    for _ in range(settles + 1):
        yield "settle 1"
