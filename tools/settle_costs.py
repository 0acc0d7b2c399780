"""The costliest scripts of settles: of 16 members and 4 mirrors, with parts that come and parts that nobody has."""
from cost_kinds import heads, kind


def all_in_turn(n, name="/o/{}", content="1 text:a"):
    """Publications of 16 members in turn."""
    for i in range(n):
        yield f"publish m{1 + i % 16} {name.format(i)} {content}"


@kind("settle, objects of one segment", 49_900)
def settle_once(n):
    yield from heads(16, mirrors=4)
    yield from all_in_turn(n)
    yield "settle 1"


@kind("settle, empty objects of other names", 99_900)
def settle_empty(n):
    yield from heads(16, mirrors=4)
    yield from all_in_turn(n, "/o/{}", "1 text:")
    yield "settle 1"


@kind("settle, names of 240 octets, contents of 1,344", 49_900)
def settle_long_names(n):
    yield from heads(16, mirrors=4)
    yield from all_in_turn(n, "/" + "x" * 120 + "/" + "y" * 110 + "/{:06d}", "8000 fill:1344:7")
    yield "settle 1"


@kind("settle, five publications of so many segments of one octet", 19_800)
def settle_large(n):
    yield from heads(16, mirrors=4)
    for i in range(5):
        yield f"publish m1 /o/{i} 1 fill:{n}:{i}"
    yield "settle 1"


@kind("settle so often, one publication each, after 90 times as many", 1_000)
def settle_news(n):
    yield from heads(16, mirrors=4)
    yield from all_in_turn(90 * n, "/o", "1 text:")
    yield "settle 1"
    for i in range(n - 1):
        yield f"publish m{1 + i % 16} /o 1 text:"
        yield "settle 1"


@kind("settle by 16 workers so often, 16 publications each", 1_000)
def settle_workers(n):
    yield from heads(16, mirrors=4)
    for i in range(n):
        yield from all_in_turn(16, "/o", "1 text:")
        yield "settle 16"


# ---- what nobody has

def deleted_records(n):
    """Publications whose publishers delete them before anybody fetches."""
    yield from heads(16, 1, mirrors=4)
    yield from all_in_turn(n, "/o", "1 text:")
    for j in range(1, 17):
        yield f"delete m{j} c1 /o"


@kind("settle so often, where 96 times as many records are wanted that nobody has", 1_000)
def settle_deleted(n):
    yield from deleted_records(96 * n)
    for _ in range(n):
        yield "settle 1"


@kind("the same with an empty publication before each", 1_000)
def settle_deleted_news(n):
    yield from deleted_records(96 * n)
    for i in range(n):
        yield f"publish m{1 + i % 16} /new 1 text:"
        yield "settle 1"


def deleted_large(n, segments):
    """Five large objects of which all others fetch records and index packets, and which are then deleted."""
    yield from heads(16, 1, mirrors=4)
    for i in range(5):
        yield f"publish m1 /o 1 fill:{segments * n}:{i}"
    for j in range(2, 17):
        yield f"deliver 5 m{j}"
        yield f"fetch m{j} 1 1 0"
        yield f"fetch m{j} 1 1 0"
    for j in range(1, 5):
        yield f"mdeliver 5 k{j}"
        yield f"mfetch k{j} 1 1 0"
        yield f"mfetch k{j} 1 1 0"
    yield "delete m1 c1 /o"


@kind("settle 1,000 times, where 5 times so many segments are wanted that nobody has", 19_800)
def settle_deleted_large(n):
    yield from deleted_large(n, 1)
    for _ in range(1_000):
        yield "settle 1"


@kind("the same with a publication of one octet before each", 19_400)
def settle_deleted_large_news(n):
    yield from deleted_large(n, 1)
    for i in range(1_000):
        yield f"publish m{1 + i % 16} /new 1 text:b"
        yield "settle 1"


def deleted_small(n):
    """Objects of one segment of which all fetch the record, and which are then deleted.

    A fetch takes the least wanted parts, and a member's parts come before those of the members after it. So the last
    members publish first: what is wanted of theirs and not to be had comes after the records of the next ones.
    """
    yield from heads(16, 1, mirrors=4)
    sent, j = 0, 16
    while n:
        some = min(n, 4096)
        for _ in range(some):
            yield f"publish m{j} /o 1 text:a"
        sent += some
        for other in range(1, 17):
            if other != j:
                yield f"deliver {sent} m{other}"
                yield f"fetch m{other} 1 1 0"
        for k in range(1, 5):
            yield f"mdeliver {sent} k{k}"
            yield f"mfetch k{k} 1 1 0"
        yield f"delete m{j} c1 /o"
        n, j = n - some, j - 1


@kind("settle so often, where 49 times as many segments of objects of one segment are wanted that nobody has", 1_000)
def settle_deleted_small(n):
    yield from deleted_small(49 * n)
    for _ in range(n):
        yield "settle 1"


@kind("the same with an empty publication before each", 1_000)
def settle_deleted_small_news(n):
    yield from deleted_small(49 * n)
    for i in range(n):
        yield f"publish m{1 + i % 16} /new 1 text:"
        yield "settle 1"
