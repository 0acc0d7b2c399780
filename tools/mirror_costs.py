"""The costliest scripts of what mirrors do: they hear, fetch and list."""
from cost_kinds import heads, kind


@kind("one packet is delivered to a mirror again and again", 99_900)
def mdeliver_one(n):
    yield from heads(1, mirrors=4)
    yield "publish m1 /o 1 text:"
    for i in range(n):
        yield f"mdeliver 1 k{1 + i % 4}"


@kind("each publication is delivered to a mirror, the last first", 49_900)
def mdeliver_each(n):
    yield from heads(1, mirrors=1)
    for i in range(n):
        yield "publish m1 /o 1 text:"
    for i in range(n, 0, -1):
        yield f"mdeliver {i} k1"


@kind("a mirror fetches 4,096 parts that are all lost, 16 times each", 95_000)
def mfetch_lost(n):
    yield from heads(1, mirrors=1)
    for i in range(4096):
        yield "publish m1 /o 1 text:"
    yield "mdeliver 4096 k1"
    for _ in range(n):
        yield "mfetch k1 1 16 1000"


@kind("a mirror fetches where nothing is wanted any more", 49_900)
def mfetch_none(n):
    yield from heads(1, mirrors=1)
    for i in range(n):
        yield "publish m1 /o 1 text:"
    yield "settle 1"
    for i in range(n):
        yield "mfetch k1 16 16 0"


@kind("publish, deliver to a mirror and let it fetch, in turn", 33_000)
def mfetch_turns(n):
    yield from heads(1, mirrors=1)
    for i in range(n):
        yield "publish m1 /o 1 text:"
        yield f"mdeliver {i + 1} k1"
        yield "mfetch k1 1 1 0"


@kind("a mirror fetches one record in turn whose object it isn't for", 33_000)
def mfetch_passed_over(n):
    yield from heads(1)
    yield "mirror k1 * /other"
    for i in range(n):
        yield "publish m1 /o 1 text:"
        yield f"mdeliver {i + 1} k1"
        yield "mfetch k1 1 1 0"


@kind("settle a member, then show a mirror's catalogue of 100 objects again and again", 20_000)
def mcatalogue(n):
    yield from heads(1, mirrors=1)
    for i in range(100):
        yield f"publish m1 /o/{i} 1 text:"
    yield "settle 1"
    for _ in range(n):
        yield "mcatalogue k1"
