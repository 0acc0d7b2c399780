"""The costliest scripts of what members do but for settles: they publish, list, report, hear and fetch."""
import packets
from cost_kinds import GROUP, KEY, entry, heads, kind, node, shuffled, sync

# ---- publishing and listing

@kind("one member publishes empty objects of one name", 65_535)
def publish_one_name(n):
    yield from heads(1)
    for _ in range(n):
        yield "publish m1 /o 1 text:"


@kind("16 members publish objects of other names, in no order", 49_900)
def publish_names(n):
    yield from heads(16)
    for i in shuffled(n):
        yield f"publish m{1 + i % 16} /o/{i * 7919 % 99991:06d}{'x' * 100} 1 text:a"


@kind("publish what comes before as many entries of another", 49_900)
def publish_before(n):
    yield from heads(2)
    for i in range(n):
        yield "publish m2 /o 1 text:"
    yield "settle 1"
    for i in range(n):
        yield "publish m1 /o 1 text:"


@kind("publications of 200 segments of one octet", 497)
def publish_segments(n):
    yield from heads(1)
    for i in range(n):
        yield f"publish m1 /o/{i} 1 fill:200:{i % 256}"


@kind("five publications of so many segments of one octet", 19_800)
def publish_large(n):
    yield from heads(1)
    for i in range(5):
        yield f"publish m1 /o/{i} 1 fill:{n}:{i}"


@kind("publish objects of one name, then withdraw each, the first first", 32_700)
def withdraw(n):
    yield from heads(1)
    for _ in range(n):
        yield "publish m1 /o 1 text:"
    for i in range(n):
        yield f"withdraw m1 {i + 1}"


@kind("names of 200 empty components, which differ in the last", 16_000)
def publish_components(n):
    yield from heads(1)
    prefix = "/..." * 196
    for i in shuffled(n):
        yield f"publish m1 {prefix}/{i:05d} 1 text:a"


@kind("16 members with nodes of 200 octets, each of which knows all, publish so often", 99_900)
def publish_long_nodes(n):
    yield f"group /{'g' * 198}"
    for j in range(16):
        yield f"member m{j} /{'n' * 196}{j:02d} 6b"
    for i in range(n):
        yield f"publish m{i % 16} /o 1 text:"
        if i == 15:
            yield "settle 1"


@kind("publish, then show the catalogue of 100 objects again and again", 20_000)
def catalogue(n):
    yield from heads(1)
    for i in range(100):
        yield f"publish m1 /o/{i} 1 text:"
    for _ in range(n):
        yield "catalogue m1"


@kind("as many publications as summaries, 16 members that have settled", 66_000)
def summary(n):
    yield from heads(16)
    for i in range(n // 2):
        yield f"publish m{1 + i % 16} /o 1 text:"
    yield "settle 1"
    for _ in range(n):
        yield "summary"


@kind("as many publications as lines of vector, traffic, dump and sync", 49_900)
def show(n):
    yield from heads(16)
    for i in range(n):
        yield f"publish m{1 + i % 16} /o/{i} 1 text:"
    for i in range(n):
        p = 1 + i % 16
        yield [f"vector m{p}", "traffic", f"dump m{p} m{p} {1 + i // 16} 0", f"sync {i + 1}"][i % 4]


# ---- watching

@kind("as many publications as `told` lines that have no news", 49_900)
def told(n):
    yield from heads(1)
    yield "watch m1 * /"
    for _ in range(n):
        yield "publish m1 /o 1 text:"
    for _ in range(n):
        yield "told m1 1"


@kind("16 members that have settled get 16 watchers each", 99_500)
def watch(n):
    yield from heads(16)
    for i in range(n):
        yield f"publish m{1 + i % 16} /o 1 text:"
    yield "settle 1"
    for i in range(256):
        yield f"watch m{1 + i % 16} * /"


@kind("16 watchers of names of 200 empty components get the news of 5,000 objects each", 16)
def reported_news(n):
    yield from heads(1)
    prefix = "/..." * 196
    for i in range(n):
        yield f"watch m1 * {prefix}"
    for i in range(5_000):
        yield f"publish m1 {prefix}/{i:05d} 1 text:"
    for i in range(n):
        yield f"told m1 {i + 1}"


# ---- reporting and hearing

@kind("one packet is delivered again and again", 99_900)
def deliver_one(n):
    yield from heads(16)
    yield "publish m1 /o 1 text:"
    for i in range(n):
        yield f"deliver 1 m{1 + i % 16}"


@kind("each publication is delivered, the last first", 49_900)
def deliver_each(n):
    yield from heads(2)
    for i in range(n):
        yield "publish m1 /o 1 text:"
    for i in range(n, 0, -1):
        yield f"deliver {i} m2"


@kind("publish and deliver in turn", 49_900)
def deliver_turns(n):
    yield from heads(2)
    for i in range(n):
        yield "publish m1 /o 1 text:"
        yield f"deliver {i + 1} m2"


@kind("timers fire", 49_900)
def fire(n):
    yield from heads(16)
    for i in range(n):
        yield "advance 33001"
        yield f"fire m{1 + i % 16}"


@kind("hear vectors of 980 unknown nodes", 900)
def hear_unknown(n):
    yield from heads(16)
    yield "publish m1 /o 1 text:"
    more = b"".join(packets.element(202, b"\x07\x02\x08\x00\xcc\x01\x01") for _ in range(960))
    octets = sync(1, [1], more).hex()
    for i in range(n):
        yield f"hear m{1 + i % 16} {octets}"


@kind("hear vectors that name one member 700 times", 900)
def hear_doubled(n):
    yield from heads(16)
    yield "publish m1 /o 1 text:"
    octets = sync(1, [1], entry(node(16), 0) * 600).hex()
    for i in range(n):
        yield f"hear m{1 + i % 16} {octets}"


@kind("hear what was sent first, after as many publications", 33_000)
def hear_first(n):
    yield from heads(2)
    for i in range(n):
        yield "publish m1 /o 1 text:"
    octets = sync(1, [1, 0]).hex()
    for _ in range(n):
        yield f"hear m2 {octets}"


@kind("hear 8,800 octets of elements that are passed over, and no name", 900)
def hear_passed_over(n):
    yield from heads(1)
    octets = packets.element(5, b"\xf0\x00" * 4398).hex()
    for _ in range(n):
        yield f"hear m1 {octets}"


# ---- fetching

@kind("claim and answer each record", 33_000)
def claim_answer(n):
    yield from heads(2)
    for i in range(n):
        yield "publish m1 /o 1 text:"
    yield f"deliver {n} m2"
    for _ in range(n):
        yield "claim m2 1"
        yield "answer m2 1 m1"


@kind("claim and answer each of the parts of publications of 200 segments", 48_000)
def claim_segments(n):
    yield from heads(2)
    many = n // 201
    for i in range(many):
        yield f"publish m1 /o/{i} 1 fill:200:{i % 256}"
    yield f"deliver {many} m2"
    for _ in range(201 * many):
        yield "claim m2 1"
        yield "answer m2 1 m1"


@kind("claim and lose after 15 claims and 32,000 publications", 32_000)
def claim_lose(n):
    yield from heads(2)
    for i in range(n):
        yield "publish m1 /o 1 text:a"
    yield f"deliver {n} m2"
    for f in range(1, 16):
        yield f"claim m2 {f}"
    for _ in range(n):
        yield "claim m2 16"
        yield "lose m2 16"


@kind("claim where nothing is wanted any more", 49_900)
def claim_none(n):
    yield from heads(2)
    for i in range(n):
        yield "publish m1 /o 1 text:"
    yield "settle 1"
    for i in range(n):
        yield "claim m2 1"


@kind("answer by a member that has nothing", 49_900)
def answer_none(n):
    yield from heads(3)
    for i in range(n):
        yield "publish m1 /o 1 text:"
    yield f"deliver {n} m2"
    yield "claim m2 1"
    for _ in range(n):
        yield "answer m2 1 m3"


@kind("feed records of 4,200 elements that are passed over", 900)
def feed_passed_over(n):
    yield from heads(2)
    yield "publish m1 /o 1 text:"
    yield "deliver 1 m2"
    yield "claim m2 1"
    name = packets.text_name(node(1)) + packets.text_name(GROUP) + [(packets.SEQUENCE, b"\x01")]
    listing = packets.name_element(packets.text_name("/o")) + b"\xf0\x00" * 4200 + b"\xf1\x00"
    octets = packets.data(name, None, listing, node(1), KEY).hex()
    for _ in range(n):
        yield f"feed m2 1 {octets}"


@kind("fetch 4,096 parts that are all lost, 16 times each", 95_000)
def fetch_lost(n):
    yield from heads(2)
    for i in range(4096):
        yield "publish m1 /o 1 text:"
    yield "deliver 4096 m2"
    for _ in range(n):
        yield "fetch m2 1 16 1000"


@kind("fetch one part by 16 workers, all lost", 99_900)
def fetch_one(n):
    yield from heads(2)
    yield "publish m1 /o 1 text:"
    yield "deliver 1 m2"
    for _ in range(n):
        yield "fetch m2 16 1 1000"


@kind("fetch 16 parts by 16 workers, all lost", 99_900)
def fetch_workers(n):
    yield from heads(2)
    for i in range(16):
        yield "publish m1 /o 1 text:"
    yield "deliver 16 m2"
    for _ in range(n):
        yield "fetch m2 16 1 1000"


@kind("fetch where nothing is wanted any more", 49_900)
def fetch_none(n):
    yield from heads(2)
    for i in range(n):
        yield "publish m1 /o 1 text:"
    yield "settle 1"
    for i in range(n):
        yield "fetch m2 16 16 0"


@kind("publish, deliver and fetch in turn", 33_000)
def fetch_turns(n):
    yield from heads(2)
    for i in range(n):
        yield "publish m1 /o 1 text:"
        yield f"deliver {i + 1} m2"
        yield "fetch m2 1 1 0"


@kind("fetch by half, so that what is held has many holes", 43)
def fetch_half(n):
    yield from heads(2)
    for i in range(1500 * n):
        yield "publish m1 /o 1 text:"
    yield f"deliver {1500 * n} m2"
    for _ in range(n):
        yield "fetch m2 1 1 500"
