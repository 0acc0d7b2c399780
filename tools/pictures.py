#!/usr/bin/env python3
"""Computes the pictures of scripts by the model of tools/model.py, as docs/LAB.md and docs/promises/lab_picture.md say
them, and reads them by a parser of XML.

    python3 tools/pictures.py < SCRIPT             prints the picture of a script, whose notes are passed over
    python3 tools/pictures.py PROGRAM SCRIPT ..    compares it with what `PROGRAM draw` writes, octet by octet, of two
                                                   more scripts too: the most columns, and more rows than are drawn

Each picture must be well-formed, with its width and height, in no font but `monospace`, without a script and without
anything from elsewhere.
"""
import re
import subprocess
import sys
import xml.etree.ElementTree as tree

sys.dont_write_bytecode = True
from model import Refused, World

MOST_ROWS = 2_000
SVG = "{http://www.w3.org/2000/svg}"
DEFINITIONS = """<defs><marker id='head' markerWidth='7' markerHeight='6' refX='6' refY='3' orient='auto'>\
<path d='M0 0L7 3L0 6z'></path>
</marker>
<circle id='publish' r='6'></circle>
<path id='withdraw' d='M0 -7L7 0L0 7L-7 0z'></path>
<path id='timer' d='M-7 -6L7 -6L0 7z'></path>
<path id='restart' d='M-6 -6L6 6M-6 6L6 -6' stroke='#000' stroke-width='3'></path>
<path id='command' d='M-6 -6H6V6H-6z' fill='#fff' stroke='#000' stroke-width='2'></path>
<path id='fetch' d='M-10 -4H10V4H-10z' fill='#555'></path>
<path id='loop' d='M0 -6H24V6H2' fill='none' stroke='#000' marker-end='url(#head)'></path>
</defs>
"""
GREY = "stroke='#777' stroke-width='1.5'"
DASHES = "stroke-dasharray='6 4'"
HEAVY = "stroke='#000' stroke-width='1.5'"
HEAD = "marker-end='url(#head)'"
LABEL = "text-anchor='middle' font-weight='bold'"
NOTE = "font-size='11'"
LEFT_NOTE = "text-anchor='end' font-size='11'"
COUNT = "text-anchor='end' font-size='11' font-weight='bold'"


# ---- elements

def column_x(column): return 464 + 128 * column
def row_y(row): return 88 + 28 * row


def element(name, words, content="", **sides):
    words = "".join([" " + words] * bool(words) + [f" {side}='{n}'" for side, n in sides.items()])
    return f"<{name}{words}>{content}</{name}>\n"


def text(words, x, y, *parts):
    """Text without markup; what is no printable ASCII is a space."""
    escapes = {"&": "&amp;", "<": "&lt;", ">": "&gt;", '"': "&quot;"}
    content = "".join(escapes.get(c, c if " " <= c <= "~" else " ") for c in "".join(map(str, parts)))
    return element("text", words, content, x=x, y=y)


def use(mark, x, y, words=""): return element("use", " ".join([f"href='#{mark}'", words]).rstrip(), x=x, y=y)
def line(words, x1, y1, x2, y2): return element("line", words, x1=x1, y1=y1, x2=x2, y2=y2)


def arrow_words(is_dashed): return " ".join([HEAVY] + [DASHES] * is_dashed + [HEAD])


def marked(mark, row, column, *parts):
    x, y = column_x(column), row_y(row)
    return use(mark, x, y) + text(NOTE, x + 16, y + 4, *parts)


def arrow(is_dashed, row, source, target, *parts):
    x, y = column_x(source), row_y(row)
    if source == target:
        return (use("loop", x, y, " ".join(["stroke-width='1.5'"] + [DASHES] * is_dashed))
                + text(NOTE, x + 32, y + 4, *parts))
    return (line(arrow_words(is_dashed), x, y, column_x(target), y)
            + (text(NOTE, x + 8, y - 5, *parts) if source < target else text(LEFT_NOTE, x - 8, y - 5, *parts)))


def band(row, columns, kept):
    y = row_y(row)
    return (element("rect", "fill='#bbb' fill-opacity='0.6'", x=400, y=y - 13, width=128 * columns, height=26)
            + text(NOTE, 472, y + 4, "kept ", kept))


# ---- the rows

def columns(world): return world.members + world.mirrors


def sight(world, row, script_line, report):
    """What is drawn of what a line did."""
    words, among = report.split(), columns(world)
    column = {one.label: place for place, one in enumerate(among)}
    verb = words[0] if words else ""
    if verb in ("publish", "withdraw"):
        return marked(verb, row, column[words[1]], words[2], " sync ", words[6])
    if verb == "fire" and words[2] == "sent":
        return marked("timer", row, column[words[1]], "sync ", words[3])
    if verb in ("deliver", "mdeliver"):
        sender = among.index(world.sent[int(words[1]) - 1][0])
        return arrow(words[3:] == ["suppressed"], row, sender, column[words[2]], "sync ", words[1])
    if verb == "answer" and words[3] == "kept":
        return arrow(False, row, column[script_line.split()[3]], column[words[1]], "Data")
    if verb in ("fetch", "mfetch"):
        return marked("fetch", row, column[words[1]], words[5], " of ", words[3])
    if verb == "settle":
        return band(row, len(among), words[4])
    if verb == "restart":
        return marked("restart", row, column[words[1]], "restart")
    if verb in ("delete", "block"):
        return marked("command", row, column[words[1]], verb, " ", words[2])
    return ""


def changes(row, before, now):
    return "".join(text(COUNT, column_x(column) - 14, row_y(row) - 5, n)
                   for column, (old, n) in enumerate(zip(before, now)) if old != n)


def drawn_row(row, right, number, script_line, marks):
    y = row_y(row)
    shown = script_line if len(script_line) <= 40 else script_line[:37] + "..."
    return (line("stroke='#ddd'", 56, y + 14, right, y + 14) + text("text-anchor='end' fill='#666'", 44, y + 4, number)
            + text("", 56, y + 4, shown) + marks)


def script_lines(octets):
    """The lines that are no notes, with their line feeds."""
    return [one for one in re.findall(r"[^\n]*\n|[^\n]+", octets.decode("latin-1")) if not re.match(" *#[>=]", one)]


def drawn(octets):
    """The world of a script with its rows, and for how many lines more there was no room."""
    world, rows, more, listed = World(), [], 0, None
    for number, whole in enumerate(script_lines(octets), 1):
        body = whole.removesuffix("\n")
        try:
            report = world.carry_out((body if body == whole else body.removesuffix("\r")).encode("latin-1"))
        except Refused:
            break
        if not world.has_events:
            continue
        now = [len(one.listed()) for one in columns(world)]
        marks = sight(world, len(rows), body, report) + changes(len(rows), listed or [0] * len(now), now)
        listed = now
        if marks and len(rows) < MOST_ROWS:
            rows.append(drawn_row(len(rows), 400 + 128 * len(now), number, body, marks))
        elif marks:
            more += 1
    return world, rows, more


# ---- the page

def meanings(y):
    """What the marks mean."""
    def one(mark, x, height, meaning): return use(mark, x, height) + text(NOTE, x + 16, height + 4, meaning)

    def one_arrow(is_dashed, x, meaning):
        return line(arrow_words(is_dashed), x, y + 24, x + 24, y + 24) + text(NOTE, x + 32, y + 28, meaning)

    return (one("publish", 64, y, "publish") + one("withdraw", 150, y, "withdraw") + one("timer", 244, y, "timer sends")
            + one("restart", 358, y, "restart") + one("command", 444, y, "command")
            + one("fetch", 66, y + 24, "came of planned") + one_arrow(False, 202, "sync or Data")
            + one_arrow(True, 330, "suppressed") + text(COUNT, 460, y + 28, 3)
            + text(NOTE, 466, y + 28, "entries listed"))


def picture(octets):
    world, rows, more = drawn(octets)
    among, members = columns(world), len(world.members)
    end = row_y(len(rows)) + 28 * (more > 0)
    page = {"width": max(472 + 128 * len(among), 576), "height": end + 60}
    lifelines = "".join(line(GREY + " stroke-dasharray='2 4'" * (place >= members), column_x(place), 46,
                             column_x(place), row_y(len(rows)) - 14) for place in range(len(among)))
    labels = "".join(text(LABEL + " font-style='italic'" * (place >= members), column_x(place), 34, one.label)
                     for place, one in enumerate(among))
    more_text = text("font-style='italic'", 56, row_y(len(rows)) + 4, "and ", more, " more") if more else ""
    return element("svg", "xmlns='http://www.w3.org/2000/svg' font-family='monospace' font-size='12'",
                   DEFINITIONS + element("rect", "fill='#fff'", **page) + lifelines + labels + "".join(rows)
                   + more_text + meanings(end + 16), **page).encode()


# ---- comparing

def expect(is_so, what):
    if not is_so:
        raise SystemExit(f"pictures: {what}")


def read(octets, path):
    """Reads a picture as XML, in which nothing is carried out and nothing comes from elsewhere."""
    root = tree.fromstring(octets)
    expect(root.tag == SVG + "svg", f"{path}: the root is {root.tag}")
    expect(all(root.get(side, "").isdigit() for side in ("width", "height")), f"{path}: no width and height")
    names = {one.get("id") for one in root.iter()}
    tags = {SVG + tag for tag in ("svg", "defs", "marker", "path", "circle", "rect", "line", "text", "use")}
    for one in root.iter():
        expect(one.tag in tags, f"{path}: {one.tag}")
        expect(one.get("font-family", "monospace") == "monospace", f"{path}: another font")
        expect(not any(name.startswith("on") for name in one.attrib), f"{path}: a script")
        expect("href" not in one.attrib or one.get("href")[1:] in names, f"{path}: {one.attrib}")


def most_columns():
    """16 members and 4 mirrors with labels of 16 characters."""
    members = [chr(ord("a") + place) + "w" * 15 for place in range(16)]
    mirrors = ["m" * 15 + str(place) for place in range(4)]
    lines = ["group /g"] + [f"member {label} /{label} {place:02x}" for place, label in enumerate(members)]
    lines += [f"mirror {label} * /" for label in mirrors] + [f"publish {members[0]} /d 1 text:<&>\"'"]
    lines += [f"deliver 1 {label}" for label in members] + [f"mdeliver 1 {label}" for label in mirrors]
    return "\n".join(lines + [f"fetch {members[-1]} 2 1 0", f"mfetch {mirrors[-1]} 2 1 0", "settle 16", ""]).encode()


def most_rows():
    """Three lines more of which something is to be seen than rows are drawn."""
    return ("group /g\nmember alice /alice 6b31\n" + "restart alice\r\n" * (MOST_ROWS + 3)).encode()


def compare(program, path, script):
    written = subprocess.run([program, "draw"], input=script, stdout=subprocess.PIPE).stdout
    read(written, path)
    wanted = picture(script)
    for number, (one, other) in enumerate(zip(wanted.splitlines(), written.splitlines()), 1):
        expect(one == other, f"{path}: line {number} of the picture is {other.decode()}, and not {one.decode()}")
    expect(wanted == written, f"{path}: the picture has {len(written)} octets, and not {len(wanted)}")


def main(words):
    if not words:
        sys.stdout.buffer.write(picture(sys.stdin.buffer.read()))
        return
    for path in words[1:]:
        with open(path, "rb") as file:
            compare(words[0], path, file.read())
    compare(words[0], "the most columns", most_columns())
    compare(words[0], "the most rows", most_rows())
    print(f"pictures: {len(words) + 1} pictures are those of their scripts")


main(sys.argv[1:])
