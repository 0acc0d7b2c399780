#!/usr/bin/env python3
"""Computes the captures of scripts by the model of tools/model.py: the frames of each line, in the pcap format.

    python3 tools/captures.py PROGRAM SCRIPT ..   compares them with what `PROGRAM capture` writes of each script
    python3 tools/captures.py < SCRIPT            writes the capture of a script

No program of this repository is asked for what is expected.
"""
import itertools
import re
import struct
import subprocess
import sys

sys.dont_write_bytecode = True
from model import IMPLICIT_DIGEST, Refused, World
from model_octets import Fault, read_interest
from packets import GENERIC, data, element, interest, name_element, natural, signed_interest
from traces import keeps

HEAD = struct.pack("<IHHiIII", 0xA1B2C3D4, 2, 4, 0, 0, 65_535, 1)
OUTSIDE, ALL = bytes([2, 0, 0, 0, 3, 1]), bytes([1, 0, 0x5E, 0, 0x17, 0xAA])


class Capturing(World):
    """Keeps the frames of a line: who sends, whom it is for, and the packet."""

    def __init__(self):
        super().__init__()
        self.frames, self.shown = [], 0

    def address(self, one):
        if one in self.members:
            return bytes([2, 0, 0, 0, 0, one.number + 1])
        if one in self.clients:
            return bytes([2, 0, 0, 0, 2, self.clients.index(one) + 1])
        return bytes([2, 0, 0, 0, 1, self.mirrors.index(one) + 1])

    def put(self, sender, receiver, packet):
        self.frames.append((sender, receiver, packet))

    def put_sync(self, k, receiver):
        sender = self.address(self.sent_by_number(k)[0])
        self.put(sender, receiver, bytes.fromhex(World.on_sync(self, k)))

    def put_new_syncs(self):
        while self.shown < len(self.sent):
            self.shown += 1
            self.put_sync(self.shown, ALL)

    def carry_out(self, line):
        self.frames = []
        report = super().carry_out(line)
        self.put_new_syncs()
        return report

    def on_deliver(self, k, m):
        self.put_sync(k, self.address(m))
        return super().on_deliver(k, m)

    def on_mdeliver(self, k, mirror):
        self.put_sync(k, self.address(mirror))
        return super().on_mdeliver(k, mirror)

    def on_hear(self, m, octets):
        self.put(OUTSIDE, self.address(m), octets)
        return super().on_hear(m, octets)

    def on_order(self, m, octets):
        report = super().on_order(m, octets)
        self.put_command(m, OUTSIDE, octets, report)
        return report

    def put_command(self, m, sender, octets, report):
        self.put(sender, self.address(m), octets)
        try:
            name = read_interest(octets).name
        except Fault:
            return
        if sum(len(element(kind, value)) for kind, value in name) <= 1_000:
            code, *field = report.split()
            said = {206: field[1:], 208: [code], 209: field[1:], 210: field[1:]}
            there = {"process": 206, "inserted": 209, "packets": 210}.get(field[0] if field else None)
            answer = b"".join(element(kind, natural(int(n[0]))) for kind, n in said.items() if kind in (208, there))
            self.put(self.address(m), sender, data(name, None, element(207, answer), m.uri, m.key))

    def put_made(self, m, client, verb, fields, report):
        name = list(m.node) + [(GENERIC, verb)]
        octets = signed_interest(name, element(201, fields), client.uri, client.key)
        self.put_command(m, self.address(client), octets, report)
        return report

    def on_insert(self, m, client, name, first, last):
        fields = name_element(name) + element(204, natural(first)) + element(205, natural(last))
        return self.put_made(m, client, b"insert", fields, super().on_insert(m, client, name, first, last))

    def on_status(self, m, client, process):
        fields = element(206, natural(process))
        return self.put_made(m, client, b"check", fields, super().on_status(m, client, process))

    def on_delete(self, m, client, name):
        return self.put_made(m, client, b"delete", name_element(name), super().on_delete(m, client, name))

    def on_feed(self, m, fetcher, octets):
        self.put(OUTSIDE, self.address(m), octets)
        return super().on_feed(m, fetcher, octets)

    def on_ask(self, m, octets):
        self.put(OUTSIDE, self.address(m), octets)
        report = super().on_ask(m, octets)
        if report != "none":
            self.put(self.address(m), OUTSIDE, bytes.fromhex(report.removeprefix("found ")))
        return report

    def put_want(self, asker, receiver, pub, x):
        want = pub.want(x)
        name = list(want.name) + ([(IMPLICIT_DIGEST, want.digest)] if x else [])
        self.put(self.address(asker), receiver, interest(name))

    def on_answer(self, m, fetcher, other):
        pub, x = self.claimed(m, fetcher)
        self.put_want(m, self.address(other), pub, x)
        report = super().on_answer(m, fetcher, other)
        if report == "kept":
            self.put(self.address(other), self.address(m), pub.parts[x][1])
        return report

    def on_fetch(self, asker, workers, tries, loss):
        planned = list(itertools.islice(asker.wanted(), 4_096))
        report = super().on_fetch(asker, workers, tries, loss)
        for pub, x in planned:
            if asker.holds((pub, x)):
                self.put_came(asker, pub, x)
        return report

    def put_came(self, asker, pub, x):
        self.put_want(asker, ALL, pub, x)
        self.put(self.address(pub.member), self.address(asker), pub.parts[x][1])

    def stored(self, one):
        """The parts whose packets a member or a mirror stores."""
        return {(pub, x) for pub, parts in one.held.items() for x in parts if one in self.members or keeps(one, pub)}

    def put_stored(self, one, before):
        for pub, x in sorted(self.stored(one) - before, key=lambda part: (part[0].member.number, part[0].seq, part[1])):
            self.put_came(one, pub, x)

    def on_settle(self, workers):
        before = [(one, self.stored(one)) for one in self.members + self.mirrors]
        report = super().on_settle(workers)
        self.put_new_syncs()
        for one, stored in before:
            self.put_stored(one, stored)
        return report

    def on_mfetch(self, mirror, *words):
        before = self.stored(mirror)
        report = super().on_mfetch(mirror, *words)
        self.put_stored(mirror, before)
        return report


def record(now, sender, receiver, packet):
    frame = receiver + sender + b"\x86\x24" + packet
    return struct.pack("<IIII", now // 1000 % 2 ** 32, now % 1000 * 1000, len(frame), len(frame)) + frame


def capture(script):
    """The capture of a script without notes, within its limits."""
    world, written = Capturing(), [HEAD]
    for line in re.findall(r"[^\n]*\n|[^\n]+", script.decode()):
        body = line.removesuffix("\n")
        try:
            world.carry_out((body if body == line else body.removesuffix("\r")).encode())
        except Refused:
            break
        written += [record(world.now, *frame) for frame in world.frames]
    return b"".join(written)


def main(words):
    if not words:
        sys.stdout.buffer.write(capture(sys.stdin.buffer.read()))
        return 0
    differ = 0
    for name in words[1:]:
        script = open(name, "rb").read()
        ran = subprocess.run([words[0], "capture"], input=script, stdout=subprocess.PIPE)
        if ran.stdout != capture(script):
            differ += 1
            print(f"captures: {name} has another capture")
    print(f"captures: {len(words) - 1 - differ} of {len(words) - 1} are as they were computed")
    return 1 if differ else 0


if __name__ == "__main__":
    sys.exit(main(sys.argv[1:]))
