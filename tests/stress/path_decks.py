#!/usr/bin/env python3
"""Writes a random deck whose paths are to run beside each other: tests/stress/path_decks.py NUMBER [orders]

2 to 16 devices, programs of all four paths, PAIR lines first; the same deck for the same number. With the word `orders` FAIL, REPAIR, REPLACE,
SUSPEND and RESUME lines stand among the event lines. A kind of program is a function in KINDS; it gives a program's words.
"""
import os
import random
import sys

sys.path.insert(0, os.path.join(os.path.dirname(os.path.abspath(__file__)), "..", "..", "bench"))
from kind_decks import HEADS, address, extent, locate

CHAINED = 0x40
MODES = [0xC0] * 6 + [0xC1, 0xC1, 0xC2, 0xC2, 0xC4, 0xC8, 0xCC, 0xCE]
CODES = "01 02 04 09 0A 0D 0F 12 15 1A 1F 29 2D 39 3F 89 92 96 9A 9E A9 B9 DB E4 FB FF".split()


class Maker:
    """Makes the programs of a path on a device."""

    def __init__(self, draw, path, device, tracks, longest):
        self.draw, self.path, self.device, self.tracks, self.longest, self.words = draw, path, device, tracks, longest, 0
        # few tracks, so that paths and events meet on them
        self.hot = draw.sample(range(tracks), min(tracks, 4))

    def track(self):
        return self.draw.choice(self.hot) if self.draw.random() < 0.9 else self.draw.randrange(self.tracks)

    def extent(self, mask, attributes=None):
        attributes = attributes or self.draw.choice(MODES)
        words = extent(mask, f"{attributes:02X}", self.tracks - 1)
        # what the data of cache fast write are numbered by, once some were lost
        return words.replace("00000000 00000000", "00010000 00000000", 1) if attributes & 2 and self.draw.random() < 0.2 else words

    def bytes(self):
        return f"{self.path:02X}{self.device:02X}" + self.draw.randbytes(self.draw.randint(1, 14)).hex().upper()

    def count(self):
        return self.draw.randint(1, 6)

    def times(self):
        return range(self.draw.randint(1, self.longest))


def formats(make):
    yield make.extent("C0")
    for _ in range(make.draw.randint(1, 3)):
        track, records = make.track(), make.count()
        yield locate("03", records, track, 0)
        for record in range(1, records + 1):
            key, data = make.draw.choice([0, 0, 4]), make.draw.choice([8, 16, 16, 80, 600])
            yield f"CCW 1D 60 {8 + key + data} {address(track)}{record:02X}{key:02X}{data:04X}{make.bytes()[:16]}"


def updates(make):
    yield make.extent(make.draw.choice(["80", "C0"]))
    for _ in make.times():
        records = make.count()
        yield locate("01", records, make.track(), make.count())
        for _ in range(records):
            yield f"CCW {make.draw.choice(['85', '85', '05', '8D'])} 60 {make.draw.choice([16, 40, 600])} {make.bytes()}"


def through(make):
    """Updates that write the volume, in two parts where it has two sides."""
    yield make.extent("80", 0xC1)
    for _ in make.times():
        yield locate("01", 1, make.track(), make.count())
        yield f"CCW 85 60 16 {make.bytes()}"


def loose(make):
    """Updates by cache fast write, and some that aren't."""
    for _ in range(make.draw.randint(1, 3)):
        yield make.extent("80", make.draw.choice([0xC2, 0xC2, 0xC0]))
        for _ in range(make.draw.randint(1, 4)):
            yield locate("01", 1, make.track(), make.count())
            yield f"CCW 85 60 16 {make.bytes()}"


def reads(make):
    yield make.extent("40")
    for _ in make.times():
        records = make.count()
        yield locate("06", records, make.track(), make.draw.randint(0, 4))
        for _ in range(records):
            yield f"CCW {make.draw.choice(['06', '86', '0E', '8E', '1E', '9E'])} 60 {make.draw.choice([16, 700])}"


def tracks(make):
    yield make.extent("40", make.draw.choice([0xC0, 0xCC, 0xCC]))
    count = make.draw.randint(1, 5)
    yield locate("0C", count, make.draw.randrange(make.tracks - count + 1), 0)
    yield from ["CCW DE 60 65535"] * count


def searches(make):
    """Finds a record by its id, and reads or updates it."""
    track = make.track()
    if make.draw.random() < 0.5:
        yield make.extent("80")
    yield f"CCW 07 40 6 0000{address(track)}"
    yield f"CCW 31 40 5 {address(track)}{make.count():02X}"
    yield f"CCW 08 00 {make.words - 1}"
    yield make.draw.choice(["CCW 06 60 700", f"CCW 05 60 16 {make.bytes()}", "CCW 0E 60 700"])


def senses(make):
    yield make.draw.choice(["CCW 04 60 32", "CCW 34 60 12", "CCW E4 60 7"])
    yield make.draw.choice(["CCW 04 60 32", "CCW 34 60 12", "CCW 03 60 1"])


def holds(make):
    """The device is held, used, and mostly given free again."""
    yield make.draw.choice(["CCW B4 60 32", "CCW B4 60 32", "CCW 14 60 32"])
    yield from make.draw.choice([updates, reads, through])(make)
    if make.draw.random() < 0.8:
        yield "CCW 94 60 32"


def frees(make):
    yield "CCW 94 60 32"


def groups(make):
    """The path joins a group, or leaves it."""
    yield f"CCW AF 60 12 {make.draw.choice(['80', '80', '00', '40', '20'])}0102030405060708090A0{make.draw.randint(1, 2)}"


def nonsense(make):
    for _ in range(make.draw.randint(1, 4)):
        yield f"CCW {make.draw.choice(CODES)} 60 {make.draw.randint(1, 700)}"
    yield from ["CCW 03 60 1"] * 2


def nothing(make):
    yield from ["CCW 03 60 1"] * len(make.times())


def endless(make):
    """A search that the channel's limit ends."""
    yield f"CCW 07 40 6 0000{address(make.track())}"
    yield "CCW 31 40 5 000000007F"
    yield "CCW 08 00 1"
    yield "CCW 03 60 1"


def all_tracks(make):
    yield make.extent("40")
    for track in range(make.tracks) if make.tracks <= 60 else make.hot:
        yield locate("0C", 1, track, 0)
        yield "CCW DE 60 65535"


# Each kind with its weight.
KINDS = {
    formats: 14, updates: 16, through: 10, loose: 10, reads: 14, tracks: 6, searches: 8, senses: 3, holds: 5, frees: 2, groups: 4, nonsense: 3,
    nothing: 3, all_tracks: 2,
}


def words_of(make, kind):
    """A program's words, each but the last chained."""
    words = []
    make.words = 0
    for word in kind(make):
        words.append(word)
        make.words = len(words)
    words = words[:250]
    last = words[-1].split(" ")
    last[2] = f"{int(last[2], 16) & ~CHAINED:02X}"
    return [*words[:-1], " ".join(last)]


def programs(draw, devices, tracks):
    """Of each path on each device some programs, in an order of the deck's own."""
    most, longest = draw.choice([2, 6, 12]), draw.choice([1, 8])
    planned = []
    for device in devices:
        for path in range(1, 5):
            make = Maker(draw, path, device, tracks[device], longest)
            kinds = draw.choices(list(KINDS), list(KINDS.values()), k=draw.choice([0, draw.randint(0, most), most]))
            if kinds and draw.random() < 0.7:
                kinds[0] = formats
            if draw.random() < 0.01:
                kinds.append(endless)
            if kinds and draw.random() < 0.5:
                kinds.append(all_tracks)
            planned += [(draw.random() + number, path, device, words_of(make, kind)) for number, kind in enumerate(kinds)]
    kept = sorted(planned, key=lambda it: it[0])[:512]
    return [line for _, path, device, words in kept for line in [f"PROGRAM {path} {device}", *words, "END"]]


def pairs(draw, devices):
    for _ in range(draw.choice([0, 1, 2, 3, 5])):
        yield f"PAIR {draw.choice(devices)} {draw.choice(devices)}"


def order(draw, device):
    return draw.choice(
        ["FAIL CACHE", "FAIL STORE", "REPAIR CACHE", "REPAIR STORE", f"FAIL VOLUME {device} A", f"FAIL VOLUME {device} B"]
        + [f"REPLACE {device} A", f"REPLACE {device} B", f"SUSPEND {device}", f"RESUME {device}"]
    )


def others(draw, devices):
    """Event lines that no run of paths uses: the first START is among them."""
    yield f"START {draw.randint(1, 4)} {draw.choice(devices)}"
    for _ in range(draw.randint(0, 4)):
        device = draw.choice(devices)
        yield draw.choice([f"RUN {device}", f"STEP {device}", f"BACK {device}", f"SETTLE {device}", f"RESET 1 {device}", "POWER", f"UNPAIR {device}"])
        yield from pairs(draw, devices)


def deck_of(number, orders=False):
    draw = random.Random(number)
    devices = sorted(draw.sample(range(16), draw.choice([2, 3, 4, 4, 8, 16])))
    model = [(draw.choice(["3390", "3390", "3380"]), draw.randint(1, 2)) for _ in range(draw.randint(1, 2))]
    models = {device: draw.choice(model) for device in devices}
    lines = ["DECK 1", f"CACHE {draw.choice([1, 2, 4, 8, 64])}", f"STORE {draw.choice([0, 1, 4, 16, 64])}"]
    lines += [f"DEVICE {device} {model} {cylinders}" for device, (model, cylinders) in models.items()]
    if draw.random() < 0.3:
        faults = {(draw.choice(devices), draw.choice(["READ", "WRITE"]), draw.randint(1, 60)) for _ in range(draw.randint(1, 12))}
        lines += [f"FAULT {device} {call} {n}" for device, call, n in sorted(faults)]
    lines += programs(draw, devices, {device: HEADS * cylinders for device, (_, cylinders) in models.items()})
    events = list(pairs(draw, devices))
    if draw.random() < 0.5:
        events += others(draw, devices)
    if orders:
        for _ in range(draw.randint(1, 30)):
            events.insert(draw.randint(0, len(events)), order(draw, draw.choice(devices)))
    return "\n".join([*lines, "EVENTS", *events]) + "\n"


if __name__ == "__main__":
    print(deck_of(int(sys.argv[1]), "orders" in sys.argv[2:]), end="")
