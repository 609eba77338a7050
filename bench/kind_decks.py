#!/usr/bin/env python3
"""Writes the deck of a kind: bench/kind_decks.py KIND [UNITS]

A kind is a function. It puts what comes before (tracks with records, a pair) into a deck, and then asks for units: each is a
program or a few, and their event lines. Where a deck declares more units than it runs, the rest are programs that never start.
"""
import sys

HEADS = 15
OTHERS = 8
EIGHT = "1122334455667788"


def extent(mask, attributes, last=HEADS * 64 - 1):
    return f"CCW 63 40 16 {mask}{attributes}1000 00000000 00000000 {address(last)}"


def address(track):
    return f"{track // HEADS:04X}{track % HEADS:04X}"


def locate(operation, count, track, record):
    return f"CCW 47 40 16 {operation}0000{count:02X} {address(track)} {address(track)} {record:02X}000000"


def read(size):
    return f"CCW 86 60 {size}"


def update(size, given=EIGHT):
    return f"CCW 85 60 {size} {given}"


def format_track(track, size, records=12):
    yield locate("03", records, track, 0)
    for record in range(1, records + 1):
        yield f"CCW 1D 40 {size + 8} {address(track)} {record:02X}00{size:04X}"


class Deck:
    """Devices of some cylinders over some frames; units beyond those that run are declared alone."""

    def __init__(self, run, declared, cylinders=1, frames=64, slots=16, devices=1):
        self.run, self.declared, self.cylinders, self.frames, self.slots = run, declared, cylinders, frames, slots
        self.devices, self.programs, self.events, self.runs, self.units, self.others = devices, [], [], True, 0, 0

    def track(self, number):
        """Fifteen tracks a cylinder, the number's of all."""
        return number * self.cylinders

    def last(self):
        return HEADS * self.cylinders - 1

    def extent(self, mask, attributes):
        return extent(mask, attributes, self.last())

    def unit(self):
        """Whether there is one more; its events count where it runs."""
        self.runs = self.units < self.run
        self.units += 1
        return self.units <= self.declared

    def program(self, words, path=1, device=0):
        assert len(words) <= 256
        last = words[-1].split(" ")
        last[2] = f"{int(last[2], 16) & ~0x40:02X}"
        self.programs += [f"PROGRAM {path} {device}", *words[:-1], " ".join(last), "END"]

    def event(self, *lines):
        if self.runs:
            self.events += lines

    def stepped(self, words, path=1, device=0, behind=()):
        """A program with a line for each command, and behind each what is told."""
        self.program(words, path, device)
        self.event(f"START {path} {device}")
        for _ in words:
            self.event(f"STEP {device}", *behind)

    def formatted(self, tracks, size, device=0, attributes="C1"):
        for track in tracks:
            self.program([self.extent("C0", attributes), *format_track(track, size)], 1, device)
            self.event(f"START 1 {device}", f"RUN {device}")

    def fill(self, count):
        """Reads so many tracks of other devices, so that they have frames."""
        tracks = [(OTHERS + number // 960, number % 960) for number in range(count)]
        self.others = -(-count // 960)
        for device in range(OTHERS, OTHERS + self.others):
            mine = [track for at, track in tracks if at == device]
            for first in range(0, len(mine), 127):
                words = [extent("40", "C0")]
                for track in mine[first : first + 127]:
                    words += [locate("06", 1, track, 0), "CCW 06 60 8"]
                self.program(words, 4, device)
                self.event(f"START 4 {device}", f"RUN {device}")

    def text(self):
        head = ["DECK 1", f"CACHE {self.frames}", f"STORE {self.slots}"]
        head += [f"DEVICE {device} 3390 {self.cylinders}" for device in range(self.devices)]
        head += [f"DEVICE {device} 3390 64" for device in range(OTHERS, OTHERS + self.others)]
        return "\n".join([*head, *self.programs, "EVENTS", *self.events]) + "\n"


def in_turn(first, command, tracks, times=11, records=11):
    """A program: a locate record and commands on eleven records, track by track."""
    words = [first]
    for time in range(times):
        words += [locate(command[0], records, tracks[time % len(tracks)], 1), *[command[1]] * records]
    return words


def hits(deck, size):
    deck.formatted([deck.track(0)], size, attributes="C0")
    while deck.unit():
        deck.stepped(in_turn(deck.extent("40", "C0"), ("06", read(size)), [deck.track(0)]))


def hits8(deck):
    """Reads of eight bytes from one track of the cache."""
    hits(deck, 8)


def hits4096(deck):
    """Reads of 4,096 bytes from one track of the cache."""
    hits(deck, 4096)


def tracks(deck):
    """Reads of whole tracks of twelve records of 4,096 bytes, ten in turn, from the cache."""
    deck.formatted(map(deck.track, range(10)), 4096, attributes="C0")
    while deck.unit():
        words = [deck.extent("40", "C0")]
        for number in range(10):
            words += [locate("0C", 1, deck.track(number), 0), "CCW DE 60 65535"]
        deck.stepped(words)


def misses(deck):
    """Reads of eight bytes, each from a track that isn't in the cache: of half as many tracks again as there are frames, in turn."""
    count = max(15, 3 * deck.frames // 2)
    deck.cylinders = max(deck.cylinders, -(-count // HEADS))
    places = [number * HEADS * deck.cylinders // count for number in range(count)]
    deck.formatted(places, 4096)
    number = 0
    while deck.unit():
        words = [deck.extent("40", "C0")]
        for _ in range(77):
            words += [locate("06", 1, places[number % count], 12), read(8)]
            number += 1
        deck.stepped(words)


def ahead(deck):
    """Sequential reads of whole tracks, behind each a piece of work in the background: two of three are staged before."""
    deck.cylinders = max(deck.cylinders, 6)
    deck.formatted(range(90), 4096)
    while deck.unit():
        first = 15 * (deck.units % 5)
        deck.stepped([deck.extent("40", "CC"), locate("0C", 15, first, 0), *["CCW DE 60 65535"] * 15], behind=["BACK 0"])


def updates(deck, size, attributes, given=EIGHT):
    deck.formatted(map(deck.track, range(10)), size, attributes="C0")
    deck.event("SETTLE 0")
    command = ("01", update(size, given))
    while deck.unit():
        deck.stepped(in_turn(deck.extent("80", attributes), command, [deck.track(number) for number in range(10)]))


def fast8(deck):
    """Fast writes of eight bytes, on ten tracks."""
    updates(deck, 8, "C0")


def fast80(deck):
    """The same of eighty bytes, all of which the deck has."""
    updates(deck, 80, "C0", 10 * EIGHT)


def fast4096(deck):
    """Fast writes of 4,096 bytes, on ten tracks."""
    updates(deck, 4096, "C0")


def cachefast(deck):
    """Cache fast writes of eight bytes, on ten tracks."""
    updates(deck, 8, "C2")


def through(deck):
    """Writes of eight bytes that go through to the volume, on ten tracks of twelve records of 4,096 bytes."""
    deck.formatted(map(deck.track, range(10)), 4096, attributes="C0")
    deck.event("SETTLE 0")
    while deck.unit():
        deck.stepped(in_turn(deck.extent("80", "C1"), ("01", update(8)), [deck.track(number) for number in range(10)]))


def destaging(deck):
    """A fast write of eight bytes and the destaging of its track, in turn, on fifteen tracks of twelve records of 4,096 bytes."""
    deck.formatted(map(deck.track, range(15)), 4096, attributes="C0")
    deck.event("SETTLE 0")
    while deck.unit():
        words = [deck.extent("80", "C0")]
        for number in range(43):
            words += [locate("01", 1, deck.track(number % 15), 1 + number % 12), update(8)]
        deck.program(words)
        deck.event("START 1 0", "STEP 0", *["STEP 0", "STEP 0", "BACK 0"] * 43)


def pairs(deck):
    """Writes of eight bytes through to both sides of a pair, each in two parts."""
    deck.devices = 2
    deck.formatted(map(deck.track, range(15)), 4096)
    deck.event("PAIR 0 1", "SETTLE 0")
    while deck.unit():
        words = [deck.extent("80", "C1")]
        for number in range(43):
            words += [locate("01", 1, deck.track(number % 15), 1 + number % 12), update(8)]
        deck.program(words)
        deck.event("START 1 0", "STEP 0", *["STEP 0"] * 129)


def copies(deck):
    """A pair is joined, its first fifteen tracks are copied, and it is split."""
    deck.devices = 2
    deck.formatted(range(15), 4096)
    while deck.unit():
        deck.event("PAIR 0 1", *["BACK 0"] * 15, "UNPAIR 0")


def recovery(deck):
    """Fast writes on fifteen tracks, the loss of the cache, and the recovery of each track."""
    deck.formatted(map(deck.track, range(15)), 4096)
    while deck.unit():
        words = [deck.extent("80", "C0")]
        for number in range(15):
            words += [locate("01", 1, deck.track(number), 1), update(8)]
        deck.stepped(words)
        deck.event("FAIL CACHE", *["BACK 0"] * 15, "REPAIR CACHE")


def formats(deck):
    """Formats tracks with twelve records of 4,096 bytes."""
    while deck.unit():
        words = [deck.extent("C0", "C0")]
        for number in range(9):
            words += format_track(deck.track(number), 4096)
        deck.stepped(words)


def searches(deck):
    """Finds the last of twelve records by search by id, until a program's 4,096 commands have ended."""
    deck.formatted([deck.track(0)], 8)
    while deck.unit():
        deck.program(["CCW 07 40 6 000000000000", "CCW 31 40 5 000000000C", "CCW 08 00 1", "CCW 06 60 8", "CCW 08 00 0"])
        deck.event("START 1 0", "RUN 0")


def paths(deck):
    """Eight devices, two of them at each of four paths: reads and fast writes of eight bytes, a command of each device in turn."""
    deck.devices = 8
    for device in range(8):
        deck.formatted([deck.track(0)], 8, device, "C0")
    while deck.unit():
        for device in range(8):
            reads = (deck.units + device) % 2 == 0
            command = ("06", read(8)) if reads else ("01", update(8))
            words = in_turn(deck.extent("40" if reads else "80", "C0"), command, [deck.track(0)])
            deck.program(words, 1 + device % 4, device)
        deck.event(*[f"START {1 + device % 4} {device}" for device in range(8)])
        for _ in words:
            deck.event(*[f"STEP {device}" for device in range(8)])


# Of each kind how many units are timed (most have nearly 65,536 event lines), and how many are counted.
KINDS = {
    hits8: (488, 4), hits4096: (120, 4), tracks: (60, 2), misses: (415, 2), ahead: (60, 2), fast8: (488, 4), fast4096: (488, 4),
    destaging: (495, 4), cachefast: (488, 4), through: (488, 4), pairs: (495, 4), copies: (3000, 20), recovery: (480, 4),
    formats: (500, 4), searches: (250, 1), paths: (60, 1),
}
BY_NAME = {kind.__name__: kind for kind in KINDS}


def deck_of(kind, run, declared=None, cylinders=1, frames=64, filled=0):
    """A deck of so many units, with frames of which some are filled before."""
    deck = Deck(run, declared or run, cylinders, frames)
    deck.fill(filled)
    kind(deck)
    return deck.text()


if __name__ == "__main__":
    name, *units = sys.argv[1:]
    print(deck_of(BY_NAME[name], int((units or [KINDS[BY_NAME[name]][0]])[0])), end="")
