#!/usr/bin/env python3
"""Days at the log yard, made up from a seed: plausible lines, and damaged ones among them.

  days.py SEED      prints the day of that seed
  days.py --long N  prints an undamaged day of N lines, for measuring
"""
import sys
from bisect import bisect_left
from random import Random

import oracle
from damage import damaged

LARGEST_TAG = oracle.LARGEST_NUMBER
ROOM = oracle.TAG_ROOM
PAGE = oracle.LIST_PAGE

# What is asked in a stretch of the day, and how often.
STRETCHES = [
    {"arrive": 5, "withdraw": 1, "call": 5, "saw": 3, "back": 2, "find": 3, "list": 1},
    {"arrive": 30, "find": 1, "list": 1},
    {"arrive": 10, "withdraw": 10, "call": 1, "find": 1},
    {"withdraw": 10, "call": 4, "saw": 4, "find": 2, "list": 1},
    {"call": 10, "saw": 8, "list": 1},
    {"call": 10, "back": 8, "find": 2, "list": 1},
    {"find": 3, "list": 3, "call": 1},
]


class Day:
    """A day in the making. It asks an oracle which logs are where, to ask for them or beside them."""

    def __init__(self, seed):
        self.random = Random(seed)
        self.yard = oracle.Yard()
        self.lines = []
        self.damage = self.random.choice([0, 0, 0.02, 0.2, 0.7])
        self.species = self.random.choice([b"S", b"D", b"SP", b"SPLD", b"SPLD"])
        self.diameters = self.random.choice([(80, 1200), (200, 420), (300, 303), (80, 81), (1199, 1200)])
        self.lengths = self.random.choice([(100, 1500), (300, 620), (400, 402)])
        self.last = 1  # the present tag spoken of last
        self.tags = (1, LARGEST_TAG)  # where new tags come from

    def text(self):
        return b"\n".join(self.lines) + self.random.choice([b"\n", b"\n", b""])

    def say(self, *fields):
        line = b"\t".join(b"%d" % f if isinstance(f, int) else f for f in fields)
        if self.random.random() < self.damage:
            line = damaged(self.random, line)
        for part in line.split(b"\n"):
            self.lines.append(part)
            self.yard.answer(part)

    # ---- loading

    def load(self, count):
        """Logs in rising tags, here and there one that does not rise."""
        step = self.random.choice([1, 2, 50, LARGEST_TAG // (ROOM + 30)])
        slips = self.random.choice([0, 0.03, 0.3])
        places = self.random.choice([[b"YARD"], [b"YARD", b"YARD", b"YARD", b"SAW"]])
        tag = 0
        for _ in range(count):
            tag = min(LARGEST_TAG, tag + self.random.randint(1, step))
            self.say(b"LOG", tag, *self.log_body(), self.random.choice(places))
            if self.random.random() < slips:
                slipped = max(1, self.yard.last_loaded - self.random.choice([0, 1, 3]))
                self.say(b"LOG", slipped, *self.log_body(), self.random.choice(places))

    def log_body(self):
        return self.a_species(), self.within(self.diameters), self.within(self.lengths), self.within((1, 200))

    def within(self, span):
        return self.random.choice(span) if self.random.random() < 0.1 else self.random.randint(*span)

    def a_species(self):
        return bytes([self.random.choice(self.species)])

    # ---- a stretch of calls

    def stretch(self, count, mix=None):
        mix = mix or self.random.choice(STRETCHES)
        self.tags = self.random.choice([(1, LARGEST_TAG), (1, 400), self.around(200), self.around(3)])
        for ask in self.random.choices([getattr(self, name) for name in mix], mix.values(), k=count):
            ask()

    def around(self, reach):
        middle = self.random.choice([1, LARGEST_TAG, self.some_tag()])
        return max(1, middle - reach), min(LARGEST_TAG, middle + reach)

    def arrive(self):
        tag = self.random.randint(*self.tags)
        if self.random.random() < 0.05:
            tag = self.some_tag()
        self.say(b"ARRIVE", tag, *self.log_body())

    def withdraw(self):
        self.say(b"WITHDRAW", self.tag_at(oracle.STANDING))

    def saw(self):
        self.say(b"SAW", self.tag_at(oracle.AT_SAW))

    def back(self):
        self.say(b"BACK", self.tag_at(oracle.AT_SAW))

    def find(self):
        self.say(b"FIND", self.some_tag())

    def call(self):
        """Asks for a size close to one that is there, or for any."""
        species, diameter, length, _ = self.log_body()
        if self.yard.logs and self.random.random() < 0.6:
            log = self.yard.logs[self.present_tag(list(self.yard.logs))]
            species, diameter, length = log.species, log.diameter, log.length
        diameter += self.random.choice([0, 0, -1, 1, -40])
        length += self.random.choice([0, 0, -1, 1, -100, 100])
        self.say(b"CALL", species, max(diameter, 79), max(length, 99))

    def list(self):
        species = self.a_species()
        ends = [self.within(self.diameters), self.within(self.diameters)]
        if self.random.random() < 0.9:
            ends.sort()
        if self.random.random() < 0.3:
            ends = self.random.choice([[80, 1200], [*self.diameters], [ends[0], ends[0]]])
        there = sorted(log.diameter for log in self.yard.standing(species))
        if len(there) > PAGE and self.random.random() < 0.5:
            ends = self.page_of(there)
        self.say(b"LIST", species, *ends)

    def page_of(self, there):
        """The ends of a list of just a page, or of one log less or more, where no diameters are equal."""
        last = self.random.randrange(PAGE, len(there))
        return there[last - PAGE + self.random.choice([0, 1, 2])], there[last]

    # ---- tags to ask for

    def tag_at(self, place):
        """Mostly the tag of a log in that place."""
        there = [tag for tag, log in self.yard.logs.items() if log.place == place]
        if there and self.random.random() < 0.85:
            return self.present_tag(there)
        return self.some_tag()

    def some_tag(self):
        """A tag that is present, or one close to it, or the last one again, or any."""
        tags = list(self.yard.logs)
        if not tags or self.random.random() < 0.1:
            return self.random.choice([self.last, self.random.randint(1, LARGEST_TAG)])
        tag = self.present_tag(tags) + self.random.choice([0, 0, 0, 0, -1, 1])
        return min(max(tag, 1), LARGEST_TAG)

    def present_tag(self, tags):
        """One of the tags, half of the time the next after the last: so whole leaves become empty."""
        if self.random.random() < 0.5:
            self.last = self.random.choice(tags)
        else:
            tags.sort()
            self.last = tags[bisect_left(tags, self.last) % len(tags)]
        return self.last


def day(seed):
    """The bytes of the day of a seed."""
    it = Day(seed)
    random = it.random
    few, paged, many = random.randint(1, 30), PAGE + random.randint(-1, 2), random.randint(31, ROOM - 1)
    it.load(random.choice([0, few, few, paged, many, many, ROOM, ROOM + 1, ROOM + 20]))
    if random.random() < 0.2:
        it.stretch(random.randint(1, 20))
    if random.random() < 0.95:
        it.say(b"OPEN")
    for _ in range(random.randint(1, 5)):
        it.stretch(random.choice([10, 40, 100, 300]))
        if random.random() < 0.1:
            it.say(b"OPEN")
            it.load(3)
    return it.text()


def long_day(count):
    """Undamaged lines in the mix of an ordinary day, in pieces."""
    it = Day(0)
    it.damage, it.species, it.diameters, it.lengths = 0, b"SPLD", (200, 420), (300, 620)
    it.load(200)
    it.say(b"OPEN")
    while count > 0:
        it.stretch(1000, STRETCHES[0])
        yield b"\n".join(it.lines[:count]) + b"\n"
        count -= len(it.lines)
        it.lines = []


def main(words):
    if len(words) == 2 and words[0] == "--long" and words[1].isdigit():
        pieces = long_day(int(words[1]))
    elif len(words) == 1 and words[0].isdigit():
        pieces = [day(int(words[0]))]
    else:
        sys.exit(__doc__)
    for piece in pieces:
        sys.stdout.buffer.write(piece)


if __name__ == "__main__":
    main(sys.argv[1:])
