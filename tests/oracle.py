#!/usr/bin/env python3
"""The answers that `yard` owes: lines on standard input, answers on standard output.

Written from docs/RULES.md over a dictionary; it shares no code with the crates. What a yard holds
is searched whole on each call, so that no index can be wrong here.
"""
import re
import sys
from typing import NamedTuple

LONGEST_LINE = 200
LARGEST_NUMBER = 4_294_967_295
TAG_ROOM = 240  # a tag tree of 255 slots, 15 to a node
SIZE_ROOM = 448  # a size tree of 511 slots, 7 to a node
LIST_PAGE = 100
SPECIES = [b"S", b"P", b"L", b"D"]  # in the order of their codes
STANDING, AT_SAW = PLACES = [b"YARD", b"SAW"]
WORDS = {"species": SPECIES, "place": PLACES}
LIMITS = {
    "tag": (1, LARGEST_NUMBER),
    "diameter": (80, 1200),
    "length": (100, 1500),
    "bay": (1, 200),
}

FIELDS = {
    b"LOG": ["tag", "species", "diameter", "length", "bay", "place"],
    b"OPEN": [],
    b"ARRIVE": ["tag", "species", "diameter", "length", "bay"],
    b"WITHDRAW": ["tag"],
    b"CALL": ["species", "diameter", "length"],
    b"SAW": ["tag"],
    b"BACK": ["tag"],
    b"FIND": ["tag"],
    b"LIST": ["species", "diameter", "diameter"],
}


class Refusal(Exception):
    def __init__(self, number, position=0):
        self.answer = tell(b"NO", number, position)


class Log(NamedTuple):
    tag: int
    species: bytes
    diameter: int
    length: int
    bay: int
    place: bytes

    def size(self):
        return SPECIES.index(self.species), self.diameter, self.length, self.tag

    def told(self):
        return tell(b"LOG", *self)


def tell(*fields):
    return b"\t".join(b"%d" % f if isinstance(f, int) else f for f in fields) + b"\n"


def is_formed(kind, field):
    if kind in WORDS:
        return field in WORDS[kind]
    return re.fullmatch(rb"0|[1-9][0-9]{0,9}", field) is not None and int(field) <= LARGEST_NUMBER


def read(line):
    """The word of a line and the values of its fields, or its first refusal."""
    if len(line) > LONGEST_LINE:
        raise Refusal(10)
    word, *fields = line.split(b"\t")
    if word not in FIELDS:
        raise Refusal(11)
    kinds = FIELDS[word]
    if len(fields) != len(kinds):
        raise Refusal(12)
    for position, (kind, field) in enumerate(zip(kinds, fields), 1):
        if not is_formed(kind, field):
            raise Refusal(13, position)
    values = [int(f) if k in LIMITS else f for k, f in zip(kinds, fields)]
    for position, (kind, value) in enumerate(zip(kinds, values), 1):
        least, most = LIMITS.get(kind, (value, value))
        if not least <= value <= most:
            raise Refusal(14, position)
    if word == b"LIST" and values[1] > values[2]:
        raise Refusal(15, 3)
    return word, values


class Yard:
    """Loads logs until it is opened, then serves the calls."""

    def __init__(self):
        self.logs = {}  # the present logs by tag
        self.last_loaded = 0
        self.is_open = False

    def answer(self, line):
        try:
            word, values = read(line)
            if not self.is_open and word not in (b"LOG", b"OPEN"):
                raise Refusal(20)
            return getattr(self, word.decode().lower())(*values)
        except Refusal as refusal:
            return refusal.answer

    def log(self, *values):
        if self.is_open:
            raise Refusal(27)
        log = Log(*values)
        if log.tag <= self.last_loaded:
            raise Refusal(31)
        if len(self.logs) == TAG_ROOM:
            raise Refusal(32)
        self.last_loaded = log.tag
        self.logs[log.tag] = log
        return tell(b"OK", log.tag)

    def open(self):
        if self.is_open:
            raise Refusal(27)
        self.is_open = True
        return tell(b"OPEN", len(self.logs))

    def arrive(self, *values):
        log = Log(*values, STANDING)
        if log.tag in self.logs:
            raise Refusal(21)
        if len(self.logs) == min(TAG_ROOM, SIZE_ROOM):
            raise Refusal(25)
        self.logs[log.tag] = log
        return tell(b"OK", log.tag)

    def withdraw(self, tag):
        if self.present(tag).place == AT_SAW:
            raise Refusal(23)
        del self.logs[tag]
        return tell(b"OK", tag)

    def call(self, species, diameter, length):
        thick = [log for log in self.standing(species) if log.diameter >= diameter]
        fitting = [log for log in thick if log.length >= length]
        if not fitting:
            raise Refusal(26)
        return self.move(min(fitting, key=Log.size), AT_SAW).told()

    def saw(self, tag):
        if self.present(tag).place == STANDING:
            raise Refusal(24)
        del self.logs[tag]
        return tell(b"OK", tag)

    def back(self, tag):
        if self.present(tag).place == STANDING:
            raise Refusal(24)
        self.move(self.logs[tag], STANDING)
        return tell(b"OK", tag)

    def find(self, tag):
        return self.present(tag).told()

    def list(self, species, first, last):
        between = [log for log in self.standing(species) if first <= log.diameter <= last]
        page = sorted(between, key=Log.size)[:LIST_PAGE]
        end = tell(b"END", len(page), int(len(between) > len(page)))
        return b"".join(map(Log.told, page)) + end

    def present(self, tag):
        if tag not in self.logs:
            raise Refusal(22)
        return self.logs[tag]

    def standing(self, species):
        present = self.logs.values()
        return [log for log in present if log.place == STANDING and log.species == species]

    def move(self, log, place):
        self.logs[log.tag] = log._replace(place=place)
        return self.logs[log.tag]


def lines(data):
    """The lines of some bytes: a last one without its end counts if it has a byte."""
    cut = data.split(b"\n")
    return cut if cut[-1] else cut[:-1]


def answers(data):
    yard = Yard()
    return b"".join(map(yard.answer, lines(data)))


if __name__ == "__main__":
    desk = Yard()
    for text in sys.stdin.buffer:
        sys.stdout.buffer.write(desk.answer(text.removesuffix(b"\n")))
        sys.stdout.buffer.flush()
