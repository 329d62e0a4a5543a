"""Lines damaged as a worn cable, another program or a tired hand would damage them."""
from oracle import FIELDS, LIMITS

ODD_NUMBERS = [
    b"", b"0", b"00", b"01", b"007", b"+5", b"-1", b" 5", b"5 ", b"5.0", b"1e3", b"0x50", b"5\r", b"5\0",
    b"999999999", b"9999999999", b"0000000001", b"10000000000", b"12345678901", b"99999999999",
    b"4294967294", b"4294967295", b"4294967296", b"4294967297", b"4294967300", b"4300000000",
    b"18446744073709551615", b"18446744073709551617", b"\xb2", b"\xef\xbc\x95", b"/", b":", b"1:", b"1/",
]  # fmt: skip
ODD_WORDS = [
    b"", b"log", b"LO", b"LOGS", b"LOG ", b" LOG", b"LOG\0", b"L\xd6G", b"OPE", b"OPENS", b"OPEN\r", b"open",
    b"ARRIVES", b"ARRIV", b"WITHDRAWN", b"WITHDRA", b"CAL", b"CALLS", b"SA", b"SAWN", b"BACKS", b"BAC",
    b"FIN", b"FINDS", b"LIS", b"LISTS", b"YARD", b"OK", b"NO", b"END", b"\xff\xfe", b"\xef\xbb\xbfOPEN", b"\0",
]  # fmt: skip
ODD_LETTERS = {
    "species": [b"", b"s", b"SS", b"S ", b"C", b"E", b"K", b"M", b"O", b"Q", b"R", b"T", b"0", b"\xd3", b"\0"],
    "place": [b"", b"yard", b"YARDS", b"YAR", b"YARD\r", b"SA", b"SAWS", b"saw", b"S", b"\0SAW", b"LOG"],
}  # fmt: skip
LENGTHS = [1, 199, 200, 201, 202, 255, 256, 257, 400, 5000]
LONG_LENGTHS = [4096, 8191, 8192, 8193, 65536, 70000]


def damaged(random, line):
    """The line with one kind of damage, sometimes with two."""
    for _ in range(random.choice([1, 1, 1, 2])):
        line = random.choice(KINDS)(random, line)
    return line


def odd_word(random, line):
    _, *fields = line.split(b"\t")
    return b"\t".join([random.choice(ODD_WORDS), *fields])


def odd_field(random, line):
    """Puts something odd in the place of some fields."""
    word, *fields = line.split(b"\t")
    share = random.choice([0.2, 0.5, 1])
    kinds = FIELDS.get(word, ["tag"] * len(fields))
    odds = [odd(random, kind) if random.random() < share else f for kind, f in zip(kinds, fields)]
    return b"\t".join([word, *odds])


def odd(random, kind):
    if kind in ODD_LETTERS:
        return random.choice(ODD_LETTERS[kind])
    least, most = LIMITS[kind]
    limit = random.choice([least - 1, least, most, most + 1])
    return random.choice([b"%d" % limit, random.choice(ODD_NUMBERS)])


def fewer_or_more_fields(random, line):
    fields = line.split(b"\t")
    at = random.randrange(len(fields))
    drop, double = fields[:at] + fields[at + 1 :], fields[:at] + fields[at:][:1] + fields[at:]
    return b"\t".join(random.choice([drop, double, [*fields, b""], [b"", *fields]]))


def swapped_fields(random, line):
    fields = line.split(b"\t")
    random.shuffle(fields)
    return b"\t".join(fields)


def wrong_gap(random, line):
    return line.replace(b"\t", random.choice([b"", b" ", b"\t\t", b"\t ", b",", b"\0"]), 1)


def changed_byte(random, line):
    at = random.randrange(len(line) + 1)
    return line[:at] + bytes([random.randrange(256)]) + line[at + random.randrange(2) :]


def cut_short(random, line):
    return line[: random.randrange(len(line) + 1)]


def stretched(random, line):
    """Makes the line as long as a limit, with digits, with tabs, or by saying it again and again."""
    length = random.choice(LENGTHS if random.random() < 0.95 else LONG_LENGTHS)
    filler = random.choice([b"1", b"\t", b"X", b" ", b"\0", line + b"\t"])
    return (line + filler * length)[:length]


def run_together(random, line):
    return line + random.choice([b"\r", b"\t", b"\r\r", b" ", b"\0", b"\x0b", b"\x0c", line])


def noise(random, line):
    return random.randbytes(random.choice([1, 2, 5, 20, 200, 201]))


def nothing(random, line):
    return b""


KINDS = [
    odd_word, odd_field, odd_field, odd_field, fewer_or_more_fields, swapped_fields, wrong_gap,
    changed_byte, changed_byte, cut_short, stretched, run_together, noise, nothing,
]  # fmt: skip
