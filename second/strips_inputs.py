"""The records that `strips` is tried on: the sample, each kind of record in mixed order, and a rest of 13 bytes."""

from draw import HUGE, Draw, damaged
from plates import FAMILIES, message_length
from worked import SAMPLE_RECORDS

JOBS, RULES = "EPSDQ", (0, 1, 2, 3, 255)


def record(draw, letter, family, rule, word, zero=0):
    station = draw.one_of((0, 1, 2 ** 32 - 1) + 13 * (draw.bits(32),))
    return bytes((letter, family, rule, zero)) + station.to_bytes(4, "big") + word.to_bytes(8, "big")


def rules_of(job):
    return RULES if job in "DQ" else (0,)


def each_place(draw):
    """Each single cell and each two neighbours of each family's words, under each rule."""
    for family, (n, g) in enumerate(FAMILIES, 1):
        for rule in RULES:
            for job in "DQ":
                for place in range(1, n + 1):
                    for places in ({place}, {place, place % n + 1}):
                        yield record(draw, ord(job), family, rule, damaged(n, draw.code_word(n, g), places))


def limits(draw):
    for family, (n, g) in enumerate(FAMILIES, 1):
        k = message_length(n, g)
        for job in JOBS:
            for rule in rules_of(job):
                for word in (0, 1, 2 ** k - 1, 2 ** k, 2 ** n - 1, 2 ** n, 2 ** 63, HUGE):
                    yield record(draw, ord(job), family, rule, word)


def not_allowed(draw):
    for letter in range(256):
        yield record(draw, letter, 1 + draw.below(12), 0, draw.below(8))
    for job in JOBS:
        for rule in rules_of(job):
            for family in (0, 13, 14, 128, 255):
                yield record(draw, ord(job), family, rule, draw.below(8))
            for family in range(1, 13):
                yield record(draw, ord(job), family, rule, draw.below(8), draw.one_of((1, 2, 128, 255)))
    for job in "EPS":
        for family in range(1, 13):
            for rule in (1, 2, 3, 255):
                yield record(draw, ord(job), family, rule, draw.below(8))
    for _ in range(1000):
        letter = draw.one_of(tuple(b"EPSDQ?epsdq"))
        zero = draw.one_of((0, 0, 0, draw.bits(8)))
        yield record(draw, letter, draw.below(14), draw.one_of(RULES), draw.bits(1 + draw.below(64)), zero)


def mixed(draw, count):
    for _ in range(count):
        job, family = draw.one_of(JOBS), 1 + draw.below(12)
        n, g = FAMILIES[family - 1]
        word = draw.below(2 ** message_length(n, g)) if job in "EP" else draw.word(n, g)
        rule = draw.one_of(rules_of(job)[:3]) if draw.below(8) else draw.one_of(RULES)
        yield record(draw, ord(job), family, rule, word)


def records_of_strips():
    draw = Draw(16)
    records = [*each_place(draw), *limits(draw), *not_allowed(draw), *mixed(draw, 14000)]
    draw.shuffle(records)
    return SAMPLE_RECORDS + b"".join(records) + SAMPLE_RECORDS[:13]
