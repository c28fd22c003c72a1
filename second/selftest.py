"""Holds plates.py to document 01, its ways of decoding to each other, and the generated files to wrong variants."""

import sys
import time

import calls
import plates
from calls_inputs import lines_of_calls
from codes import allowed
from draw import Draw
from plates import FAMILIES, carries, message_length, of_cells, of_number, plus, remainder, times, to_cells, to_stages
from strips_inputs import records_of_strips
from variants import VARIANTS
from worked import CASES, SAMPLE, SAMPLE_LINES

# The numbers that each call has.
NUMBERS = {"D": (0, 1, 2, 6, 7), "L": (0, 1, 2, 7), "H": (0, 1, 2, 7), "S": (0, 1, 2, 3, 6, 7), "P": (0, 1, 2, 3, 6, 7),
           "R": (0, 1, 2, 3, 6, 7), "M": range(9), "Q": range(9), "W": range(9), "N": range(6), "C": (0, 7, 11),
           "A": (0, 6, 8, 11), "B": (*range(9), 10), "s": (0, 1, 2, 3, 6), "p": (0, 1, 2, 3, 6), "r": (0, 1, 2, 3, 6),
           "m": (0, 1, 2, 3, 4, 5, 6, 8), "q": (0, 1, 2, 3, 4, 5, 6, 8), "K": range(4), "k": range(6)}


def require(holds, *what):
    if not holds:
        sys.exit("selftest: " + " ".join(map(str, what)))


def worked_cases():
    for number, call, answer in CASES:
        require(calls.answered(call) == answer, "case", number, call)
    require(plates.strips(SAMPLE) == SAMPLE_LINES, "the sample of strips")
    require(plates.strips(b"") == b"", "empty input")
    for rest in range(1, 16):
        require(plates.strips(SAMPLE[:rest]) == b"short %d\n" % rest, "a rest of", rest)


def division():
    for divisor in map(of_number, range(2, 40)):
        for dividend in map(of_number, range(200)):
            quotient, rest = plates.divided(dividend, divisor)
            require(plus(times(quotient, divisor), rest) == dividend, "quotient times divisor plus remainder")
            require(max(rest, default=-1) < max(divisor), "the remainder's degree")


def small_codes(longest):
    for n in range(2, longest + 1):
        by_trial = [g for g in range(3, 2 ** n, 2) if plates.generator_allowed(n, g) and plates.divides(n, g)]
        require(allowed(n) == by_trial, "the codes of length", n)
        for g in by_trial:
            for rule in (0, 1, 2):
                if carries(n, g, rule):
                    yield n, g, rule


def two_ways_of_decoding():
    for n, g, rule in small_codes(9):
        for word in map(of_number, range(2 ** n)):
            beside = plates.beside_every_code_word(n, g, rule, word)
            require(beside == plates.by_every_pattern(n, g, rule, word), "two ways of decoding", n, g, rule, word)
            require(len(beside) <= 1, "a second code word", n, g, rule, word)


def round_trips():
    for n, g, rule in small_codes(7):
        k = message_length(n, g)
        for message in range(2 ** k):
            cells = to_cells(of_number(message), k)
            for encode, decode in ((plates.encode_systematic, plates.decode_systematic),
                                   (plates.encode_product, plates.decode_product)):
                word = encode(n, g, cells, (9,) * n)[1]
                require(decode(n, g, rule, word, (9,) * k) == (0, 0, cells), "round trip", n, g, rule, message)


def statements_of_the_reader(n, g, rule, word):
    """Register and cell given out after each clock from a start, and the answer, as document 01 states them."""
    found = plates.reading(n, g, rule, of_cells(word))
    difference = plus(of_cells(word), found.code_word) if found else of_cells(word)
    mended = to_cells(found.code_word, n) if found else word
    reader = plates.start(n, g, rule)[1]
    for j in range(1, n + 1):
        number, given_out, reader = plates.clock(reader, word[j - 1])
        require((number, given_out) == (0, 0), "loading")
        require(reader.stages == to_stages(remainder(of_cells(word[:j]), g)), "register while loading", reader)
    for j in range(1, n + 1):
        number, given_out, reader = plates.clock(reader, 0)
        left = frozenset(power for power in difference if not found or n - power > j)
        require((number, given_out) == (0, mended[j - 1]), "cell given out", reader)
        require(reader.stages == to_stages(remainder(times(frozenset({j}), left), g)), "register while mending", reader)
    require(any(reader.stages) == (not found), "register at the end", reader)
    lent = (9,) * message_length(n, g)
    require(plates.answer(reader, lent) == plates.decode_systematic(n, g, rule, word, lent), "answer", reader)


def clocked_reader():
    for n, g, rule in small_codes(7):
        for word in range(2 ** n):
            statements_of_the_reader(n, g, rule, to_cells(of_number(word), n))
    draw = Draw(1)
    for n, g in FAMILIES:
        for rule in (0, 1, 2):
            if carries(n, g, rule):
                for _ in range(8):
                    statements_of_the_reader(n, g, rule, to_cells(of_number(draw.word(n, g)), n))


def families():
    for family, (n, g) in enumerate(FAMILIES, 1):
        require(plates.mending_number(n, g, 1) == 0, "family", family)
        require(carries(n, g, 2) == (family in (3, 4, 5, 7, 8, 9, 11)), "rule 2 of family", family)
    require(plates.divides(14, 11) and not carries(14, 11, 1), "(14,11) repeats its remainders")


def forget():
    for value in vars(plates).values():
        if hasattr(value, "cache_clear"):
            value.cache_clear()


def shown(by_letter, place, instead):
    """Whether the lines of this letter, or the records, come out otherwise with these definitions put instead."""
    kept = {name: getattr(plates, name) for name in instead}
    vars(plates).update(instead)
    forget()
    ask = plates.record_line if place == "strips" else calls.answered
    differs = any(ask(given) != expected for given, expected in by_letter[place])
    vars(plates).update(kept)
    forget()
    return differs


def wrong_variants():
    lines, records = lines_of_calls(), records_of_strips()
    by_letter = {"strips": [(records[at:at + 16], plates.record_line(records[at:at + 16]))
                            for at in range(0, len(records) // 16 * 16, 16)]}
    for text in lines:
        by_letter.setdefault(text[0], []).append((text, calls.answered(text)))
    for letter, numbers in NUMBERS.items():
        given = {int(answer.split(" ")[0]) for _, answer in by_letter[letter]}
        require(given == set(numbers), "the numbers of", letter, "are", sorted(given))
    for name, places, instead in VARIANTS:
        for group in places.split(" "):
            for place in [group] if group == "strips" else group:
                require(shown(by_letter, place, instead), "not shown by", place + ":", name)


def main():
    for check in (worked_cases, division, families, two_ways_of_decoding, round_trips, clocked_reader, wrong_variants):
        began = time.time()
        check()
        print("%-24s %5.1f s" % (check.__name__.replace("_", " "), time.time() - began))


if __name__ == "__main__":
    main()
