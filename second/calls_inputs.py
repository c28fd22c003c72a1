"""The lines that `calls` is tried on: worked cases, pairs of faults, every kind of code, all words of small codes."""

from collections import OrderedDict
from itertools import combinations

from calls import line
from codes import allowed
from draw import HUGE, ONES_32, Draw, damaged
from plates import carries, message_length, of_number, to_cells
from reader_inputs import lines_on_readers
from worked import CASES


def cells(number, length):
    return to_cells(of_number(number), length)


# Faults one at a time and in pairs: for each two fields all their options, the other fields sound (their first option).


def pairwise(letter, *options):
    for one, other in combinations(range(len(options)), 2):
        for first in options[one]:
            for second in options[other]:
                values = [field[0] for field in options]
                values[one], values[other] = first, second
                yield line(letter, *values)


def with_bad_cells(sound):
    """The cells with a 2 or a 255 first, in the middle and last, also where the length is wrong."""
    middle = len(sound) // 2
    return [(2,) + sound[1:], sound[:middle] + (255,) + sound[middle + 1:], sound[:-1] + (2,),
            (255,) + sound, sound[:-2] + (2,)]


def of_any_length(sound):
    return [sound[:-1], sound + (0,), sound + sound, ()]


def input_options(sound, *others):
    return [sound, *others, *of_any_length(sound), *with_bad_cells(sound)]


def lent_options(draw, length):
    sound = draw.lent(length)
    return [sound, *of_any_length(sound)]


def faults_on_a_code(draw, n, g, rule):
    k = message_length(n, g)
    lengths = (n, 0, 1, 2, n + 1, 64, HUGE)
    generators = (g, 11, 0, 1, 2, 10, g - 1, 9, 2 ** n + 1, 2 ** 32 + 1, ONES_32, 2 ** 33 + 1, HUGE)
    rules = (rule, 0, 1, 3, 255, HUGE)
    message, word = draw.cells(k), draw.code_word(n, g)
    words = input_options(cells(word, n), cells(damaged(n, word, {1}), n), cells(damaged(n, word, {1, n}), n),
                          cells(damaged(n, word, {1, 3}), n), draw.cells(n))
    numbers = (word, damaged(n, word, {2}), damaged(n, word, {1, 3}), 2 ** n - 1, 2 ** n, HUGE)
    for letter in "SP":
        yield from pairwise(letter, lengths, generators, input_options(message), lent_options(draw, n))
    for letter in "sp":
        yield from pairwise(letter, lengths, generators, (draw.below(2 ** k), 2 ** k - 1, 2 ** k, HUGE))
    yield from pairwise("R", lengths, generators, words)
    yield from pairwise("r", lengths, generators, numbers)
    for letter in "MQW":
        yield from pairwise(letter, lengths, generators, rules, words, lent_options(draw, k))
    for letter in "mq":
        yield from pairwise(letter, lengths, generators, rules, numbers)
    yield from pairwise("K", lengths, generators)
    for letter in "kN":
        yield from pairwise(letter, lengths, generators, rules)
    yield from pairwise("B", lengths, generators, rules, words, words)


def bad_cell_at_each_place(draw):
    """One input cell that isn't 0 or 1, so that nothing may have been written before it is met."""
    for n, g, rule in ((7, 29, 2), (15, 465, 2), (63, 67, 1)):
        k, word = message_length(n, g), cells(draw.code_word(n, g), n)
        for place in range(n):
            bad = word[:place] + (2 + draw.below(254),) + word[place + 1:]
            yield line(draw.one_of("SP"), n, g, bad[:k] if place < k else bad[-k:], draw.lent(n))
            yield line("R", n, g, bad)
            yield line(draw.one_of("MQW"), n, g, rule, bad, draw.lent(k))
            yield line("B", n, g, rule, *draw.one_of(((bad, word), (word, bad))))
            yield line("D", g, bad, draw.lent(n))
            yield line(draw.one_of("LH"), g, bad)


# Division.


def division(draw):
    divisors = (11, 0, 1, 2, 3, 10, 2 ** 32, 2 ** 32 + 1, ONES_32 - 1, ONES_32, 2 ** 33, HUGE)
    sound = draw.cells(11)
    yield from pairwise("D", divisors, input_options(sound, (0,), (1,)), lent_options(draw, 11))
    for letter in "LH":
        yield from pairwise(letter, divisors, input_options(sound, (0,), (1,)))
    for divisor in range(2, 10):
        for length in range(6):
            for number in range(2 ** length):
                yield line("D", divisor, cells(number, length), draw.lent(length))
                yield line(draw.one_of("LH"), divisor, cells(number, length))
    for divisor in [*range(141), *(2 + draw.bits(1 + draw.below(33)) for _ in range(60))]:
        dividend = draw.cells(draw.below(80))
        yield line("D", divisor, dividend, draw.lent(len(dividend)))
        yield line("L", divisor, dividend)
        yield line("H", divisor, dividend)


def long_division(draw):
    for divisor in (1, 2, 11, ONES_32):
        for length in (4095, 4096, 4097):
            dividend = draw.cells(length)
            yield line("D", divisor, dividend, dividend[::-1])
            yield line(draw.one_of("LH"), divisor, dividend)
            yield line(draw.one_of("LH"), divisor, dividend[1:] + (2,))
    dividend = draw.cells(4095)
    for lent in (dividend, draw.cells(4095) + (9,), dividend + (1, 1), ()):
        yield line("D", 37, dividend + (1,), lent)
        yield line("D", 37, dividend + (2,), lent)
        yield line("D", 2 ** 33, dividend + (255, 1), lent)
    yield line("L", ONES_32, dividend + (1,))
    yield line("H", ONES_32, dividend + (1,))
    yield line("H", 6, dividend + (1,))


# Every kind of code.


def checks_of_a_code(draw):
    """Small generators at every length, and lengths and generators at the ends of their ranges."""
    for n in range(67):
        for g in [0, 2, 10, 138] + list(range(1, 141, 2)):
            yield line("m", n, g, draw.one_of((0, 0, 1, 2, 3)), draw.below(2 ** min(max(n, 3), 64)))
            yield line("K", n, g)
            yield line("k", n, g, draw.one_of((1, 2)))
    for n in (7, 63):
        for g in range(141):
            yield line("r", n, g, draw.below(2 ** n))
    ends = [2 ** 31 + 1, 2 ** 32 - 1, 2 ** 32, 2 ** 32 + 1, ONES_32 - 2, ONES_32, 2 ** 33, 2 ** 33 + 1, 2 ** 63 + 1,
            HUGE]
    for n in [2, 7, 32, 33, 34, 62, 63, 64, 65, 128, 2 ** 32 + 7, 2 ** 63, HUGE]:
        for g in ends + [2 ** min(n, 63) + 1, 2 ** min(n - 1, 63) + 1, 3]:
            yield line("r", n, g, draw.one_of((0, 1, 2 ** 33, HUGE)))


def chosen_codes(draw, count):
    """Of every length: the smallest generator, one of the highest degree, and others."""
    for n in range(2, 64):
        codes = allowed(n)
        for g in sorted({codes[0], codes[-1], *(draw.one_of(codes) for _ in range(count))}):
            yield n, g


def numbers_on_codes(draw):
    for n, g in chosen_codes(draw, 4):
        k = message_length(n, g)
        for letter in "sp":
            for message in (2 ** k - 1, 2 ** k, draw.below(2 ** k)):
                yield line(letter, n, g, message)
        for word in (2 ** n - 1, 2 ** n, draw.word(n, g)):
            yield line("r", n, g, word)
        for rule in (0, 1, 2):
            word = draw.word(n, g)
            yield line("m", n, g, rule, word)
            yield line("q", n, g, rule, word)
            yield line(draw.one_of("mq"), n, g, rule, damaged(n, draw.code_word(n, g), {1 + draw.below(n)}))


def generators_of_degree_32(draw):
    for n in range(33, 64):
        codes = [g for g in allowed(n) if g >= 2 ** 32]
        draw.shuffle(codes)
        for g in codes[:3]:
            k = message_length(n, g)
            yield line("S", n, g, draw.cells(k), draw.lent(n))
            yield line("P", n, g, draw.cells(k), draw.lent(n))
            yield line("R", n, g, draw.cells(n))
            for rule in (1, 2):
                word = cells(damaged(n, draw.code_word(n, g), {n - 1, n}), n)
                yield line(draw.one_of("MQ"), n, g, rule, word, draw.lent(k))
                yield line("W", n, g, rule, word, draw.lent(k))


def cells_on_codes(draw):
    for n, g in chosen_codes(draw, 1):
        k, rule = message_length(n, g), draw.one_of((0, 1, 2))
        for letter in "SP":
            yield line(letter, n, g, draw.cells(k), draw.lent(n))
        yield line("R", n, g, cells(draw.word(n, g), n))
        for letter in "MQW":
            yield line(letter, n, g, rule, cells(draw.word(n, g), n), draw.lent(k))
        yield line("B", n, g, rule, cells(draw.word(n, g), n), cells(draw.word(n, g), n))


def families(draw):
    for family in [*range(15), 255, 256, 2 ** 32 + 1, HUGE, draw.bits(64)]:
        yield line("F", family)


def two_readings(draw):
    """Two readings of one plate, or of two, damaged each in its own way."""
    for n, g, rule in ((7, 11, 1), (7, 29, 2), (15, 465, 2), (15, 19, 1), (23, 2787, 2), (63, 67, 1)):
        for _ in range(40):
            plate = draw.code_word(n, g)
            other = draw.one_of((plate, plate, draw.code_word(n, g)))
            first, second = (cells(damaged(n, word, draw.places(n)), n) for word in (plate, other))
            yield line("B", n, g, rule, first, second)
    for n, g, rule in ((3, 7, 1), (5, 31, 2)):
        for first in range(2 ** n):
            for second in range(2 ** n):
                yield line("B", n, g, rule, cells(first, n), cells(second, n))


def every_word(draw):
    """Every word of every allowed code of up to seven cells: under every rule by the clocked reader, and under those that it carries by the decoders too."""
    for n in range(2, 8):
        for g in allowed(n):
            for rule in (0, 1, 2):
                for word in range(2 ** n):
                    for letter in "MQW" if carries(n, g, rule) else "W":
                        yield line(letter, n, g, rule, cells(word, n), draw.lent(message_length(n, g)))


def lines_of_calls():
    draw = Draw(63)
    lines = [call for _, call, _ in CASES]
    for code in ((7, 29, 2), (15, 465, 2), (33, ONES_32, 2)):
        lines += faults_on_a_code(draw, *code)
    for section in (bad_cell_at_each_place, division, long_division, checks_of_a_code, numbers_on_codes,
                    generators_of_degree_32, cells_on_codes, families, two_readings, lines_on_readers, every_word):
        lines += section(draw)
    return list(OrderedDict.fromkeys(lines))
