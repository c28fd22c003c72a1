"""The exact rules of strip plates (document 01), in its words and order, written to be believed and not to be fast."""

from collections import namedtuple
from functools import lru_cache, partial
from itertools import combinations

# Words and cells. A polynomial with coefficients 0 and 1 is the frozenset of its powers.


def of_cells(cells):
    """The first cell is the highest power, the last is x^0."""
    return frozenset(len(cells) - 1 - i for i, cell in enumerate(cells) if cell)


def to_cells(polynomial, length):
    return tuple(int(power in polynomial) for power in reversed(range(length)))


def of_number(number):
    """Bit i is the coefficient of x^i."""
    return frozenset(i for i in range(number.bit_length()) if number >> i & 1)


def to_number(polynomial):
    return sum(2 ** power for power in polynomial)


def degree(g):
    """The degree of the polynomial of a number; -1 for 0, which has none."""
    return max(of_number(g), default=-1)


def plus(a, b):
    return a ^ b


def times(a, b):
    product = frozenset()
    for power in a:
        product = plus(product, frozenset(power + other for other in b))
    return product


def divided(dividend, divisor):
    """Quotient and remainder by the school method: the dividend is quotient times divisor plus remainder."""
    quotient, rest, top = set(), set(dividend), max(divisor)
    for power in reversed(range(top, max(dividend, default=-1) + 1)):
        if power in rest:
            quotient.add(power - top)
            rest ^= {other + power - top for other in divisor}
    return frozenset(quotient), frozenset(rest)


def remainder(polynomial, g):
    return divided(polynomial, of_number(g))[1]


# What the numbers may be.


def divisor_allowed(divisor):
    return 1 <= degree(divisor) <= 32


def generator_allowed(n, g):
    return g % 2 == 1 and 1 <= degree(g) <= 32 and degree(g) < n


def message_length(n, g):
    return n - degree(g)


@lru_cache(maxsize=None)
def divides(n, g):
    return not remainder(frozenset({n, 0}), g)


def are_cells(cells):
    return all(cell in (0, 1) for cell in cells)


# Numbers handed back. A call's checks are its numbers, each with what must hold; later ones may rely on earlier ones.

ORDER = (11, 1, 2, 3, 4, 5, 6, 7, 10, 8)


def first_met(checks):
    for number in ORDER:
        if number in checks and not checks[number]():
            return number
    return 0


def code_checks(n, g):
    return {1: lambda: 2 <= n <= 63, 2: lambda: generator_allowed(n, g), 3: lambda: divides(n, g)}


def mending_checks(n, g, rule):
    return {**code_checks(n, g), 4: lambda: rule in (0, 1, 2), 5: lambda: carries(n, g, rule)}


def check_code(n, g):
    return (first_met(code_checks(n, g)),)


def check_rule(n, g, rule):
    return (first_met(mending_checks(n, g, rule)),)


# Division and the two remainder calls.


def division_checks(divisor, dividend):
    return {1: lambda: len(dividend) <= 4096, 2: lambda: divisor_allowed(divisor), 7: lambda: are_cells(dividend)}


def divide(divisor, dividend, quotient):
    number = first_met({**division_checks(divisor, dividend), 6: lambda: len(quotient) == len(dividend)})
    if number:
        return number, 0, quotient
    whole, rest = divided(of_cells(dividend), of_number(divisor))
    return 0, to_number(rest), to_cells(whole, len(dividend))


def low_side(divisor, dividend):
    number = first_met(division_checks(divisor, dividend))
    if number:
        return number, 0
    return 0, to_number(remainder(of_cells(dividend), divisor))


def high_side(divisor, dividend):
    """The remainder of x^r times the input."""
    number = first_met(division_checks(divisor, dividend))
    if number:
        return number, 0
    raised = times(frozenset({degree(divisor)}), of_cells(dividend))
    return 0, to_number(remainder(raised, divisor))


# Encoding and remainder of a word.


def systematic_word(g, message):
    """x^r D + the remainder of x^r D by g."""
    raised = times(frozenset({degree(g)}), message)
    return plus(raised, remainder(raised, g))


def product_word(g, message):
    """D times g."""
    return times(message, of_number(g))


def encode(word_of, n, g, message, word):
    number = first_met({**code_checks(n, g),
                        6: lambda: len(message) == message_length(n, g) and len(word) == n,
                        7: lambda: are_cells(message)})
    if number:
        return number, word
    return 0, to_cells(word_of(g, of_cells(message)), n)


def encode_number(word_of, n, g, message):
    number = first_met({**code_checks(n, g), 6: lambda: message < 2 ** message_length(n, g)})
    if number:
        return number, 0
    return 0, to_number(word_of(g, of_number(message)))


def word_remainder(n, g, word):
    number = first_met({**code_checks(n, g), 6: lambda: len(word) == n, 7: lambda: are_cells(word)})
    if number:
        return number, 0
    return 0, to_number(remainder(of_cells(word), g))


def word_remainder_number(n, g, word):
    number = first_met({**code_checks(n, g), 6: lambda: word < 2 ** n})
    if number:
        return number, 0
    return 0, to_number(remainder(of_number(word), g))


encode_systematic = partial(encode, systematic_word)
encode_product = partial(encode, product_word)
encode_systematic_number = partial(encode_number, systematic_word)
encode_product_number = partial(encode_number, product_word)

# Mending rules. A pattern is a set of places; the first cell is place 1, the last is place n.


@lru_cache(maxsize=None)
def patterns(n, rule):
    found = {frozenset()}
    if rule >= 1:
        found |= {frozenset({place}) for place in range(1, n + 1)}
    if rule >= 2:
        found |= {frozenset({place, place + 1}) for place in range(1, n)}
        found |= {frozenset({1, n})}
    return frozenset(found)


def of_places(n, places):
    return frozenset(n - place for place in places)


@lru_cache(maxsize=None)
def carries(n, g, rule):
    remainders = [remainder(of_places(n, pattern), g) for pattern in patterns(n, rule)]
    return all(one != other for one, other in combinations(remainders, 2))


Reading = namedtuple("Reading", "code_word mended")


@lru_cache(maxsize=None)
def code_words(n, g):
    """Every multiple of g among the words of n cells."""
    return [times(of_number(m), of_number(g)) for m in range(2 ** message_length(n, g))]


def beside_every_code_word(n, g, rule, word):
    ways = {of_places(n, pattern) for pattern in patterns(n, rule)}
    return [Reading(code_word, len(plus(word, code_word)))
            for code_word in code_words(n, g) if plus(word, code_word) in ways]


def by_every_pattern(n, g, rule, word):
    changed = [(plus(word, of_places(n, pattern)), len(pattern)) for pattern in patterns(n, rule)]
    return [Reading(other, mended) for other, mended in changed if not remainder(other, g)]


@lru_cache(maxsize=None)
def reading(n, g, rule, word):
    """The one code word that differs from the word in a pattern of the rule, or None."""
    small = message_length(n, g) <= 10
    found = (beside_every_code_word if small else by_every_pattern)(n, g, rule, word)
    assert len(found) <= 1, "there is never a second one"
    return found[0] if found else None


def systematic_message(n, g, code_word):
    return of_cells(to_cells(code_word, n)[:message_length(n, g)])


def product_message(n, g, code_word):
    return divided(code_word, of_number(g))[0]


def word_checks(n, g, rule, word, message):
    return {**mending_checks(n, g, rule),
            6: lambda: len(word) == n and len(message) == message_length(n, g),
            7: lambda: are_cells(word)}


def decode(message_of, n, g, rule, word, message):
    number = first_met({**word_checks(n, g, rule, word, message),
                        8: lambda: reading(n, g, rule, of_cells(word))})
    if number:
        return number, 0, message
    found = reading(n, g, rule, of_cells(word))
    return 0, found.mended, to_cells(message_of(n, g, found.code_word), message_length(n, g))


def decode_number(message_of, n, g, rule, word):
    number = first_met({**mending_checks(n, g, rule), 6: lambda: word < 2 ** n,
                        8: lambda: reading(n, g, rule, of_number(word))})
    if number:
        return number, 0, 0
    found = reading(n, g, rule, of_number(word))
    return 0, found.mended, to_number(message_of(n, g, found.code_word))


decode_systematic = partial(decode, systematic_message)
decode_product = partial(decode, product_message)
decode_systematic_number = partial(decode_number, systematic_message)
decode_product_number = partial(decode_number, product_message)

# The clocked reader: 32 stages, stage i for x^i, and 63 stored cells.

Reader = namedtuple("Reader", "n g rule clocks mended stages cells")
NO_READER = Reader(0, 0, 0, 0, 0, (0,) * 32, (0,) * 63)


@lru_cache(maxsize=None)
def mending_number(n, g, rule):
    return first_met(mending_checks(n, g, rule))


def in_form(reader):
    n, g, rule, clocks, mended, stages, cells = reader
    return (mending_number(n, g, rule) == 0
            and are_cells(stages) and not any(stages[degree(g):])
            and are_cells(cells) and not any(cells[n:])
            and clocks <= 2 * n
            and (mended == 0 if clocks <= n else mended <= clocks - n))


def start(n, g, rule):
    number = mending_number(n, g, rule)
    if number:
        return number, NO_READER
    return 0, Reader(n, g, rule, 0, 0, (0,) * 32, (0,) * 63)


def to_stages(polynomial):
    return tuple(int(i in polynomial) for i in range(32))


def shifted(stages, g, cell):
    """One shift with input at the low side."""
    r = degree(g)
    feedback = stages[r - 1]
    after = [(cell + (g & 1) * feedback) % 2]
    for i in range(1, r):
        after.append((stages[i - 1] + (g >> i & 1) * feedback) % 2)
    return tuple(after) + (0,) * (32 - r)


@lru_cache(maxsize=None)
def trigger(n, g, rule, j):
    """The remainders of x^(j-1) times each pattern of the rule that has the j-th cell."""
    having = [of_places(n, pattern) for pattern in patterns(n, rule) if j in pattern]
    return frozenset(to_stages(remainder(times(frozenset({j - 1}), pattern), g)) for pattern in having)


@lru_cache(maxsize=None)
def first_cell(n, g):
    """The remainder of x^(n-1), in stages."""
    return to_stages(remainder(frozenset({n - 1}), g))


def clock(reader, cell):
    number = first_met({11: lambda: in_form(reader) and reader.clocks < 2 * reader.n,
                        7: lambda: cell == 0 or (cell == 1 and reader.clocks < reader.n)})
    if number:
        return number, 0, reader
    n, g, rule, clocks, mended, stages, cells = reader
    cells, given_out = list(cells), 0
    if clocks < n:
        cells[clocks] = cell
    else:
        j = clocks - n + 1
        if stages in trigger(n, g, rule, j):
            cells[j - 1] = 1 - cells[j - 1]
            mended += 1
            stages = tuple((a + b) % 2 for a, b in zip(stages, first_cell(n, g)))
        given_out = cells[j - 1]
    return 0, given_out, Reader(n, g, rule, clocks + 1, mended, shifted(stages, g, cell), tuple(cells))


def answer(reader, message):
    number = first_met({11: lambda: in_form(reader) and reader.clocks == 2 * reader.n,
                        6: lambda: len(message) == message_length(reader.n, reader.g),
                        8: lambda: not any(reader.stages)})
    if number:
        return number, 0, message
    return 0, reader.mended, reader.cells[:message_length(reader.n, reader.g)]


def read(n, g, rule, word, message):
    """Start, 2n clocks, answer: the systematic decoder's checks and answer."""
    number = first_met(word_checks(n, g, rule, word, message))
    if number:
        return number, 0, message
    reader = start(n, g, rule)[1]
    for cell in word + (0,) * n:
        reader = clock(reader, cell)[2]
    return answer(reader, message)


# The better of two readings.


def better(n, g, rule, first, second):
    def found(word):
        return reading(n, g, rule, of_cells(word))

    def message(word):
        return systematic_message(n, g, found(word).code_word)

    def both_readable():
        return found(first) and found(second)

    number = first_met({**mending_checks(n, g, rule),
                        6: lambda: len(first) == n and len(second) == n,
                        7: lambda: are_cells(first) and are_cells(second),
                        10: lambda: not (both_readable() and message(first) != message(second)),
                        8: lambda: found(first) or found(second)})
    if number:
        return number, 0, ()
    if both_readable():
        takes_first = found(first).mended <= found(second).mended
    else:
        takes_first = found(first)
    return (0, 1, first) if takes_first else (0, 2, second)


# Plate families, numbered from 1.

FAMILIES = ((7, 11), (7, 13), (7, 29), (15, 465), (15, 1335), (15, 19),
            (15, 53), (23, 2787), (23, 3189), (31, 37), (31, 1897), (63, 67))


def family(number):
    """Length and generator of a family, and whether it carries rule 2; zeros where there is none."""
    if not 1 <= number <= len(FAMILIES):
        return 0, 0, 0
    n, g = FAMILIES[number - 1]
    return n, g, int(carries(n, g, 2))


# Records and the program `strips`.


def record_allowed(letter, family, rule, zero, word):
    if letter not in "EPSDQ" or not 1 <= family <= 12 or zero or (letter in "EPS" and rule):
        return False
    n, g = FAMILIES[family - 1]
    return word < 2 ** (message_length(n, g) if letter in "EP" else n)


def record_line(record):
    letter, family, rule, zero = chr(record[0]), record[1], record[2], record[3]
    station, word = int.from_bytes(record[4:8], "big"), int.from_bytes(record[8:16], "big")
    number, mended, value = 9, 0, 0
    if record_allowed(letter, family, rule, zero, word):
        n, g = FAMILIES[family - 1]
        if letter == "E":
            number, value = encode_systematic_number(n, g, word)
        elif letter == "P":
            number, value = encode_product_number(n, g, word)
        elif letter == "S":
            number, value = word_remainder_number(n, g, word)
        elif letter == "D":
            number, mended, value = decode_systematic_number(n, g, rule, word)
        else:
            number, mended, value = decode_product_number(n, g, rule, word)
    return "%d %s %d %d %d\n" % (station, letter if letter in "EPSDQ" else "?", number, mended, value)


def strips(standard_input):
    whole = len(standard_input) // 16 * 16
    lines = [record_line(standard_input[at:at + 16]) for at in range(0, whole, 16)]
    if whole < len(standard_input):
        lines.append("short %d\n" % (len(standard_input) - whole))
    return "".join(lines).encode("ascii")
