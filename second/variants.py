"""Wrong variants of plates.py, each with the letters of `calls` (or `strips`) whose generated lines must show it."""

import plates
from plates import Reading, degree

right = dict(vars(plates))

# Codes, calls on words, and the order of checks.


def order_with(number, before):
    order = [other for other in plates.ORDER if other != number]
    order.insert(order.index(before), number)
    return {"ORDER": tuple(order)}


def patterns_without_joined_ends(n, rule):
    return right["patterns"](n, rule) - {frozenset({1, n})}


def generator_of_any_degree(n, g):
    return g % 2 == 1 and 1 <= degree(g) <= 32


def divides_below_its_length(n, g):
    return degree(g) < n and right["divides"](n, g)


def count_of_one(*values):
    found = right["reading"](*values)
    return found and Reading(found.code_word, min(found.mended, 1))


def word_as_read(n, g, rule, word):
    found = right["reading"](n, g, rule, word)
    return found and Reading(word, found.mended)


def first_found(n, g, rule, word):
    found = plates.by_every_pattern(n, g, rule, word)
    return found[0] if found else None


def second_when_equal(n, g, rule, first, second):
    number, which, word = right["better"](n, g, rule, second, first)
    return number, which and 3 - which, word


def divisor_made_odd(name):
    return lambda divisor, *others: right[name](divisor | 1, *others)


def lent_cells_cleared(name):
    def call(*values):
        results = right[name](*values)
        return results[:-1] + ((0,) * len(results[-1]),) if results[0] else results
    return {name: call}


# The clocked reader.


def trigger_without_the_neighbour_before(n, g, rule, j):
    having = ((), ({j},), ({j}, {j, j % n + 1}))[rule]
    raised = [frozenset(n - place + j - 1 for place in pattern) for pattern in having]
    return {plates.to_stages(plates.remainder(pattern, g)) for pattern in raised}


def clock_with(change):
    def clock(reader, cell):
        number, given_out, after = right["clock"](reader, cell)
        return number, given_out, change(number, reader, after)
    return {"clock": clock}


def every_clock_counted(number, before, after):
    return after if number else after._replace(mended=max(0, after.clocks - after.n))


def stored_cell_added(number, before, after):
    if number or before.clocks >= before.n:
        return after
    return after._replace(cells=tuple(max(old, new) for old, new in zip(before.cells, after.cells)))


def refused_clock_counted(number, before, after):
    return after._replace(clocks=after.clocks + 1) if number else after


def word_read_backwards(n, g, rule, word, message):
    return right["read"](n, g, rule, word[::-1], message)


def answer_from_any_register(reader, message):
    return right["answer"](reader._replace(stages=(0,) * 32) if right["in_form"](reader) else reader, message)


def refused_start_that_keeps_the_code(n, g, rule):
    return right["start"](n, g, rule)[0], plates.NO_READER._replace(n=n, g=g, rule=rule)


def form_after(change):
    """One clause of `in form` not looked at: a reader is taken to be in form if it is so after this change."""
    def in_form(reader):
        return right["mending_number"](*reader[:3]) in (0, 5) and right["in_form"](change(reader))
    return {"in_form": in_form}


def bits(cells):
    return tuple(cell % 2 for cell in cells)


def cut(cells, at):
    return cells[:at] + (0,) * (len(cells) - at)


# Records.


def allowed_after(change):
    return {"record_allowed": lambda *fields: right["record_allowed"](*change(*fields))}


def question_mark_for_each_refusal(record):
    station, letter, number, mended, value = right["record_line"](record).split(" ")
    return " ".join([station, letter if number == "0" else "?", number, mended, value])


VARIANTS = (
    ("no {j-1, j} in the trigger", "C", {"trigger": trigger_without_the_neighbour_before}),
    ("no joined ends", "strips MQWmqBC", {"patterns": patterns_without_joined_ends}),
    ("7 before 6", "DSPRMQWB", order_with(7, 6)),
    ("8 before 6", "A", order_with(8, 6)),
    ("7 before 11", "C", order_with(7, 11)),
    ("6 before 11", "A", order_with(6, 11)),
    ("2 before 1", "DLHSPRMQWNBsprmq", order_with(2, 1)),
    ("4 before 3", "MQWNBmq", order_with(4, 3)),
    ("6 before 5", "MQWBmq", order_with(6, 5)),
    ("degree >= n as 3", "SPRMQWNBsprmq",
     {"generator_allowed": generator_of_any_degree, "divides": divides_below_its_length}),
    ("degree 32 refused", "DLHSPRMQWNBCAsprmq", {"degree": lambda g: right["degree"](g) if g < 2 ** 32 else -1}),
    ("carrying not looked at", "strips MQWNBCAmq", {"carries": lambda n, g, rule: True, "reading": first_found}),
    ("low end first", "DLHSPRMQB", {"of_cells": lambda cells: right["of_cells"](cells[::-1]),
                                    "to_cells": lambda *values: right["to_cells"](*values)[::-1]}),
    ("low end first into the reader", "W", {"read": word_read_backwards}),
    ("count made up by the decoders", "strips MQBmq", {"reading": count_of_one}),
    ("message of the word as read", "strips MQmq", {"reading": word_as_read}),
    ("product decoder as systematic", "strips Qq", {"decode_product": plates.decode_systematic,
                                                    "decode_product_number": plates.decode_systematic_number}),
    ("product encoder as systematic", "strips Pp", {"encode_product": plates.encode_systematic,
                                                    "encode_product_number": plates.encode_systematic_number}),
    ("second reading when counts are equal", "B", {"better": second_when_equal}),
    ("low side for high side", "H", {"high_side": plates.low_side}),
    ("high side for low side", "L", {"low_side": plates.high_side}),
    ("divisor made odd", "DLH", {name: divisor_made_odd(name) for name in ("divide", "low_side", "high_side")}),
    ("lent quotient cleared", "D", lent_cells_cleared("divide")),
    ("lent word cleared", "S", lent_cells_cleared("encode_systematic")),
    ("lent product word cleared", "P", lent_cells_cleared("encode_product")),
    ("lent message cleared", "M", lent_cells_cleared("decode_systematic")),
    ("lent product message cleared", "Q", lent_cells_cleared("decode_product")),
    ("lent message cleared by the run", "W", lent_cells_cleared("read")),
    ("lent message cleared by the answer", "A", lent_cells_cleared("answer")),
    ("count made up by the reader", "CW", clock_with(every_clock_counted)),
    ("stored cell added, not replaced", "C", clock_with(stored_cell_added)),
    ("refused clock counted", "C", clock_with(refused_clock_counted)),
    ("effect of a mended cell not removed", "CW", {"first_cell": lambda n, g: (0,) * 32}),
    ("message from a register that isn't empty", "AW", {"answer": answer_from_any_register}),
    ("refused start keeps the code", "N", {"start": refused_start_that_keeps_the_code}),
    ("form: carrying", "CA", form_after(lambda reader: reader._replace(rule=0))),
    ("form: stages are cells", "CA", form_after(lambda reader: reader._replace(stages=bits(reader.stages)))),
    ("form: stages past r-1", "CA",
     form_after(lambda reader: reader._replace(stages=cut(reader.stages, degree(reader.g))))),
    ("form: stored cells are cells", "CA", form_after(lambda reader: reader._replace(cells=bits(reader.cells)))),
    ("form: cells past the n-th", "CA",
     form_after(lambda reader: reader._replace(cells=cut(reader.cells, reader.n)))),
    ("form: count past clock n", "CA",
     form_after(lambda reader: reader._replace(mended=0) if reader.clocks > reader.n else reader)),
    ("form: count up to clock n", "C",
     form_after(lambda reader: reader._replace(mended=0) if reader.clocks <= reader.n else reader)),
    ("small letters taken", "strips", allowed_after(lambda letter, *others: (letter.upper(), *others))),
    ("rule byte not looked at", "strips", allowed_after(lambda *fields: (*fields[:2], 0, *fields[3:]))),
    ("byte 3 not looked at", "strips", allowed_after(lambda *fields: (*fields[:3], 0, fields[4]))),
    ("a word of exactly 2^k or 2^n taken", "strips",
     allowed_after(lambda *fields: (*fields[:4], max(0, fields[4] - 1)))),
    ("? for each refusal", "strips", {"record_line": question_mark_for_each_refusal}),
)
