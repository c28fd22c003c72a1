"""The lines of `calls` on clocked readers: whole runs, readers that no start reaches, and readers not in form."""

from calls import line
from draw import HUGE, ONES_32
from plates import (Reader, clock, degree, message_length, of_number, of_places, patterns, remainder, start, times,
                    to_cells, to_stages)

CODES = ((2, 3, 0), (3, 7, 1), (5, 31, 2), (6, 21, 1), (7, 11, 1), (7, 29, 0), (7, 29, 2), (15, 19, 1), (15, 465, 1),
         (15, 465, 2), (23, 2787, 2), (31, 1897, 2), (33, ONES_32, 2), (63, 67, 1))


def whole_runs(draw):
    """Each clock of a run from a start, and answers asked for on the way."""
    for n, g, rule in CODES:
        for _ in range(3 if n < 20 else 1):
            word = to_cells(of_number(draw.word(n, g)), n)
            reader = start(n, g, rule)[1]
            yield line("N", n, g, rule)
            for clocks, cell in enumerate(word + (0,) * n):
                yield line("C", reader, cell)
                if clocks in (0, n, 2 * n - 1):
                    yield line("A", reader, draw.lent(message_length(n, g)))
                reader = clock(reader, cell)[2]
            yield line("A", reader, draw.lent(message_length(n, g)))
            yield line("C", reader, 0)


def reader_at(draw, code, clocks, stages):
    """A reader in form with any stored cells and any count that form lets through, its bounds more often."""
    n, g, rule = code
    most = max(0, clocks - n)
    mended = draw.one_of((0, most, draw.below(most + 1)))
    return Reader(n, g, rule, clocks, mended, stages, draw.cells(n) + (0,) * (63 - n))


def any_stages(draw, g):
    return draw.cells(degree(g)) + (0,) * (32 - degree(g))


def each_pattern(draw):
    """At each clock past n the register of each pattern of rule 2 that has the j-th cell, and of one that hasn't."""
    for code in CODES:
        n, g, _ = code
        in_order = sorted(patterns(n, 2), key=sorted)
        for j in range(1, n + 1):
            having = [pattern for pattern in in_order if j in pattern]
            for pattern in having + [draw.one_of([pattern for pattern in in_order if j not in pattern])]:
                register = remainder(times(frozenset({j - 1}), of_places(n, pattern)), g)
                yield line("C", reader_at(draw, code, n + j - 1, to_stages(register)), 0)


def at_any_clock(draw):
    for code in CODES:
        n, g, _ = code
        for clocks in (0, 1, n - 1, n, n + 1, 2 * n - 1, 2 * n, draw.below(2 * n)):
            for cell in (0, 1, 2, 255):
                yield line("C", reader_at(draw, code, clocks, any_stages(draw, g)), cell)
            for length in (0, message_length(n, g) - 1, message_length(n, g), message_length(n, g) + 1, n):
                stages = draw.one_of(((0,) * 32, any_stages(draw, g)))
                yield line("A", reader_at(draw, code, clocks, stages), draw.lent(length))
        for _ in range(8):
            yield line("A", reader_at(draw, code, 2 * n, (0,) * 32), draw.lent(message_length(n, g)))


def changed(cells, at, cell):
    return cells[:at] + (cell,) + cells[at + 1:]


def one_field_away(draw, reader):
    """The reader with one field changed so that most are not in form."""
    n, g, rule, clocks, _, stages, cells = reader
    for other in (0, 1, n - 1, n + 1, 64, HUGE):
        yield reader._replace(n=other)
    for other in (0, 1, 9, 10, g - 1, 2 ** n + 1, 2 ** 33 + 1, HUGE):
        yield reader._replace(g=other)
    for other in (rule + 1, 3, HUGE):
        yield reader._replace(rule=other)
    for other in (2 * n + 1, 2 * n + 2, HUGE):
        yield reader._replace(clocks=other)
    for other in (1, max(0, clocks - n), max(0, clocks - n) + 1, HUGE):
        yield reader._replace(mended=other)
    for at, stage in ((0, 2), (degree(g) - 1, 255), (degree(g), 1), (31, 1), (31, 2)):
        yield reader._replace(stages=changed(stages, min(at, 31), stage))
    for at, cell in ((0, 2), (n // 2, 255), (n - 1, 3), (n, 1), (62, 1), (62, 2)):
        yield reader._replace(cells=changed(cells, min(at, 62), cell))


def not_in_form(draw):
    for code in ((3, 7, 1), (7, 29, 2), (15, 465, 2), (33, ONES_32, 2), (63, 67, 1)):
        n, g, _ = code
        for clocks in (0, n, n + 2, 2 * n):
            for reader in one_field_away(draw, reader_at(draw, code, clocks, (0,) * 32)):
                yield line("C", reader, draw.one_of((0, 0, 1, 2)))
                yield line("A", reader, draw.lent(message_length(n, g) + draw.one_of((0, 0, 1))))
    for n, g, rule in ((7, 11, 2), (14, 11, 1), (14, 11, 0), (8, 11, 1), (15, 19, 2)):
        for clocks in (0, 2 * n):
            reader = reader_at(draw, (n, g, rule), clocks, (0,) * 32)
            yield line("C", reader, 0)
            yield line("A", reader, draw.lent(n - degree(g)))


def lines_on_readers(draw):
    return [*whole_runs(draw), *each_pattern(draw), *at_any_clock(draw), *not_in_form(draw)]
