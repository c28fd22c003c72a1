"""Numbers, cells and words drawn from a seed by getrandbits alone, so that every Python 3 draws the same."""

import random

from plates import encode_product_number, message_length

HUGE = 2 ** 64 - 1
ONES_32 = 2 ** 33 - 1


def damaged(n, word, places):
    """The word, a number, with the cells at these places changed; the first cell is place 1."""
    for place in places:
        word ^= 2 ** (n - place)
    return word


class Draw:
    def __init__(self, seed):
        self.bits = random.Random(seed).getrandbits

    def below(self, bound):
        return self.bits(128) % bound

    def one_of(self, options):
        return options[self.below(len(options))]

    def shuffle(self, items):
        for last in range(len(items) - 1, 0, -1):
            other = self.below(last + 1)
            items[last], items[other] = items[other], items[last]

    def cells(self, length):
        return tuple(self.bits(1) for _ in range(length))

    def lent(self, length):
        """Cells lent to be written, which may hold any numbers before."""
        return tuple(self.one_of((0, 1, 1, 2, 255, self.bits(8))) for _ in range(length))

    def code_word(self, n, g):
        return encode_product_number(n, g, self.below(2 ** message_length(n, g)))[1]

    def places(self, n):
        """None, one, two neighbours, the two ends, any two or any three."""
        place = 1 + self.below(n)
        any_three = {1 + self.below(n) for _ in range(3)}
        return self.one_of((set(), {place}, {place, place % n + 1}, {1, n}, {place, 1 + self.below(n)}, any_three))

    def word(self, n, g):
        """A damaged code word, or now and then any word, as a number."""
        if self.below(6) == 0:
            return self.below(2 ** n)
        return damaged(n, self.code_word(n, g), self.places(n))
