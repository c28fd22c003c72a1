"""Writes N mixed records to standard output: a block of 100,000 drawn from a fixed seed, over and over."""

import os
import random
import sys

sys.path.insert(0, os.path.join(os.path.dirname(os.path.abspath(__file__)), "..", "..", "second"))

from plates import FAMILIES  # noqa: E402

BLOCK = 100000


def times(message, g):
    product = 0
    while g:
        product ^= message * (g & 1)
        message, g = message * 2, g >> 1
    return product


def record(bits):
    job, family, rule, zero = "EPSDQ"[bits(16) % 5], 1 + bits(16) % 12, bits(16) % 3, 0
    n, g = FAMILIES[family - 1]
    k = n - g.bit_length() + 1
    word = bits(k)
    if job in "SDQ":
        word = times(word, g)
        at = bits(16) % n
        damage = bits(16) % 8
        if damage < 6:
            word ^= (0, 0, 1 << at, 1 << at, 1 << at | 1 << (at + 1) % n, 1 << at | 1 << bits(16) % n)[damage]
        else:
            word = bits(n)
    if job in "EPS":
        rule = 0
    if bits(16) % 20 == 0:
        job, family, rule, zero, word = ((job.lower(), family, rule, zero, word), (job, 13, rule, zero, word),
                                         (job, family, 3, zero, word), (job, family, rule, 1, word),
                                         (job, family, rule, zero, word | 1 << n))[bits(16) % 5]
    return bytes((ord(job), family, rule, zero)) + bits(32).to_bytes(4, "big") + word.to_bytes(8, "big")


def main(count):
    bits = random.Random(4000000).getrandbits
    block = b"".join(record(bits) for _ in range(min(count, BLOCK)))
    for _ in range(count // BLOCK):
        sys.stdout.buffer.write(block)
    sys.stdout.buffer.write(block[:count % BLOCK * 16])


if __name__ == "__main__":
    main(int(sys.argv[1]))
