"""The allowed codes of each length, found by factoring x^n + 1, for the choice of inputs."""

from functools import lru_cache

from plates import divided, generator_allowed, of_number, plus, times, to_number


def common_divisor(a, b):
    while b:
        a, b = b, divided(a, b)[1]
    return a


def factors(n):
    """The irreducible factors of x^n + 1, each as often as it occurs."""
    odd, repeated = n, 1
    while odd % 2 == 0:
        odd, repeated = odd // 2, repeated * 2
    found = [frozenset({odd, 0})]
    for first in range(1, odd):
        # A sum of x^i over a set closed under doubling is its own square modulo x^odd + 1: each irreducible factor
        # divides the sum or the sum plus 1.
        closed, power = set(), first
        while power not in closed:
            closed.add(power)
            power = power * 2 % odd
        found = [part for whole in found for part in split(whole, frozenset(closed))]
    return sorted(to_number(factor) for factor in found for _ in range(repeated))


def split(whole, closed):
    parts = [common_divisor(whole, closed), common_divisor(whole, plus(closed, frozenset({0})))]
    return [part for part in parts if part != frozenset({0})]


@lru_cache(maxsize=None)
def allowed(n):
    """Every g that passes checks 2 and 3 with n, rising."""
    divisors = {frozenset({0})}
    for factor in factors(n):
        divisors |= {times(divisor, of_number(factor)) for divisor in divisors}
    return sorted(g for g in map(to_number, divisors) if generator_allowed(n, g))
