"""Cutoffs of the health tests from an entropy estimate and a false-alarm rate (SP 800-90B, 4.4.1 and 4.4.2).

The entropy H is the min-entropy of a sample in bits: no value comes with a chance above 2^-H. The rate is 2^-alarm. H
is a Fraction or whole, so that nothing is rounded where a cutoff goes up by one."""
from decimal import Decimal, localcontext
from fractions import Fraction
from math import ceil, comb

WINDOW = 512
LEAST, MOST = 2, 512  # the cutoffs that the library takes; it refuses others with 34
DIGITS = 80  # of each term of a binomial; the sums are good to 70 digits and more
NEAR = Decimal(10) ** -60  # a sum this near to the rate, as a part of it, would need more digits


class NoCutoffs(Exception):
    """Why there are none that the library takes."""


def repetition(entropy, alarm):
    """1 + ceil(alarm / H): so many equal samples in a row come with a chance of 2^-alarm at most."""
    return 1 + ceil(alarm / Fraction(entropy))


def tails(size, entropy):
    """For k = size, size - 1, .. 1: k, and the chance that a value of chance 2^-H comes k times or more in size
    samples. The terms have one sign, so that adding them loses no digits."""
    entropy = Fraction(entropy)
    chance = Decimal(2) ** -(Decimal(entropy.numerator) / entropy.denominator)
    total = Decimal(0)
    for k in range(size, 0, -1):
        total += comb(size, k) * chance**k * (1 - chance) ** (size - k)
        yield k, total


def proportion(entropy, alarm):
    """1 + the smallest k with P[Binomial(512, 2^-H) <= k] >= 1 - 2^-alarm. That all 512 are equal has a chance of
    2^(-512 H), which may be the rate itself and is compared exactly."""
    if WINDOW * Fraction(entropy) < alarm:
        return WINDOW + 1
    with localcontext() as context:
        context.prec = DIGITS
        rate = Decimal(2) ** -alarm
        for k, tail in tails(WINDOW, entropy):
            if k == WINDOW:
                continue
            assert abs(tail / rate - 1) > NEAR, "too near to tell"
            if tail > rate:
                return k + 1
    return 1


def usable(entropy, alarm):
    """Both cutoffs, as the library takes them. Where the second formula gives 1, at which each window's first sample
    fails, 2 holds the rate too: one more than the first among 511 is no likelier than one among 512."""
    first, second = repetition(entropy, alarm), max(proportion(entropy, alarm), LEAST)
    if max(first, second) > MOST:
        raise NoCutoffs(f"the formulas give {first} and {second}; the library refuses a cutoff above {MOST} with 34")
    return first, second


def window_rate(entropy, cutoff):
    """The exponent of 2 in the chance, at most, that a window of such a source fails the proportion test, if samples are
    independent. The window's first sample is sure to count, and 511 are left to chance."""
    with localcontext() as context:
        context.prec = DIGITS
        chance = next(tail for k, tail in tails(WINDOW - 1, entropy) if k == cutoff - 1)
        return float(chance.ln() / Decimal(2).ln())


assert usable(1, 30) == (31, 325)
assert usable(Fraction(1, 2), 30) == (61, 422)
assert (repetition(Fraction(30, 512), 30), proportion(Fraction(30, 512), 30)) == (513, 512)
