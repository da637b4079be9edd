#!/usr/bin/env python3
"""Makes requests about metres and centimetres in the words of lay.c, and answers them by rule.py and in a second way.

    metres.py named        prints the chosen requests, one to a line
    metres.py random SEED  prints 1,000 of each of eight kinds at random
    metres.py answers      answers the requests on standard input

rule.py leaves it to Python to turn bit patterns into floats and to round. Here a pattern is taken apart into its fields and becomes
a fraction, and a quotient is rounded as an exact fraction. If the two ways differ, the program stops without an answer.
"""
import random
import struct
import sys
from fractions import Fraction

# Without this the modules beside this one would leave compiled files in the tree.
sys.dont_write_bytecode = True
import rule

DIGITS = 2**52
NAN = 0x7FF8000000000000
LIMIT = 0x416312D000000000
MINUS = 1 << 63


def size_of(pattern):
    """The size of a pattern's number, or None for an infinity or a NaN."""
    exponent, digits = pattern >> 52 & 2047, pattern % DIGITS
    if exponent == 2047:
        return None
    if exponent == 0:
        return Fraction(digits, 2**1074)
    return Fraction(DIGITS + digits) * Fraction(2) ** (exponent - 1075)


def nearest(value):
    """A fraction of at least 0 to the nearest whole number, a tie to the even one."""
    whole, rest = divmod(value.numerator, value.denominator)
    half = Fraction(rest, value.denominator) - Fraction(1, 2)
    return whole + (1 if half > 0 or half == 0 and whole % 2 == 1 else 0)


def pattern_of(value):
    """The pattern of the number nearest to a fraction of 1/1000 or more, or of 0."""
    if value == 0:
        return 0
    exponent = value.numerator.bit_length() - value.denominator.bit_length() - 54
    while value >= Fraction(2) ** (exponent + 53):
        exponent += 1
    digits = nearest(value / Fraction(2) ** exponent)
    return (exponent + 1075) * DIGITS + digits - DIGITS


def centimetres(pattern):
    """The refusal, the centimetres and the mark of a number of metres. Below zero, what is nearer to zero lies above."""
    size = size_of(pattern)
    if size is None or size > 10_000_000:
        return 3, 0, rule.EQUAL
    whole = nearest(100 * size)
    over = 100 * size - whole
    if pattern >= MINUS:
        whole, over = -whole, -over
    return 0, whole, rule.ABOVE if over > 0 else rule.BELOW if over < 0 else rule.EQUAL


def metres(number):
    """The refusal and the pattern of a number of centimetres."""
    if abs(number) > 1_000_000_000:
        return 3, 0
    return 0, pattern_of(Fraction(abs(number), 100)) + (MINUS if number < 0 else 0)


def same(request, by_rule, apart):
    """The answer to a request, if rule.py and this file give the same one; else the program stops."""
    if by_rule != apart:
        sys.exit(f"{request}: by rule.py {by_rule}, here {apart}")
    return apart


def answer_to(line):
    verb, word = line.split()
    if verb == "centimetres":
        pattern = int(word, 16)
        (x,) = struct.unpack("<d", struct.pack("<Q", pattern))
        refusal, whole = rule.tried(rule.centimetres, x)
        by_rule = (refusal, 0, rule.EQUAL) if refusal else (0, whole, rule.mark(x))
        return "{} {} {}".format(*same(line, by_rule, centimetres(pattern)))
    refusal, x = rule.tried(rule.metres, int(word))
    (pattern,) = struct.unpack("<Q", struct.pack("<d", x or 0.0))
    return "{} {:016x}".format(*same(line, (refusal, pattern), metres(int(word))))


def reading(pattern):
    return f"centimetres {pattern:016x}"


def both(patterns):
    for pattern in patterns:
        yield reading(pattern)
        yield reading(pattern + MINUS)


def beside(value):
    """The number nearest to a fraction, and its two neighbours."""
    middle = pattern_of(value)
    return middle - 1, middle, middle + 1


def there_and_back(numbers):
    """Requests to write these centimetres; and if they are not refused, to read what is written."""
    for number in numbers:
        yield f"metres {number}"
        refusal, pattern = metres(number)
        if not refusal:
            yield reading(pattern)


def named():
    # P10, and the other numbers of 01's examples
    for value in "0.125 0.375 0.625 100 200 300.01 400 0.001 0.01 1000000 1000000.005".split():
        yield from both([pattern_of(Fraction(value))])
    # ties: odd eighths of a metre, small and up to the limit
    for eighths in *range(1, 42, 2), 1_000_001, 33_554_431, 79_999_997, 79_999_999:
        yield from both([pattern_of(Fraction(eighths, 8))])
    # multiples of a quarter of a metre, which alone are exact, and their neighbours, which are not
    for quarters in *range(1, 42), 4_000_001, 33_554_433, 39_999_998, 39_999_999, 40_000_000:
        yield from both(beside(Fraction(quarters, 4)))
    # odd half centimetres, which are mostly not exact in binary64, and their neighbours on both sides
    for halves in *range(1, 42, 2), 2_001, 200_001, 20_000_001, 1_999_999_999:
        yield from both(beside(Fraction(halves, 200)))
    # subnormal numbers and the first normal ones
    yield from both([1, 2, 3, DIGITS // 2, DIGITS - 1, DIGITS, DIGITS + 1])
    # the largest number that is read and the first that is refused, the largest finite one, zeros, infinities, NaNs
    yield from both([LIMIT - 1, LIMIT, LIMIT + 1, 2047 * DIGITS - 1, 0, 2047 * DIGITS])
    yield from both([2047 * DIGITS + 1, NAN - 1, NAN, NAN + 1, NAN + 0x123456789ABC, MINUS - 1])
    yield from there_and_back([*range(-105, 106), -30001, 30001, 40000])
    for size in 999_999_999, 1_000_000_000, 1_000_000_001, 2**31, 2**32, 2**53, 2**53 + 1, 2**63 - 1:
        yield from there_and_back([-size, size])
    yield from there_and_back([-(2**63)])


def at_random(seed):
    draw = random.Random(seed)
    for _ in range(1000):
        sign = draw.getrandbits(1) * MINUS
        yield reading(draw.getrandbits(64))
        yield reading(sign + draw.randrange(1000 * DIGITS, 1050 * DIGITS))
        yield reading(sign + draw.choice(beside(Fraction(draw.randrange(1, 2_000_000_000, 2), 200))))
        yield reading(sign + pattern_of(Fraction(draw.randrange(1, 80_000_000, 2), 8)))
        yield reading(sign + pattern_of(Fraction(draw.randrange(1, 40_000_001), 4)))
        yield reading(sign + draw.choice(beside(Fraction(draw.randrange(1, 40_000_000), 4))))
        yield from there_and_back([draw.randint(-1_000_000_000, 1_000_000_000), draw.getrandbits(64) - MINUS])


def main(words):
    if words == ["named"]:
        print("\n".join(named()))
    elif words[:1] == ["random"] and len(words) == 2:
        print("\n".join(at_random(int(words[1]))))
    elif words == ["answers"]:
        print("\n".join(answer_to(line) for line in sys.stdin.read().splitlines()))
    else:
        sys.exit(__doc__)


if __name__ == "__main__":
    main(sys.argv[1:])
