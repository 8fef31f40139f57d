#!/usr/bin/env python3
"""Holds arithmetic of decimals against Python's `decimal`, which follows the same standard: 34 digits, exponents from -6143 to 6144,
`clamp=1`.

    tests/decimals.py                        the rows of cases/decimal: each answer is Python's
    tests/decimals.py CASES [COUNT [SEED]]   random lines too, of the table `decimal` of CASES, the program of cases/

It ends with status 1 if an answer differs. Of a number that has no room for the places that it is to be rounded to, Python makes a NaN
and bson_decimal keeps the value, so that is said here in its own words.
"""
import decimal
import pathlib
import random
import subprocess
import sys
from decimal import Decimal

ROOT = pathlib.Path(__file__).resolve().parent.parent
DIGITS, LEAST, GREATEST = 34, -6176, 6111
ROUNDINGS = {"even": decimal.ROUND_HALF_EVEN, "zero": decimal.ROUND_DOWN, "down": decimal.ROUND_FLOOR, "up": decimal.ROUND_CEILING}
SPECIAL = ["NaN", "Infinity", "-Infinity", "0", "-0", "0E+6111", "-0E-6176", "1E-6176", "-1E-6176", "9" * 34 + "E+6111"]
FACTORS = [1, 2, 5, 10, 2 ** 100, 5 ** 40, 10 ** 33, 10 ** 34 - 1, 5 * 10 ** 33, 5 * 10 ** 33 + 1]


def context(rounding=decimal.ROUND_HALF_EVEN):
    return decimal.Context(prec=DIGITS, rounding=rounding, Emin=-6143, Emax=6144, clamp=1, traps=[])


PLAIN = context()


def remainder(first, second):
    """By whole numbers, as Python's own wants a quotient of at most 34 digits."""
    if first.is_nan() or second.is_nan() or first.is_infinite() or second == 0:
        return Decimal("NaN")
    if second.is_infinite():
        return first
    (sign, digits, exponent), (_, others, other) = first.as_tuple(), second.as_tuple()
    least = min(exponent, other)
    whole, by = (int("".join(map(str, ds))) * 10 ** (e - least) for ds, e in ((digits, exponent), (others, other)))
    return Decimal((sign, tuple(map(int, str(whole % by))), least))


OPERATIONS = {"add": PLAIN.add, "subtract": PLAIN.subtract, "multiply": PLAIN.multiply, "divide": PLAIN.divide, "remainder": remainder}


def with_places(word, places, value):
    """A value with so many places; one that has no room for them is as it is, with as many zeros as it has room for."""
    if not value.is_finite():
        return value
    done = context(ROUNDINGS[word]).quantize(value, Decimal((0, (1,), -places)))
    if not done.is_nan():
        return done
    sign, digits, exponent = value.as_tuple()
    zeros = min(DIGITS - len(digits), exponent + places)
    return Decimal((sign, digits + (0,) * zeros, exponent - zeros))


def result(line):
    word, _, rest = line.partition(" ")
    if word in OPERATIONS:
        return OPERATIONS[word](*map(Decimal, rest.split(" | ")))
    if word in ROUNDINGS:
        places, value = rest.split(" | ")
        return with_places(word, int(places), Decimal(value))
    if word == "negate":
        return Decimal(rest).copy_negate()
    return Decimal(rest).copy_abs()


def answer(line):
    value = result(line)
    return "NaN" if value.is_nan() else str(value)


def coefficient():
    size = random.randint(1, DIGITS)
    choices = [random.randrange(10), random.randrange(10 ** size), random.randrange(10 ** DIGITS), 10 ** DIGITS - random.randint(1, 50),
               10 ** (size - 1) * random.randrange(10), max(0, 5 * 10 ** (size - 1) + random.randint(-1, 1)), random.choice(FACTORS)]
    return random.choice(choices) % 10 ** DIGITS


def text(sign, digits, exponent):
    return str(Decimal((sign, tuple(map(int, str(digits))), max(LEAST, min(GREATEST, exponent)))))


def random_exponent():
    edge = random.randint(0, 60)
    return random.choice([random.randint(LEAST, GREATEST), random.randint(-40, 40), LEAST + edge, GREATEST - edge])


def random_pair(word):
    first, second, exponent = coefficient(), coefficient(), random_exponent()
    near = random.randint(-75, 75)
    if word in ("add", "subtract", "remainder"):
        other = exponent + near
    elif word == "multiply":
        other = random.choice([-exponent, LEAST - exponent, GREATEST - exponent, 0]) + near
    else:
        other = random.choice([exponent, exponent - LEAST, exponent - GREATEST, 0]) + near
        if random.random() < 0.2:
            first = first * second % 10 ** DIGITS
    return f"{text(random.getrandbits(1), first, exponent)} | {text(random.getrandbits(1), second, other)}"


def random_value():
    return text(random.getrandbits(1), coefficient(), random_exponent())


def any_value():
    return random.choice([random_value(), random.choice(SPECIAL)])


def random_line():
    word = random.choice([*OPERATIONS, *OPERATIONS, *ROUNDINGS, "negate", "absolute", "integer"])
    if word == "integer":
        return f"integer {random.choice([random.randint(-2 ** 63, 2 ** 63 - 1), random.randint(-9, 9)])}"
    if word in ("negate", "absolute"):
        return f"{word} {any_value()}"
    if word in ROUNDINGS:
        value = random.choice([random_value(), text(random.getrandbits(1), coefficient(), random.randint(-40, 10)), random.choice(SPECIAL)])
        return f"{word} {random.choice([0, random.randint(-20, 100)])} | {value}"
    if random.random() < 0.1:
        return f"{word} {any_value()} | {any_value()}"
    return f"{word} {random_pair(word)}"


def main(program="", count="5000", seed="69"):
    table = ROOT / "cases" / "decimal"
    lines = (table / "stdin").read_text().splitlines()
    answers = (table / "stdout").read_text().splitlines()
    if program:
        random.seed(int(seed))
        lines += [random_line() for _ in range(int(count))]
        run = subprocess.run([program, "decimal"], input="".join(line + "\n" for line in lines), capture_output=True, text=True)
        answers = run.stdout.splitlines()
    wanted = [answer(line) if not line.startswith("integer ") else line.split()[1] for line in lines]
    wrong = [row for row in zip(lines, wanted, answers) if row[1] != row[2]]
    for line, want, got in wrong[:20]:
        print(f"{line}\n  Python: {want}\n  here:   {got}")
    if wrong or len(answers) != len(lines):
        sys.exit(f"decimals.py: {len(wrong)} of {len(lines)} lines differ, {len(answers)} answers")
    print(f"decimals.py: {len(lines)} lines")


if __name__ == "__main__":
    main(*sys.argv[1:])
