#!/usr/bin/env python3
"""Writes the rows of outside vectors of the decimal numbers into the table crates/b2_value_tests/stdin.

The results are Python's own: its `decimal` with 13 digits, and whole numbers where it has no such operation. The rows are
the lines of the table from the one that is FIRST below to the next empty one; what stood there goes. A row is a call of the
topic `number`, as crates/b2_value_tests/src/decimals.rt says, with numbers as text that this script spells by itself, and
codes as C60. Run it at the top of the repository; the same rows come out each time.
"""
import random
from decimal import Context, Decimal, ROUND_DOWN, ROUND_FLOOR, ROUND_HALF_UP
from fractions import Fraction
from math import isqrt

MODES = {"round": ROUND_HALF_UP, "cut": ROUND_DOWN}
ORDERS = {-1: "less", 0: "equal", 1: "greater"}
TIMES = 250000
TABLE = "crates/b2_value_tests/stdin"
FIRST = "# Operations with the results of another implementation: the rows up to the next empty line are from tools/decimal_vectors.py.\n"
WIDE = Context(prec=600, Emax=10**6, Emin=-10**6)


def context(mode):
    return Context(prec=13, rounding=MODES[mode], Emax=10**6, Emin=-10**6, traps=[])


def checked(x):
    """A number, or the code of one out of range."""
    if x == 0:
        return Decimal(0)
    if x.adjusted() > 99:
        return 61
    if x.adjusted() < -99:
        return 60
    return x


def spelled(x):
    """A number of at most 13 digits as rows show it: plainly from .1 on, up to 13 digits before the point, and else with one
    digit before the point and an exponent; a code by its class."""
    if isinstance(x, int):
        return "%s%d" % ("P" if x < 60 else "C", x)
    if x == 0:
        return "0"
    sign, digits, _ = x.as_tuple()
    digits = "".join(map(str, digits)).rstrip("0")
    assert len(digits) <= 13
    e = x.adjusted()
    whole = e + 1 if -1 <= e <= 12 else 1
    front, back = digits.ljust(whole, "0")[:whole], digits[whole:]
    return "-" * sign + front + ("." + back if back else "") + ("" if -1 <= e <= 12 else "E%d" % e)


def rounded(f, mode):
    """The fraction in 13 digits."""
    c = context(mode)
    return checked(c.divide(Decimal(f.numerator), Decimal(f.denominator)))


def binary(op, mode, a, b):
    c = context(mode)
    if op == "add":
        return checked(c.add(a, b))
    if op == "sub":
        return checked(c.subtract(a, b))
    if op == "mul":
        return checked(c.multiply(a, b))
    if op == "div":
        if b == 0:
            return 63 if a == 0 else 62
        return checked(c.divide(a, b))
    if op == "modulo":
        if b == 0:
            return 62
        x, y = Fraction(a), Fraction(b)
        return rounded(x - y * (x / y).__floor__(), mode)
    raise ValueError(op)


def power(mode, a, n):
    if a == 0 and n == 0:
        return 63
    c = context(mode)
    x = Decimal(1)
    for _ in range(n):
        x = checked(c.multiply(x, a))
        if isinstance(x, int):
            return x
    return x


def root(a):
    if a < 0:
        return 66
    if a == 0:
        return Decimal(0)
    # the root in units of 10^-100, cut to 13 digits
    f = Fraction(a) * 10**200
    digits = str(isqrt(f.numerator // f.denominator))
    kept = Decimal(digits[:13]).scaleb(len(digits) - len(digits[:13]) - 100, WIDE)
    return kept


def multiple(a, n):
    if not -99 <= n <= 99:
        return 34
    return checked(a.quantize(Decimal(1).scaleb(-n), ROUND_HALF_UP, WIDE))


def whole_part(a, how):
    return a.quantize(Decimal(1), how, WIDE) if a != 0 else a


def number(rng, low=-99, high=99):
    kind = rng.randrange(8)
    if kind == 0:
        digits = rng.choice(["1", "9" * 13, "5", "1" + "0" * 11 + "1", "9999999999995", "25", "3333333333333"])
    else:
        digits = str(rng.randrange(1, 10)) + "".join(rng.choice("0123456789") for _ in range(rng.choice([0, 2, 5, 12, 12])))
    e = rng.choice([low, high, rng.randrange(low, high + 1), rng.randrange(-14, 15), rng.randrange(-3, 4)])
    e = min(max(e, low), high)
    x = Decimal(digits).scaleb(e - len(digits) + 1, WIDE)
    return -x if rng.random() < 0.4 else x


D = Decimal
EDGES = [
    ("add", "9999999999999", ".5"), ("add", "9999999999999", ".4999999999999"), ("sub", "-9999999999999", ".5"),
    ("add", "9999999999999E87", "5E86"), ("add", "9.999999999999E99", "9E99"), ("sub", "1", "1"),
    ("sub", "1", "1E-13"), ("sub", "1", "1E-14"), ("sub", "1", "5E-14"), ("sub", "1", "4E-14"), ("sub", "1", "1E-99"),
    ("add", "1", "1E-99"), ("sub", "-1", "-1E-40"), ("sub", "1E-99", "1.000000000001E-99"), ("add", "0", "7"),
    ("add", "-7", "0"), ("sub", "0", "7"), ("sub", "1.000000000001E-87", "1E-87"), ("add", "1E26", "1"), ("sub", "1E26", "1"),
    ("sub", "1E25", "1"), ("add", "5E99", "5E99"), ("mul", "1E50", "1E49"), ("mul", "1E50", "1E50"), ("mul", "1E-50", "1E-49"),
    ("mul", "1E-50", "1E-50"), ("mul", "9.999999999999E-50", "1.000000000001E-50"), ("mul", "9.999999999999", "9.999999999999"),
    ("mul", "3.162277660168E-50", "3.162277660168E-50"), ("mul", "-0.5", "2"), ("mul", "0", "-5"), ("mul", "9E99", "10"),
    ("mul", "1E-99", "1E-99"), ("div", "1", "3"), ("div", "-2", "3"), ("div", "0", "0"), ("div", "1", "0"), ("div", "0", "-5"),
    ("div", "1E-99", "10"), ("div", "9.999999999999E-99", "10"), ("div", "1E99", "1E-1"), ("div", "1", "9.999999999999E-99"),
    ("div", "9.999999999999E99", "1"), ("div", "1E-99", "9.999999999999E99"), ("div", "9999999999999", "1000000000001"),
    ("modulo", "-7", "3"), ("modulo", "7", "-3"), ("modulo", "7", "3"), ("modulo", "-7", "-3"), ("modulo", "1E99", "7"),
    ("modulo", "-1E-99", "1"), ("modulo", "-1E-9", "1"), ("modulo", "9E99", "1E-99"), ("modulo", "5", "0"), ("modulo", "0", "0"),
    ("modulo", "6", "3"), ("modulo", "-6", "3"), ("modulo", "1", "-1E50"), ("modulo", "1E-50", "-1"),
]


def rows():
    rng = random.Random(2200)
    for op, a, b in EDGES:
        for mode in MODES:
            yield op, mode, spelled(D(a)), spelled(D(b)), spelled(binary(op, mode, D(a), D(b)))
    for op, count in [("add", 30), ("sub", 30), ("mul", 30), ("div", 30), ("modulo", 20)]:
        for _ in range(count):
            a, b = number(rng), number(rng)
            if op in ("add", "sub") and rng.random() < 0.7:
                b = WIDE.scaleb(number(rng, 0, 0), max(-99, min(99, a.adjusted() + rng.randrange(-16, 17))))
            mode = rng.choice(list(MODES))
            yield op, mode, spelled(a), spelled(b), spelled(binary(op, mode, a, b))
    for a, n in [("0", 0), ("0", 3), ("5", 0), ("-2", 9), ("1.1", 255), ("9", 200), ("9", 105), (".1", 99), (".1", 100), ("3", 27), ("-1", 255)]:
        for mode in MODES:
            yield "power", mode, spelled(D(a)), "%d" % n, spelled(power(mode, D(a), n))
    for a in ["0", "2", "-2", "4", "1E-99", "1E99", "9.999999999999E99", "9.999999999999", "99.99999999999", "1.000000000001", "1E-98", "144", ".5"]:
        yield "sqr", spelled(D(a)), spelled(root(D(a)))
    for _ in range(12):
        a = abs(number(rng))
        yield "sqr", spelled(a), spelled(root(a))
    for a, n in [("2.345", 2), ("-2.345", 2), ("2.5", 0), ("-2.5", 0), ("9.999999999999", 5), ("9999999999999", -1), ("9.6E99", -99), ("4.9E99", -99),
                 ("1E-99", 99), ("5E-99", 98), ("4.999999999999E-99", 98), ("1234567", -3), ("7", -1), ("4.999999999999", -1), ("5", -1), ("1", -14),
                 ("0", 5), ("1", 100), ("1", -100), ("1", 127), ("1", -128), ("9.5E12", -13), (".0449999999999", 1)]:
        yield "round_to", spelled(D(a)), "%d" % n, spelled(multiple(D(a), n))
    for a in ["0", "1", "-1", "1.5", "-1.5", ".3", "-.3", "9999999999999", "-9999999999999", "-999999999999.9", "-99999.99999999", "1E-99", "-1E-99", "1E50",
              "-123456.7890123", "123456.7890123", "-9.999999999999"]:
        yield "int", spelled(D(a)), spelled(whole_part(D(a), ROUND_FLOOR))
        yield "fix", spelled(D(a)), spelled(whole_part(D(a), ROUND_DOWN))
    pairs = ["0", "1", "-1", "1E-99", "-1E-99", "9.999999999999E99", "10", "9.999999999999", "-10", "-9.999999999999"]
    for a in pairs:
        for b in pairs:
            yield "cmp", spelled(D(a)), spelled(D(b)), ORDERS[(D(a) > D(b)) - (D(a) < D(b))]
    for mode in MODES:
        yield "mixed", mode, "%d" % TIMES, spelled(chain(mode))


def chain(mode):
    """A million mixed operations."""
    c = context(mode)
    x = D(1)
    for _ in range(TIMES):
        x = c.multiply(x, D("1.000321765432"))
        x = c.add(x, D(".7654321"))
        x = c.divide(x, D("1.000043219876"))
        x = c.subtract(x, D(".25"))
        if x > D("1E9"):
            x = c.multiply(x, D("1E-9"))
    return x


def main():
    with open(TABLE) as f:
        before, found, after = f.read().partition(FIRST)
    assert found
    table = "".join("number %s\n" % " | ".join(row) for row in rows())
    with open(TABLE, "w") as f:
        f.write(before + FIRST + table + after[after.index("\n\n") + 1 :])
    print(table.count("\n"), "rows")


if __name__ == "__main__":
    main()
