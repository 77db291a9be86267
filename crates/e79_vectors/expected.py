#!/usr/bin/env python3
"""Writes the file stdout beside this one: what the program must print, worked out from the program's sets by exact fractions.

Each double is the one nearest to a fraction, a tie to the even one, found by whole-number arithmetic alone, and has to be the one
that the machine's own division or multiplication gives. Each printed figure is the whole part of ten thousand times a fraction and a half.
"""
import os, re, struct
from fractions import Fraction


def nearest_double(x):
    """The double nearest to a fraction x >= 0, a tie to the even one: m * 2 ** e with m below 2 ** 53."""
    if x == 0:
        return 0.0
    e = -1074
    while x >= Fraction(2) ** (e + 53):
        e += 1
    m = x / Fraction(2) ** e
    low, rest = m.numerator // m.denominator, m - m.numerator // m.denominator
    if rest > Fraction(1, 2) or rest == Fraction(1, 2) and low % 2 == 1:
        low += 1
    return float(low * Fraction(2) ** e)


def quotient(n, d):
    x = nearest_double(Fraction(n, d))
    assert x == float(n) / float(d)
    return x


def times(x, y):
    z = nearest_double(Fraction(x) * Fraction(y))
    assert z == x * y
    return z


def bits(x):
    return '-' if x is None else struct.pack('>d', x).hex()


def printed(n, d):
    if d == 0:
        return '-'
    f = Fraction(10000 * n, d) + Fraction(1, 2)
    f = f.numerator // f.denominator
    return '%d.%04d' % (f // 10000, f % 10000)


def line(total, uptime, production, actual, effective):
    pairs = [(uptime, total), (production, uptime), (actual, production), (effective, actual)]
    four = [quotient(n, d) if d else None for n, d in pairs]
    product = 0.0
    if None not in four:
        product = four[0]
        for x in four[1:]:
            product = times(product, x)
    oee = quotient(effective, total)
    exact = Fraction(effective, total)
    assert abs(Fraction(product) - exact) * 2 ** 50 <= exact
    doubles = four + [oee, product]
    figures = [printed(n, d) for n, d in pairs + [(effective, total)]]
    return ' '.join([str(n) for n in (total, uptime, production, actual, effective)] + [bits(x) for x in doubles] + figures)


here = os.path.dirname(os.path.abspath(__file__))
source = open(os.path.join(here, 'src', 'main.rt'), encoding='utf-8').read()
sets = [[int(n) for n in re.findall(r'\d+', call)] for call in re.findall(r'print_set\(([\d,\s]+)\)', source)]
with open(os.path.join(here, 'stdout'), 'w', encoding='ascii') as out:
    for five in sets:
        out.write(line(*five) + '\n')
