#!/usr/bin/env python3
"""Writes a system and its generators as Sage code: the rings, the generators, and what rewrites in them.

The code defines K, the field of fractions of the space's polynomials; `generators`, the list of the generators in K; S,
the field of fractions in y1, y2, ..; and `value`, which gives for an expression in S the element of K that it is.

usage: tools/to_sage.py < SYSTEM > generators.sage      it runs `rinv gen` on the system
"""

import re
import sys

import rinv


def named(text, word):
    """What stands behind a word of the system's text."""
    line = next(line for line in text.splitlines() if line.split("#")[0].strip().startswith(word))
    return line.split("#")[0].strip()[len(word):].strip()


def main():
    text = sys.stdin.read()
    found = rinv.System.of(text).generators()
    field, space = named(text, "field"), re.sub(r"\s", "", named(text, "space"))
    symbols = ",".join(f"y{k}" for k in range(1, len(found) + 1)) or "y1"
    print(f"R = PolynomialRing(GF({field}), '{space}', order='degrevlex')")
    print("K = R.fraction_field()")
    print(f"generators = [K(g) for g in {list(found)!r}]")
    print(f"S = PolynomialRing(GF({field}), '{symbols}', order='degrevlex').fraction_field()")
    print("def value(expression):")
    print("    e = S(expression)")
    print("    return e.numerator()(*generators) / e.denominator()(*generators)")
    return 0


if __name__ == "__main__":
    sys.exit(main())
