#!/usr/bin/env python3
"""Checks a certificate a second time, by a program that shares nothing with rinv.

Reads the JSON of a certificate and multiplies every identity out again; the conditions C1 to C8 are those of
docs/DEFINITIONS.md. It prints what `rinv check` prints, and ends with the same status: 0 where the certificate is
accepted, 1 where a condition fails, 3 where the text is no certificate. Nothing outside Python's own library is used.

usage: tools/recheck.py < CERTIFICATE
"""

import json
import re
import sys

PRIMES = (2, 3, 5, 7, 101, 32003)
MOST_DEGREE = 10_000
MOST_BYTES = 16_777_216
COMMON = ["version", "kind", "field", "group", "space", "ideal", "unit", "product", "inverse", "action", "fractions",
          "invariance"]
KEYS = {
    "invariance": COMMON,
    "sound": COMMON + ["laws"],
    "full": COMMON + ["laws", "basis", "inputs", "pairs", "relations"],
}
LAWS = ["L2", "L3", "L4", "L5", "L6", "A2"]
WORTH = {"invariance": "invariant", "sound": "sound", "full": "complete"}


class Refused(Exception):
    """The text is no certificate: the part and the place that are told."""


class Fails(Exception):
    """A condition fails: its number and the place."""


class TooHigh(Exception):
    """Two monomials are to be multiplied whose degrees add up to more than the limit."""


# ---- reading


class Spelled:
    """A number that is not written in digits alone."""

    def __init__(self, text):
        self.text = text


def whole(text):
    return int(text) if text.isdigit() else Spelled(text)


def no_number(text):
    raise ValueError(text)


def is_whole(d):
    return isinstance(d, int) and not isinstance(d, bool) and d < 2**32


def is_list(d, of):
    return isinstance(d, list) and all(map(of, d))


def is_text(d):
    return isinstance(d, str)


def is_wholes(d):
    return is_list(d, is_whole)


def is_term(d):
    return isinstance(d, list) and len(d) == 2 and is_whole(d[0]) and is_wholes(d[1])


def is_polynomial(d):
    return is_list(d, is_term)


def is_polynomials(d):
    return is_list(d, is_polynomial)


def is_fraction(d):
    return isinstance(d, list) and len(d) == 2 and is_polynomials(d)


def is_element(d):
    return isinstance(d, list) and len(d) == 2 and is_polynomial(d[0]) and is_polynomials(d[1])


def is_pair(d):
    if not isinstance(d, list) or len(d) < 3 or not all(map(is_whole, d[1:3])):
        return False
    if d[0] == "coprime":
        return len(d) == 3
    if d[0] == "chain":
        return len(d) == 4 and is_whole(d[3])
    return d[0] == "quotients" and len(d) == 4 and is_polynomials(d[3])


def is_tied(d):
    return isinstance(d, list) and len(d) == 2 and d[0] in ("constant", "generator") and is_whole(d[1])


def is_tail_item(d):
    return isinstance(d, list) and len(d) == 3 and is_wholes(d[0]) and is_polynomial(d[1]) and is_tied(d[2])


def is_relation(d):
    return (isinstance(d, list) and len(d) == 4 and is_wholes(d[0]) and is_polynomial(d[1])
            and is_list(d[2], is_tail_item) and is_polynomials(d[3]))


SHAPES = {
    "group": is_text, "space": is_text, "ideal": is_polynomial, "unit": is_whole, "product": is_polynomial,
    "inverse": is_polynomial, "action": is_polynomial, "fractions": is_fraction, "invariance": is_polynomials,
    "basis": is_element, "inputs": is_polynomials, "pairs": is_pair, "relations": is_relation,
}


def read(data):
    """The certificate, as the JSON has it."""
    try:
        if len(data) > MOST_BYTES:
            raise Refused("input", "too long")
        found = json.loads(data.decode("utf-8"), parse_int=whole, parse_float=Spelled, parse_constant=no_number)
    except (ValueError, RecursionError):
        raise Refused("json", 0) from None
    if not isinstance(found, dict):
        raise Refused("object", 0)
    if not is_whole(found.get("version")) or found["version"] != 1:
        raise Refused("version", 0)
    kind = found.get("kind")
    if not is_text(kind) or kind not in KEYS:
        raise Refused("kind", 0)
    if set(found) - set(KEYS[kind]):
        raise Refused("key", 0)
    for key in KEYS[kind][2:]:
        read_key(found.get(key), key)
    return found


def read_key(value, key):
    if key == "field":
        if not is_whole(value):
            raise Refused(key, 0)
    elif key == "laws":
        if not isinstance(value, dict):
            raise Refused(key, 0)
        for place, law in enumerate(LAWS, 1):
            if not is_list(value.get(law), is_polynomials):
                raise Refused(key, place)
        if set(value) - set(LAWS):
            raise Refused(key, 7)
    else:
        if not isinstance(value, list):
            raise Refused(key, 0)
        for place, item in enumerate(value, 1):
            if not SHAPES[key](item):
                raise Refused(key, place)


# ---- polynomials in so many variables: a dictionary from exponents to residues


class Polynomials:
    def __init__(self, p, variables):
        self.p, self.variables = p, variables

    def constant(self, c):
        return {(0,) * self.variables: c % self.p} if c % self.p else {}

    def variable(self, k):
        return {tuple(int(j == k) for j in range(self.variables)): 1}

    def sum(self, f, g, times=1):
        total = dict(f)
        for e, c in g.items():
            v = (total.get(e, 0) + times * c) % self.p
            if v:
                total[e] = v
            else:
                total.pop(e, None)
        return total

    def difference(self, f, g):
        return self.sum(f, g, -1)

    def product(self, f, g):
        if f and g and degree(f) + degree(g) > MOST_DEGREE:
            raise TooHigh
        total = {}
        for d, b in f.items():
            for e, c in g.items():
                m = tuple(map(int.__add__, d, e))
                total[m] = (total.get(m, 0) + b * c) % self.p
        return {e: c for e, c in total.items() if c}

    def combination(self, cofactors, polys):
        total = {}
        for u, h in zip(cofactors, polys):
            total = self.sum(total, self.product(u, h))
        return total

    def value(self, f, images):
        """f at these images of its variables: each term is its coefficient times them, one after another."""
        powers, total = {}, {}
        for exponents, c in f.items():
            term, so_far = self.constant(c), 0
            for k, e in enumerate(exponents):
                if not e or not term:
                    continue
                so_far += e * degree(images[k])
                if images[k] and so_far > MOST_DEGREE:
                    raise TooHigh
                if (k, e) not in powers:
                    powers[k, e] = self.power(images[k], e)
                term = self.product(term, powers[k, e])
            total = self.sum(total, term)
        return total

    def power(self, f, e):
        result = self.constant(1)
        while e:
            if e & 1:
                result = self.product(result, f)
            e >>= 1
            f = self.product(f, f) if e else f
        return result


def degree(f):
    return max(map(sum, f), default=0)


def widened(f, before, behind):
    """f with so many variables more before and behind its own."""
    return {(0,) * before + e + (0,) * behind: c for e, c in f.items()}


def grevlex(exponents):
    """A key: greater for greater monomials."""
    return (sum(exponents), tuple(-e for e in reversed(exponents)))


def is_divided(m, by):
    return all(e >= d for e, d in zip(m, by))


# ---- the system of a certificate


class System:
    def __init__(self, c):
        self.p = c["field"]
        self.group, self.space = c["group"], c["space"]
        self.l, self.n = len(self.group), len(self.space)
        for key in ("ideal", "product", "inverse", "action"):
            setattr(self, key, [poly(f) for f in c[key]])
        self.unit = c["unit"]

    def ring(self, variables):
        return Polynomials(self.p, variables)

    def points(self, copies, extra):
        """The ring of so many points of the group and more variables; the points, the unit, and the other variables."""
        ring = self.ring(copies * self.l + extra)
        variables = [ring.variable(k) for k in range(ring.variables)]
        points = [variables[k * self.l:(k + 1) * self.l] for k in range(copies)]
        unit = [ring.constant(v) for v in self.unit]
        return ring, points, unit, variables[copies * self.l:]

    def ideals(self, copies, extra):
        """The group's ideal in each copy of its variables."""
        return [widened(f, k * self.l, (copies - k - 1) * self.l + extra) for k in range(copies) for f in self.ideal]


def poly(terms):
    return {tuple(e): c for c, e in terms}


# ---- the condition on the format


def is_good(s, variables):
    def test(terms):
        exponents = [tuple(e) for _, e in terms]
        return (all(1 <= c < s.p for c, _ in terms)
                and all(len(e) == variables and sum(e) <= MOST_DEGREE for e in exponents)
                and all(d > e for d, e in zip(exponents, exponents[1:])))
    return test


def are_good(s, count, variables, polys):
    return len(polys) == count and all(map(is_good(s, variables), polys))


def are_names(names, given):
    plain = [n for n in names if len(n) <= 16 and re.fullmatch(r"[A-Za-z][A-Za-z0-9_]*", n) and not re.fullmatch(r"y[0-9]+", n)]
    return 1 <= len(names) <= 8 and len(plain) == len(names) and len(set(given + names)) == len(given + names)


def law_shapes(s):
    """For each law with cofactors: how many parts, how many cofactors each, in how many variables."""
    m = len(s.ideal)
    return {"L2": (m, 2 * m, 2 * s.l), "L3": (m, m, s.l), "L4": (s.l, 3 * m, 3 * s.l), "L5": (2 * s.l, m, s.l),
            "L6": (2 * s.l, m, s.l), "A2": (s.n, 2 * m, 2 * s.l + s.n)}


def is_pair_item(s, basis_count):
    def test(item):
        kind, i, j = item[:3]
        if not 1 <= i < j <= basis_count:
            return False
        if kind == "chain":
            return 1 <= item[3] <= basis_count and item[3] not in (i, j)
        return kind == "coprime" or are_good(s, basis_count, s.l + 2 * s.n, item[3])
    return test


def is_relation_item(s, fraction_count):
    def are_exponents(a):
        return len(a) == s.n and sum(a) <= MOST_DEGREE

    def is_tail(item):
        alpha, c, (tie, k) = item
        tied = k < s.p if tie == "constant" else 1 <= k <= fraction_count
        return are_exponents(alpha) and is_good(s, s.n)(c) and tied

    def test(item):
        a, d, tail, us = item
        return (are_exponents(a) and bool(d) and is_good(s, s.n)(d) and all(map(is_tail, tail))
                and len({tuple(t[0]) for t in tail}) == len(tail) and are_good(s, len(s.ideal), s.l + s.n, us))
    return test


def formats(c, s):
    """The number of each key, and whether its value has the format."""
    l, n, m = s.l, s.n, len(c["ideal"])
    yield 3, c["field"] in PRIMES
    yield 4, are_names(c["group"], [])
    yield 5, are_names(c["space"], c["group"])
    yield 6, m <= 64 and all(map(is_good(s, l), c["ideal"]))
    yield 7, len(c["unit"]) == l and all(v < s.p for v in c["unit"])
    yield 8, are_good(s, l, 2 * l, c["product"])
    yield 9, are_good(s, l, l, c["inverse"])
    yield 10, are_good(s, n, l + n, c["action"])
    yield 11, all(is_good(s, n)(f[0]) and f[1] and is_good(s, n)(f[1]) for f in c["fractions"])
    yield 12, len(c["invariance"]) == len(c["fractions"]) and all(are_good(s, m, l + n, us) for us in c["invariance"])
    if c["kind"] == "invariance":
        return
    shapes = law_shapes(s)
    yield 13, all(len(c["laws"][law]) == shapes[law][0] and all(are_good(s, *shapes[law][1:], us) for us in c["laws"][law])
                  for law in LAWS)
    if c["kind"] == "sound":
        return
    b = len(c["basis"])
    yield 14, all(h and is_good(s, l + 2 * n)(h) and are_good(s, m, l + n, us) for h, us in c["basis"])
    yield 15, len(c["inputs"]) == m + n and all(are_good(s, b, l + 2 * n, us) for us in c["inputs"])
    yield 16, all(map(is_pair_item(s, b), c["pairs"]))
    yield 17, all(map(is_relation_item(s, len(c["fractions"])), c["relations"]))


# ---- the conditions on identities


def each(number, items, holds):
    """The condition holds for each item; the first for which it does not is told."""
    for place, item in enumerate(items, 1):
        try:
            good = holds(item)
        except TooHigh:
            good = False
        if not good:
            raise Fails(number, place)


def check_laws(c, s):
    def holds(law):
        ring, parts, ideals = law_parts(s, law)
        cofactors = c["laws"].get(law, [[] for _ in parts])
        return all(part == ring.combination(map(poly, us), ideals) for part, us in zip(parts, cofactors))

    each(2, ["L1", "L2", "L3", "L4", "L5", "L6", "A1", "A2"], holds)


def law_parts(s, law):
    """The ring of a law's parts, the parts, and the ideals in which they shall lie."""
    copies, extra = {"L1": 0, "L2": 2, "L3": 1, "L4": 3, "L5": 1, "L6": 1, "A1": 0, "A2": 2}[law], s.n * (law[0] == "A")
    ring, points, e, x = s.points(copies, extra)

    def at(polys, *point):
        images = [image for part in point for image in part]
        return [ring.value(f, images) for f in polys]

    def differences(left, right):
        return [ring.difference(f, g) for f, g in zip(left, right)]

    def times(v, w):
        return at(s.product, v, w)

    a, b, z = (points + [None] * 3)[:3]
    parts = {
        "L1": lambda: at(s.ideal, e),
        "L2": lambda: at(s.ideal, times(a, b)),
        "L3": lambda: at(s.ideal, at(s.inverse, a)),
        "L4": lambda: differences(times(times(a, b), z), times(a, times(b, z))),
        "L5": lambda: differences(times(e, a), a) + differences(times(a, e), a),
        "L6": lambda: differences(times(at(s.inverse, a), a), e) + differences(times(a, at(s.inverse, a)), e),
        "A1": lambda: differences(at(s.action, e, x), x),
        "A2": lambda: differences(at(s.action, a, at(s.action, b, x)), at(s.action, times(a, b), x)),
    }[law]()
    return ring, parts, s.ideals(copies, extra)


def vanishes_on_graph(s, h, us):
    """h at Z = g is the combination of the group's ideal."""
    ring, (a,), _, x = s.points(1, s.n)
    return ring.value(h, a + s.action + x) == ring.combination(map(poly, us), s.ideals(1, s.n))


def check_basis(c, s):
    each(3, c["basis"], lambda item: vanishes_on_graph(s, poly(item[0]), item[1]))


def check_inputs(c, s, elements):
    ring = s.ring(s.l + 2 * s.n)
    graph = [ring.difference(ring.variable(s.l + k), past_z(f, s)) for k, f in enumerate(s.action)]
    inputs = zip(s.ideals(1, 2 * s.n) + graph, c["inputs"])
    each(4, inputs, lambda item: item[0] == ring.combination(map(poly, item[1]), elements))


def past_z(f, s):
    """A polynomial in the group's and the space's variables, with Z between them."""
    return {e[:s.l] + (0,) * s.n + e[s.l:]: c for e, c in f.items()}


def block_key(s):
    return lambda m: (grevlex(m[:s.l]), grevlex(m[s.l:s.l + s.n]), grevlex(m[s.l + s.n:]))


def check_pairs(c, s, elements):
    key = block_key(s)
    leads = [max(h, key=key) for h in elements]
    listed = set()

    def holds(item):
        pair = tuple(item[1:3])
        good = pair not in listed and settles(s, key, elements, leads, listed, item)
        listed.add(pair)
        return good

    each(5, c["pairs"], holds)
    if len(listed) < len(elements) * (len(elements) - 1) // 2:
        raise Fails(5, len(c["pairs"]) + 1)


def settles(s, key, elements, leads, listed, item):
    kind, i, j = item[:3]
    first, second = leads[i - 1], leads[j - 1]
    both = tuple(map(max, first, second))
    if kind == "coprime":
        return not any(map(min, first, second))
    if kind == "chain":
        k = item[3]
        return is_divided(both, leads[k - 1]) and {tuple(sorted((i, k))), tuple(sorted((k, j)))} <= listed
    ring, f, g = s.ring(s.l + 2 * s.n), elements[i - 1], elements[j - 1]
    quotients = [poly(q) for q in item[3]]
    left = {tuple(map(int.__sub__, both, first)): g[second]}
    right = {tuple(map(int.__sub__, both, second)): f[first]}
    s_polynomial = ring.difference(ring.product(left, f), ring.product(right, g))
    if s_polynomial != ring.combination(quotients, elements):
        return False
    reached = [tuple(map(int.__add__, max(q, key=key), lead)) for q, lead in zip(quotients, leads) if q]
    return all(key(m) < key(both) for m in reached)


def check_relations(c, s):
    ring, wide = s.ring(s.n), s.ring(s.l + 2 * s.n)
    fractions = [tuple(map(poly, f)) for f in c["fractions"]]

    def holds(item):
        a, d, tail, us = item
        d = poly(d)
        relation = wide.product(z_power(s, a), widened(d, s.l + s.n, 0))
        for alpha, u, tied in tail:
            u = poly(u)
            if not (grevlex(alpha) < grevlex(a) and is_tied_to(ring, fractions, d, u, tied)):
                return False
            relation = wide.difference(relation, wide.product(z_power(s, alpha), widened(u, s.l + s.n, 0)))
        return vanishes_on_graph(s, relation, us)

    each(6, c["relations"], holds)


def z_power(s, a):
    return {(0,) * s.l + tuple(a) + (0,) * s.n: 1}


def is_tied_to(ring, fractions, d, u, tied):
    """u/d is the constant, or the fraction with this number."""
    tie, k = tied
    if tie == "constant":
        return u == ring.product(ring.constant(k), d)
    num, den = fractions[k - 1]
    return ring.product(u, den) == ring.product(d, num)


def check_leads(c, s, elements):
    key = block_key(s)

    def holds(h):
        z_part = max(h, key=key)[s.l:s.l + s.n]
        has_group = any(any(e[:s.l]) for e in h)
        return has_group or any(is_divided(z_part, r[0]) for r in c["relations"])

    each(7, elements, holds)


def check_invariance(c, s):
    ring = s.ring(s.l + s.n)
    x = [ring.variable(s.l + k) for k in range(s.n)]
    images = s.action

    def holds(item):
        (num, den), us = item
        num, den = poly(num), poly(den)
        change = ring.difference(ring.product(ring.value(num, images), ring.value(den, x)),
                                 ring.product(ring.value(num, x), ring.value(den, images)))
        return change == ring.combination(map(poly, us), s.ideals(1, s.n))

    each(8, zip(c["fractions"], c["invariance"]), holds)


def check(c):
    """Every condition of the certificate's kind, in their order."""
    s = System(c)
    for number, good in formats(c, s):
        if not good:
            raise Fails(1, number)
    if c["kind"] != "invariance":
        check_laws(c, s)
    if c["kind"] == "full":
        elements = [poly(h) for h, _ in c["basis"]]
        check_basis(c, s)
        check_inputs(c, s, elements)
        check_pairs(c, s, elements)
        check_relations(c, s)
        check_leads(c, s, elements)
    check_invariance(c, s)


# ---- printing


def term_text(names, exponents, c):
    powers = [name if e == 1 else f"{name}^{e}" for name, e in zip(names, exponents) if e]
    return "*".join(([str(c)] if c != 1 or not powers else []) + powers)


def poly_text(names, f):
    monomials = sorted(f, key=grevlex, reverse=True)
    return " + ".join(term_text(names, m, f[m]) for m in monomials) or "0"


def fraction_text(names, num, den):
    above, below = poly_text(names, num), poly_text(names, den)
    if below == "1":
        return above
    above = f"({above})" if len(num) > 1 else above
    return f"{above}/({below})" if len(den) > 1 or "*" in below else f"{above}/{below}"


def main():
    try:
        c = read(sys.stdin.buffer.read(MOST_BYTES + 1))
        check(c)
    except Refused as why:
        print("refused", *why.args)
        return 3
    except Fails as why:
        number, place = why.args
        print(f"no C{number} {place}")
        return 1
    print("yes")
    for k, (num, den) in enumerate(c["fractions"], 1):
        print(f"y{k} =", fraction_text(c["space"], poly(num), poly(den)))
    print(WORTH[c["kind"]])
    return 0


if __name__ == "__main__":
    sys.exit(main())
