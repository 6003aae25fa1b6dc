#!/usr/bin/env python3
"""Writes a certificate as a script by which Singular or Macaulay2 tests what it claims, with Gröbner bases of their own.

The cofactors and the pairs of the certificate are not used: the other system finds out by itself whether polynomials lie
in ideals. A line is printed for each thing that is tested, `ok ..` or `FAILS ..`, and at the end `all hold` or
`something fails`. What is tested, by the kind of the certificate:

  all kinds      the change N(g)*D - N*D(g) of each fraction N/D lies in the group's ideal
  sound, full    the parts of each law lie in the ideal of the points of the group of which the law speaks
  full           the basis is a Gröbner basis of the ideal of the action's graph; the relations lie in this ideal, their
                 coefficients are the constants and the fractions to which they are tied, and their leading monomials
                 cover the basis

A certificate that is refused or has not the format (C1) gets no script: the line that `check` has for it stands on standard
error, and the status is 3 or 1.

usage: tools/recheck_in.py singular < CERTIFICATE | Singular -q
       tools/recheck_in.py macaulay2 < CERTIFICATE > script.m2; M2 --script script.m2
"""

import sys

import recheck

LAWS = ["L1", "L2", "L3", "L4", "L5", "L6", "A1", "A2"]
COPIES = {"L1": 0, "L2": 2, "L3": 1, "L4": 3, "L5": 1, "L6": 1, "A1": 0, "A2": 2}


class Singular:
    def begin(self):
        yield "int bad = 0;"

    def ring(self, number, p, blocks):
        names = ",".join(name for block in blocks for name in block)
        yield f"ring R{number} = {p},({names}),({','.join(f'dp({len(block)})' for block in blocks)});"

    def told(self, what, test):
        yield f'if ({test}) {{ print("ok {what}"); }} else {{ print("FAILS {what}"); bad = bad + 1; }}'

    def members(self, what, polys, ideal):
        yield f"ideal J = {', '.join(ideal)}; J = std(J); ideal P = {', '.join(polys)};"
        yield from self.told(what, "size(reduce(P, J)) == 0")
        yield "kill J, P;"

    def groebner(self, what, elements, ideal):
        yield f"ideal J = {', '.join(ideal)}; J = std(J); ideal H = {', '.join(elements)};"
        yield from self.told(what, "size(reduce(H, J)) == 0 and size(reduce(lead(J), std(lead(H)))) == 0")
        yield "kill J, H;"

    def end(self):
        yield 'if (bad == 0) { print("all hold"); } else { print("something fails"); }'
        yield "quit;"


class Macaulay2:
    def begin(self):
        yield "bad = 0;"

    def ring(self, number, p, blocks):
        names = ",".join(name for block in blocks for name in block)
        orders = ",".join(f"GRevLex=>{len(block)}" for block in blocks)
        yield f"R = ZZ/{p}[{names},MonomialOrder=>{{{orders}}}]; use R;"

    def told(self, what, test):
        yield f'if {test} then print "ok {what}" else (print "FAILS {what}"; bad = bad + 1);'

    def members(self, what, polys, ideal):
        yield f"J = ideal({', '.join(f'({f})_R' for f in ideal)}); P = {{{', '.join(f'({f})_R' for f in polys)}}};"
        yield from self.told(what, "all(P, f -> f % J == 0)")

    def groebner(self, what, elements, ideal):
        yield f"J = ideal({', '.join(f'({f})_R' for f in ideal)}); H = {{{', '.join(f'({f})_R' for f in elements)}}};"
        yield from self.told(what, "all(H, f -> f % J == 0) and ideal leadTerm J == ideal apply(H, leadTerm)")

    def end(self):
        yield 'print (if bad == 0 then "all hold" else "something fails");'


def names(letter, count):
    return [f"{letter}{k}" for k in range(1, count + 1)]


def block_names(s, copies, extra):
    """The variables of so many points of the group, and then so many of the space."""
    return [name for k in range(copies) for name in names("abc"[k], s.l)] + names("x", extra)


def texts(variables, polys):
    """The polynomials as texts; where there is none, zero."""
    return [recheck.poly_text(variables, f) for f in polys] or ["0"]


class Script:
    def __init__(self, said, s):
        self.said, self.s, self.rings, self.lines = said, s, 0, list(said.begin())

    def ring(self, *blocks):
        self.rings += 1
        self.lines += self.said.ring(self.rings, self.s.p, [block for block in blocks if block])

    def members(self, what, variables, polys, ideal):
        self.lines += self.said.members(what, texts(variables, polys), texts(variables, ideal))

    def laws(self):
        for law in LAWS:
            copies, extra = COPIES[law], self.s.n if law[0] == "A" else 0
            variables = block_names(self.s, copies, extra)
            _, parts, ideals = recheck.law_parts(self.s, law)
            self.ring(variables or ["t"])
            self.members(f"law {law}", variables or ["t"], parts, ideals)

    def basis(self, c):
        s = self.s
        blocks = [names("a", s.l), names("z", s.n), names("x", s.n)]
        variables = sum(blocks, [])
        wide = s.ring(len(variables))
        graph = [wide.difference(wide.variable(s.l + k), recheck.past_z(f, s)) for k, f in enumerate(s.action)]
        inputs = texts(variables, s.ideals(1, 2 * s.n) + graph)
        elements = [recheck.poly(h) for h, _ in c["basis"]]
        self.ring(*blocks)
        self.lines += self.said.groebner("the basis is one of the graph", texts(variables, elements), inputs)
        for number, item in enumerate(c["relations"], 1):
            self.relation(c, variables, inputs, number, item)
        leads = [max(h, key=recheck.block_key(s)) for h in elements if not any(any(e[:s.l]) for e in h)]
        covered = [{(0,) * s.l + m[s.l:s.l + s.n] + (0,) * s.n: 1} for m in leads]
        self.members("the relations cover the basis", variables, covered, [recheck.z_power(s, r[0]) for r in c["relations"]])

    def relation(self, c, variables, inputs, number, item):
        s, (a, d, tail, _) = self.s, item
        space = variables[s.l + s.n:]
        monomial = lambda e: recheck.poly_text(variables, recheck.z_power(s, e))
        below = recheck.poly_text(space, recheck.poly(d))
        total, ties = f"({below})*{monomial(a)}", []
        for alpha, u, (tie, k) in tail:
            above = recheck.poly_text(space, recheck.poly(u))
            total += f" - ({above})*{monomial(alpha)}"
            num, den = (str(k), "1") if tie == "constant" else \
                [recheck.poly_text(space, recheck.poly(f)) for f in c["fractions"][k - 1]]
            ties.append(f"({above})*({den}) - ({below})*({num})")
        self.lines += self.said.members(f"relation {number} lies in its ideal", [total], inputs)
        self.lines += self.said.members(f"relation {number} has these coefficients", ties or ["0"], ["0"])

    def changes(self, c):
        s = self.s
        variables = block_names(s, 1, s.n)
        ring, (group,), _, x = s.points(1, s.n)
        self.ring(variables)
        for number, fraction in enumerate(c["fractions"], 1):
            num, den = map(recheck.poly, fraction)
            change = ring.difference(ring.product(ring.value(num, s.action), ring.value(den, x)),
                                     ring.product(ring.value(num, x), ring.value(den, s.action)))
            self.members(f"y{number} is invariant", variables, [change], s.ideals(1, s.n))


def main():
    systems = {"singular": Singular, "macaulay2": Macaulay2}
    if len(sys.argv) != 2 or sys.argv[1] not in systems:
        print(__doc__.strip(), file=sys.stderr)
        return 2
    try:
        c = recheck.read(sys.stdin.buffer.read(recheck.MOST_BYTES + 1))
        s = recheck.System(c)
        for number, good in recheck.formats(c, s):
            if not good:
                raise recheck.Fails(1, number)
    except recheck.Refused as why:
        print("refused", *why.args, file=sys.stderr)
        return 3
    except recheck.Fails as why:
        print("no C{} {}".format(*why.args), file=sys.stderr)
        return 1
    script = Script(systems[sys.argv[1]](), s)
    if c["kind"] != "invariance":
        script.laws()
    if c["kind"] == "full":
        script.basis(c)
    script.changes(c)
    print(*script.lines, *script.said.end(), sep="\n")
    return 0


if __name__ == "__main__":
    sys.exit(main())
