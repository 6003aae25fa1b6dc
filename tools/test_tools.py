#!/usr/bin/env python3
"""Tests the tools against rinv on every example: the second checker agrees with `check`, accepted or not, also where one
number of a certificate is changed; Singular and Macaulay2 find what the certificate of each system claims, and find out the
forged ones whose claim is false; the module and the Sage code give what rinv prints; the syntax file and the manual page
have every word. What needs a system that is not installed is skipped, and said so.

usage: tools/test_tools.py      after the program is built; RINV names another program, as for tools/rinv.py
"""

import doctest
import os
import pathlib
import re
import shutil
import subprocess
import sys
import tempfile

import rinv

TOP = pathlib.Path(__file__).resolve().parent.parent
TOOLS = TOP / "tools"
BUDGET = {"frobenius-kernel.rinv": "budget pairs 1000000\n"}
# What Singular and Macaulay2 say of the forged certificates. They use neither cofactors nor pairs, so a certificate in
# which these alone are wrong claims what is true; and what has not the format gets no script.
FORGED = {
    "signs-field-8.json": "no C1 3",
    "signs-wrong-cofactor.json": "all hold",
    "translations-no-pairs.json": "all hold",
    "translations-no-relation.json": "FAILS the relations cover the basis",
    "translations-wrong-unit.json": "FAILS law L5",
}
failed = []


def printed(command, text):
    ran = subprocess.run(command, input=text, stdout=subprocess.PIPE, stderr=subprocess.DEVNULL, cwd=TOP, text=True, check=False)
    return ran.stdout.splitlines()


def hold(what, holds):
    print("ok" if holds else "FAILS", what)
    if not holds:
        failed.append(what)


def raises(wanted, what, call):
    try:
        call()
        hold(f"rinv.py: {what}", False)
    except wanted as why:
        hold(f"rinv.py: {what}: {why}", True)
        return why


def examples(folder, pattern):
    return sorted((TOP / "examples" / folder).glob(pattern))


def certificates():
    """The certificates of the examples, and those of the generators of all systems, each with a name."""
    for path in examples("certificates", "*.json"):
        yield path.name, rinv.Certificate.read(path)
    for path in examples("systems", "*.rinv"):
        system = rinv.System.of(path.read_text(encoding="ascii") + BUDGET.get(path.name, ""))
        yield path.name, system.certify()


def agree(name, text):
    hold(f"recheck.py agrees on {name}", printed([TOOLS / "recheck.py"], text) == rinv.run(["check"], text)[1])


def changed(text, count):
    """The text with one of its numbers changed, at so many places."""
    places = list(re.finditer(r"\d+", text))
    for k in range(count):
        place = places[(2 * k + 1) * len(places) // (2 * count)]
        yield f"{place.start()}", text[:place.start()] + str(int(place[0]) + 1) + text[place.end():]


def second_checker(found):
    for path in examples("refused", "*.json"):
        agree(path.name, path.read_text(encoding="ascii"))
    for name, certificate in found:
        agree(name, certificate.text)
        for place, text in changed(certificate.text, 5 if len(certificate.text) < 100_000 else 0):
            agree(f"{name}, changed at byte {place}", text)


def other_systems(found):
    for system, words in rinv.SYSTEMS.items():
        for name, certificate in found:
            hold(f"recheck_in.py {system}: a script of {name}", len(certificate.script(system).splitlines()) > 4)
        if not shutil.which(words[0]):
            print(f"skipped: {words[0]} is not installed")
            continue
        for name, certificate in found:
            hold(f"{system} finds what {name} claims", certificate.holds_in(system))
        for name, said in FORGED.items():
            certificate = (TOP / "examples/refused" / name).read_text(encoding="ascii")
            hold(f"{system} on {name}: {said}", is_told_by(system, words, certificate, said))


def is_told_by(system, words, certificate, said):
    """Whether the other system, or recheck_in.py in its place, says this of a forged certificate."""
    script = subprocess.run([TOOLS / "recheck_in.py", system], input=certificate, capture_output=True, text=True, check=False)
    if script.returncode != 0:
        return script.stderr.splitlines() == [said]
    lines = printed(words, script.stdout)
    return said in lines and lines[-1] == ("all hold" if said == "all hold" else "something fails")


def module():
    os.chdir(TOP)
    hold("rinv.py: its documentation", doctest.testmod(rinv).failed == 0)
    rotations = rinv.System.read("examples/systems/rotations.rinv")
    hold("rinv.py: laws", rotations.laws())
    hold("rinv.py: generators", rotations.generators() == ["x^2 + y^2"] and rotations.generators().worth == "complete")
    answers = rotations.run("def r = x^2+y^2", "laws", "invariant r^2")
    hold("rinv.py: a script", answers == ["laws 1 hold", "invariant 2 yes", "done"])
    answers = rotations.rewrite_all(["x/y", "2*(x^2+y^2)"])
    hold("rinv.py: several rewritten", isinstance(answers[0], rinv.NotInvariant) and answers[1] == "2*y1")
    on_a_line = rinv.System.read("examples/systems/rotations-on-a-line.rinv")
    hold("rinv.py: on a section", on_a_line.generators().worth == "complete on section")
    hold("rinv.py: a certificate on a section", on_a_line.certify().kind == "sound")
    errors()
    certificate_objects(rotations)
    polynomials()


def errors():
    def refused(name):
        return rinv.System.read(TOP / "examples/refused" / name)

    rotations = rinv.System.read(TOP / "examples/systems/rotations.rinv")
    why = raises(rinv.Refused, "a line is refused", rinv.System.of("field 7\ngroup a'\n").laws)
    hold("rinv.py: its line and code", why and (why.line, why.code) == (2, "Expression"))
    why = raises(rinv.LawFails, "a law fails", refused("rotations-wrong-product.rinv").generators)
    hold("rinv.py: its law, part and rest", why and (why.law, why.part, why.rest) == ("L2", 1, "4*a*b*a'*b'"))
    why = raises(rinv.Incomplete, "a budget is met", refused("scalings-no-pairs.rinv").certify)
    hold("rinv.py: its phase and cause", why and (why.phase, why.cause) == ("group", "pairs 0"))
    why = raises(rinv.NotInvariant, "a fraction is not invariant", lambda: rotations.rewrite("x"))
    hold("rinv.py: its rest", why and why.rest == "a*x + 100*b*y + 100*x")
    raises(rinv.SectionMisses, "a section misses", rinv.System.of(rotations.with_lines("section 1")).generators)
    on_a_line = rinv.System.read(TOP / "examples/systems/scalings-on-a-line.rinv")
    raises(rinv.VanishingDenominator, "a denominator vanishes", lambda: on_a_line.rewrite("(x*y-x)/(y^2-y)"))
    why = raises(rinv.Refused, "a certificate is refused", rinv.Certificate("{}").check)
    hold("rinv.py: its part and place", why and (why.part, why.place) == ("version", 0))
    raises(ValueError, "a fraction of two lines", lambda: rotations.rewrite("x\nlaws"))


def certificate_objects(rotations):
    with tempfile.TemporaryDirectory() as folder:
        path = pathlib.Path(folder) / "rotations.json"
        rotations.certify().write(path)
        certificate = rinv.Certificate.read(path)
        rotations.write(path)
        hold("rinv.py: a system is read as it was written", rinv.System.read(path).text == rotations.text)
    hold("rinv.py: a certificate is read as it was written", certificate.text == rotations.certify().text)
    for who, verdict in (("check", certificate.check()), ("recheck", certificate.recheck())):
        hold(f"rinv.py: {who}", verdict and verdict.worth == "complete" and verdict.fractions == ["x^2 + y^2"])
    forged = certificate.value()
    forged["unit"] = [0, 1]
    for who, verdict in (("check", rinv.check(forged)), ("recheck", rinv.Certificate(forged).recheck())):
        hold(f"rinv.py: {who} of a forged one", (bool(verdict), verdict.condition, verdict.place) == (False, "C2", 5))


class Polynomial:
    """An element of a polynomial ring: something that is printed as one."""

    def __init__(self, text):
        self.text = text

    def __str__(self):
        return self.text


class Field:
    def order(self):
        return 101


def polynomials():
    of = lambda *texts: list(map(Polynomial, texts))
    rotations = rinv.System(Field(), of("a", "b"), of("x", "y"), ideal=of("a**2 + b**2 - 1"), unit=[1, 0], second=of("c", "d"),
                            product=of("a*c - b*d", "a*d + b*c"), inverse=of("a", "-b"), action=of("a*x - b*y", "b*x + a*y"))
    hold("rinv.py: a system of polynomials", rotations.generators() == ["x^2 + y^2"])
    hold("rinv.py: a polynomial rewritten", rotations.rewrite(Polynomial("x**2 + y**2")) == "y1")


def sage():
    text = (TOP / "examples/systems/similarities.rinv").read_text(encoding="ascii")
    code = "\n".join(printed([TOOLS / "to_sage.py"], text))
    hold("to_sage.py: the generators", "'(x*u + y*v)/(u^2 + v^2)'" in code)
    if not shutil.which("sage"):
        print("skipped: sage is not installed")
        return
    code += "\nprint(value('y1/y2') == generators[0]/generators[1])\n"
    hold("to_sage.py: expressions have their values", printed(["sage", "-c", code], "")[-1:] == ["True"])


def editor():
    """The words that stand first in the tables of docs/FORMATS.md, up to the codes, are known to vim and to the manual page."""
    tables = (TOP / "docs/FORMATS.md").read_text(encoding="utf-8").split("### What is refused")[0]
    words = {word for line in re.findall(r"^\| (`[^|]*) \|", tables, re.MULTILINE) for word in re.findall(r"\w+", line)}
    for path in ("editors/vim/syntax/rinv.vim", "man/rinv.1"):
        text = (TOP / path).read_text(encoding="ascii")
        hold(f"{path} has every word", len(words) > 10 and all(re.search(rf"\b{word}\b", text) for word in words))


every = list(certificates())
second_checker(every)
other_systems(every)
module()
editor()
sage()
print(f"failed: {len(failed)}")
sys.exit(1 if failed else 0)
